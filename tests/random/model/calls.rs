// The calls of CP/M, over a state with its whole memory and all its files.

use super::files::{is_sayable, matches, Key, Record, Search, MOST_RECORDS};
use super::processor::{A, B, C, D, E, H, L};
use super::{Cause, State};
use std::rc::Rc;

const ABSENT: u16 = 0xff;
const NO_RECORD: u16 = 1;
const PLACE_TOO_LARGE: u16 = 2;
const NO_EXTENT: u16 = 4;
const RANDOM_PLACE_TOO_LARGE: u16 = 6;
pub const INPUT_AND_OUTPUT_BYTE: u16 = 3;
const STANDARD_BUFFER: u16 = 0x80;
// The offsets of a control block.
const EXTENT_BYTE: u16 = 12;
const UPPER_EXTENT_BYTE: u16 = 14;
const RECORD_COUNT: u16 = 15;
const NEW_NAME: u16 = 17;
const RECORD_BYTE: u16 = 32;
pub const RANDOM_PLACE: u16 = 33;

pub struct Desk {
    pub cursor: usize,
    pub text: Vec<u8>,
    column: u64,
    pub buffer: u16,
    pub drive: u8,
    pub search: Option<Search>,
}

impl Desk {
    pub fn new() -> Desk {
        Desk { cursor: 0, text: Vec::new(), column: 0, buffer: STANDARD_BUFFER, drive: 0, search: None }
    }

    fn send(&mut self, byte: u8) {
        self.text.push(byte);
        self.column = match byte {
            0x0d => 0,
            0x08 => self.column.saturating_sub(1),
            0x20..=0x7e | 0x80.. => self.column + 1,
            _ => self.column,
        };
    }

    fn print(&mut self, byte: u8) {
        if byte != 0x09 {
            return self.send(byte);
        }
        self.send(b' ');
        while !self.column.is_multiple_of(8) {
            self.send(b' ');
        }
    }

    fn take(&mut self, script: &[u8]) -> Option<u8> {
        let byte = script.get(self.cursor).copied()?;
        self.cursor += 1;
        Some(byte)
    }
}

// A line taken from the script: what is stored, what is sent, and how many bytes were taken.
struct Line {
    stored: Vec<u8>,
    sent: Vec<u8>,
    taken: usize,
}

fn echo(byte: u8) -> Vec<u8> {
    if byte < 0x20 {
        vec![b'^', byte + 0x40]
    } else {
        vec![byte]
    }
}

fn take_line(capacity: usize, rest: &[u8]) -> Result<Line, Cause> {
    let mut line = Line { stored: Vec::new(), sent: Vec::new(), taken: 0 };
    while line.stored.len() < capacity {
        let byte = *rest.get(line.taken).ok_or(Cause::ConsoleExhausted)?;
        line.taken += 1;
        match byte {
            0x0d | 0x0a => {
                line.sent.push(0x0d);
                break;
            }
            0x08 => {
                if line.stored.pop().is_some() {
                    line.sent.extend([0x08, 0x20, 0x08]);
                }
            }
            0x7f => {
                if let Some(last) = line.stored.pop() {
                    line.sent.extend(echo(last));
                }
            }
            0x03 if line.stored.is_empty() => return Err(Cause::WarmBoot),
            _ => {
                line.stored.push(byte);
                line.sent.extend(echo(byte));
            }
        }
    }
    Ok(line)
}

// Whether a call of this number has a control block with a name.
pub fn names_a_file(number: u8) -> bool {
    matches!(number, 15..=17 | 19..=23 | 33..=36 | 40)
}

impl State {
    // The call whose number is in C. A stop changes nothing.
    pub fn call(&mut self, script: &[u8]) -> Result<(), Cause> {
        let number = self.processor.registers[C];
        let back = self.processor.word(self.processor.stack);
        let value = match number {
            0 => return Err(Cause::WarmBoot),
            1 | 2 | 6..=12 => self.console_call(number, script)?,
            13 | 14 | 24..=26 => self.drive_call(number)?,
            18 => self.search_next(),
            _ if names_a_file(number) => self.file_call(number)?,
            _ => return Err(Cause::Unsupported(number)),
        };
        self.processor.set_pair(H, value);
        self.processor.registers[A] = self.processor.registers[L];
        self.processor.registers[B] = self.processor.registers[H];
        self.processor.next = back;
        self.processor.stack = self.processor.stack.wrapping_add(2);
        Ok(())
    }

    fn console_call(&mut self, number: u8, script: &[u8]) -> Result<u16, Cause> {
        let argument = self.processor.registers[E];
        match number {
            1 => {
                let byte = self.desk.take(script).ok_or(Cause::ConsoleExhausted)?;
                if byte >= 0x20 || [0x08, 0x09, 0x0a, 0x0d].contains(&byte) {
                    self.desk.print(byte);
                }
                return Ok(byte as u16);
            }
            2 => self.desk.print(argument),
            6 if argument == 0xff => return Ok(self.desk.take(script).unwrap_or(0) as u16),
            6 => self.desk.text.push(argument),
            7 => return Ok(self.processor.byte(INPUT_AND_OUTPUT_BYTE) as u16),
            8 => self.processor.set_byte(INPUT_AND_OUTPUT_BYTE, argument),
            9 => self.print_string()?,
            10 => self.read_line(script)?,
            11 => return Ok(if self.desk.cursor < script.len() { 0xff } else { 0 }),
            _ => return Ok(0x22),
        }
        Ok(0)
    }

    fn print_string(&mut self) -> Result<(), Cause> {
        let start = self.processor.pair(D);
        let text: Vec<u8> =
            (0..=0xffff).map(|offset| self.processor.byte(start.wrapping_add(offset))).take_while(|byte| *byte != b'$').collect();
        if text.len() == 65536 {
            return Err(Cause::NoDollar);
        }
        text.into_iter().for_each(|byte| self.desk.print(byte));
        Ok(())
    }

    fn read_line(&mut self, script: &[u8]) -> Result<(), Cause> {
        let at = self.processor.pair(D);
        let line = take_line(self.processor.byte(at) as usize, &script[self.desk.cursor..])?;
        self.desk.cursor += line.taken;
        line.sent.into_iter().for_each(|byte| self.desk.send(byte));
        self.processor.set_byte(at.wrapping_add(1), line.stored.len() as u8);
        self.put(at.wrapping_add(2), &line.stored);
        Ok(())
    }

    fn drive_call(&mut self, number: u8) -> Result<u16, Cause> {
        let argument = self.processor.registers[E];
        match number {
            13 => {
                self.desk.drive = 0;
                self.desk.buffer = STANDARD_BUFFER;
            }
            14 if argument > 3 => return Err(Cause::BadDrive(argument)),
            14 => self.desk.drive = argument,
            24 => return Ok(0x000f),
            25 => return Ok(self.desk.drive as u16),
            _ => self.desk.buffer = self.processor.pair(D),
        }
        Ok(0)
    }

    // Bytes into the cells from an address on; those behind the last cell begin again at the first.
    fn put(&mut self, start: u16, bytes: &[u8]) {
        if let Some(cells) = self.processor.memory[start as usize..].get_mut(..bytes.len()) {
            return cells.copy_from_slice(bytes);
        }
        for (offset, byte) in (0..).zip(bytes) {
            self.processor.set_byte(start.wrapping_add(offset), *byte);
        }
    }

    fn get(&self, start: u16) -> Record {
        match self.processor.memory[start as usize..].first_chunk() {
            Some(cells) => *cells,
            None => std::array::from_fn(|offset| self.processor.byte(start.wrapping_add(offset as u16))),
        }
    }

    // A byte of the control block.
    pub fn field(&self, offset: u16) -> u8 {
        self.processor.byte(self.processor.pair(D).wrapping_add(offset))
    }

    fn set_field(&mut self, offset: u16, byte: u8) {
        let at = self.processor.pair(D).wrapping_add(offset);
        self.processor.set_byte(at, byte);
    }

    // The key of the name that stands at this place of the control block, on the control block's drive.
    pub fn key(&self, offset: u16) -> Result<Key, Cause> {
        let mut key = [0; 12];
        key[0] = match self.field(0) {
            0 => self.desk.drive,
            letter @ 1..=4 => letter - 1,
            other => return Err(Cause::BadDrive(other)),
        };
        (0..11).for_each(|place| key[place + 1] = self.field(offset + place as u16));
        Ok(key)
    }

    pub fn sequential_place(&self) -> usize {
        let field = |offset| self.field(offset) as usize;
        4096 * field(UPPER_EXTENT_BYTE) + 128 * field(EXTENT_BYTE) + field(RECORD_BYTE)
    }

    // The number in the lower two bytes of the random place.
    pub fn random_place(&self) -> usize {
        self.field(RANDOM_PLACE) as usize + 256 * self.field(RANDOM_PLACE + 1) as usize
    }

    fn set_sequential_place(&mut self, place: usize) {
        self.set_field(RECORD_BYTE, (place % 128) as u8);
        self.set_field(EXTENT_BYTE, (place / 128 % 32) as u8);
        self.set_field(UPPER_EXTENT_BYTE, (place / 4096) as u8);
    }

    // A number into the three bytes of the random place.
    fn set_random_place(&mut self, number: usize) {
        (0..3).for_each(|byte| self.set_field(RANDOM_PLACE + byte, (number >> (8 * byte)) as u8));
    }

    fn file_call(&mut self, number: u8) -> Result<u16, Cause> {
        let key = self.key(1)?;
        Ok(match number {
            17 => {
                self.desk.search = Some(Search { pattern: key, extent: self.field(EXTENT_BYTE), last: None });
                self.search_next()
            }
            19 => self.delete(&key),
            22 => self.make(&key),
            23 => self.rename(&key, &self.key(NEW_NAME)?),
            36 => {
                self.set_random_place(self.sequential_place());
                0
            }
            35 => self.tell_size(&key),
            _ if !self.files.contains_key(&key) => ABSENT,
            15 => self.open(&key),
            16 => 0,
            20 | 21 => self.sequential_call(number, &key),
            _ => self.random_call(number, &key),
        })
    }

    fn tell_size(&mut self, key: &Key) -> u16 {
        let length = self.files.get(key).map(|file| file.length());
        self.set_random_place(length.unwrap_or(0));
        if length.is_some() {
            0
        } else {
            ABSENT
        }
    }

    fn sequential_call(&mut self, number: u8, key: &Key) -> u16 {
        let place = self.sequential_place();
        if number == 20 {
            return if self.read(key, place, place + 1) { 0 } else { NO_RECORD };
        }
        if place >= MOST_RECORDS {
            return PLACE_TOO_LARGE;
        }
        self.write(key, place, place + 1, false);
        0
    }

    fn random_call(&mut self, number: u8, key: &Key) -> u16 {
        if self.field(RANDOM_PLACE + 2) != 0 {
            return RANDOM_PLACE_TOO_LARGE;
        }
        let place = self.random_place();
        if number != 33 {
            self.write(key, place, place, number == 40);
        } else if !self.read(key, place, place) {
            return if self.files[key].extent_count(place / 128) > 0 { NO_RECORD } else { NO_EXTENT };
        }
        0
    }

    fn open(&mut self, key: &Key) -> u16 {
        let count = self.files[key].extent_count(self.field(EXTENT_BYTE) as usize);
        for offset in [13, 14].into_iter().chain(16..32) {
            self.set_field(offset, 0);
        }
        self.set_field(RECORD_COUNT, count);
        0
    }

    // Reads the record at a place into the buffer, where there is one, and goes to another place.
    fn read(&mut self, key: &Key, place: usize, after: usize) -> bool {
        let Some(record) = self.files[key].read(place).copied() else { return false };
        self.put(self.desk.buffer, &record);
        self.set_sequential_place(after);
        true
    }

    fn write(&mut self, key: &Key, place: usize, after: usize, filled: bool) {
        let record = self.get(self.desk.buffer);
        let file = Rc::make_mut(self.files.get_mut(key).expect("the file is there"));
        if filled {
            file.write_filled(place, &record);
        } else {
            file.write(place, &record);
        }
        self.set_sequential_place(after);
    }

    fn make(&mut self, key: &Key) -> u16 {
        if self.files.contains_key(key) || !is_sayable(key) {
            return ABSENT;
        }
        self.files.insert(*key, Rc::default());
        (13..32).for_each(|offset| self.set_field(offset, 0));
        0
    }

    fn rename(&mut self, old: &Key, new: &Key) -> u16 {
        if self.files.contains_key(new) || !is_sayable(new) {
            return ABSENT;
        }
        let Some(file) = self.files.remove(old) else { return ABSENT };
        self.files.insert(*new, file);
        0
    }

    fn delete(&mut self, pattern: &Key) -> u16 {
        let before = self.files.len();
        self.files.retain(|key, _| !matches(pattern, key));
        if self.files.len() < before {
            0
        } else {
            ABSENT
        }
    }

    fn search_next(&mut self) -> u16 {
        let entry = self.desk.search.as_mut().and_then(|search| search.advance(&self.files));
        match entry {
            Some(buffer) => {
                self.put(self.desk.buffer, &buffer);
                0
            }
            None => {
                self.desk.search = None;
                ABSENT
            }
        }
    }
}

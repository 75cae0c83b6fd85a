// Programs made at random from a grammar of 8080 instructions and CP/M calls: code, and behind it the data that it works on.

mod changes;
pub mod statements;

use super::any_name;
use super::random::Random;
use crate::model::{Key, PROGRAM_START, RECORD};

// What a byte of a program is to it, so that a poke can put something sensible there.
#[derive(Clone, Copy, PartialEq)]
pub enum Kind {
    Number,
    Call,
    Count,
    Letter,
    Drive,
    Place,
}

pub struct Program {
    pub bytes: Vec<u8>,
    pub spots: Vec<(usize, Kind)>,
}

#[derive(Clone, Copy)]
enum At {
    Data(usize),
    Fixed(u16),
}

impl At {
    fn past(self, offset: usize) -> At {
        match self {
            At::Data(place) => At::Data(place + offset),
            At::Fixed(address) => At::Fixed(address.wrapping_add(offset as u16)),
        }
    }
}

const LOAD_B: u8 = 0x01;
const LOAD_D: u8 = 0x11;
const LOAD_H: u8 = 0x21;
const LOAD_A: u8 = 0x3a;
const STORE_A: u8 = 0x32;
const NUMBER_A: u8 = 0x3e;
const NUMBER_B: u8 = 0x06;
const NUMBER_C: u8 = 0x0e;
const NUMBER_E: u8 = 0x1e;
const COMPARE_NUMBER: u8 = 0xfe;
const JUMP: u8 = 0xc3;
const JUMP_UNLESS_ZERO: u8 = 0xc2;
const CALL: u8 = 0xcd;
const RETURN: u8 = 0xc9;
const HALT: u8 = 0x76;
const MOVE_E_A: u8 = 0x5f;
const MOVE_E_CELL: u8 = 0x5e;
const DECREMENT_CELL: u8 = 0x35;
const UNDEFINED: [u8; 12] = [0x08, 0x10, 0x18, 0x20, 0x28, 0x30, 0x38, 0xcb, 0xd9, 0xdd, 0xed, 0xfd];
const FIRST_NAME: u16 = 0x5c;
const SECOND_NAME: u16 = 0x6c;
const BUFFER: u16 = 0x80;

#[derive(Default)]
struct Builder {
    random: Random,
    names: Vec<Key>,
    code: Vec<u8>,
    data: Vec<u8>,
    // Words of the code that are to hold an address of the data, and those that are to hold a subroutine's.
    data_words: Vec<(usize, usize)>,
    subroutine_words: Vec<usize>,
    code_spots: Vec<(usize, Kind)>,
    data_spots: Vec<(usize, Kind)>,
    blocks: Vec<usize>,
    // A control block whose name is a pattern.
    pattern: usize,
    strings: Vec<usize>,
    cells: Vec<usize>,
    line: usize,
    area: usize,
    depth: usize,
}

// A program over the files of these names.
pub fn program(random: &mut Random, names: &[Key]) -> Program {
    if random.chance(2) {
        let length = random.below(200);
        return Program { bytes: (0..length).map(|_| random.byte()).collect(), spots: Vec::new() };
    }
    let mut builder = Builder { random: Random::new(random.next()), names: names.to_vec(), ..Default::default() };
    builder.make_data();
    for _ in 0..builder.random.between(2, 12) {
        builder.statement();
    }
    builder.end();
    builder.subroutine();
    builder.finish()
}

// A piece of code that a file may hold: it prints a byte and returns.
pub fn small_code(random: &mut Random) -> Vec<u8> {
    vec![NUMBER_C, 2, NUMBER_E, random.printable(), CALL, 5, 0, RETURN]
}

// Data.
impl Builder {
    fn make_data(&mut self) {
        let ends_strings = !self.random.chance(12);
        for _ in 0..self.random.between(1, 3) {
            self.blocks.push(self.data.len());
            self.control_block(false);
        }
        self.pattern = self.data.len();
        self.control_block(true);
        for _ in 0..self.random.between(1, 3) {
            self.string(ends_strings);
        }
        for _ in 0..self.random.between(2, 4) {
            let byte = self.random.byte();
            self.cells.push(self.data.len());
            self.datum(Kind::Number, byte);
        }
        self.line = self.data.len();
        let capacity = self.random.between(0, 9) as u8;
        self.datum(Kind::Count, capacity);
        self.data.extend([0; 10]);
        self.area = self.data.len();
        let mut area = small_code(&mut self.random);
        area.resize(if self.random.chance(85) { RECORD } else { 8 }, 0);
        self.data.extend(area);
    }

    fn datum(&mut self, kind: Kind, byte: u8) {
        self.data_spots.push((self.data.len(), kind));
        self.data.push(byte);
    }

    fn control_block(&mut self, as_pattern: bool) {
        let key = *self.random.pick(&self.names);
        let other = if self.random.chance(40) { *self.random.pick(&self.names) } else { any_name(&mut self.random) };
        let drive = match self.random.below(100) {
            0..2 => self.random.byte(),
            2..60 if key[0] == 0 => 0,
            _ => key[0] + 1,
        };
        let extent = match self.random.below(100) {
            0..90 if !as_pattern => 0,
            0..60 => 0,
            60..98 => *self.random.pick(if as_pattern { b"?" } else { &[1, 2] }),
            _ => *self.random.pick(&[b'?', 31, 255]),
        };
        // The upper part of the sequential place: no record can be written where it is 16 or more.
        let upper = match self.random.below(100) {
            0 => self.random.between(1, 2) as u8,
            1 => self.random.between(16, 17) as u8,
            _ => 0,
        };
        let (place, random_place) = (self.random.place(), self.random.place());
        let high = if self.random.chance(97) { 0 } else { self.random.between(1, 2) as u8 };
        let overflow = self.random.chance(4) as u8;
        self.datum(Kind::Drive, drive);
        self.name(&key, as_pattern);
        self.datum(Kind::Place, extent);
        self.data.extend([0, upper, 0, 0]);
        self.name(&other, false);
        self.data.extend([0; 4]);
        self.datum(Kind::Place, place);
        self.datum(Kind::Place, random_place);
        self.data.extend([high, overflow]);
    }

    // The eleven bytes of a name, as a pattern or at times as one, and at times as a name that can't be said.
    fn name(&mut self, key: &Key, as_pattern: bool) {
        let all = self.random.chance(if as_pattern { 60 } else { 2 });
        let some = self.random.chance(if as_pattern { 80 } else { 4 });
        let spoilt = self.random.chance(3);
        for byte in &key[1..] {
            let byte = match () {
                _ if all || some && self.random.chance(40) => b'?',
                _ if spoilt && self.random.chance(15) => self.random.byte(),
                _ if spoilt && self.random.chance(15) => *self.random.pick(b" .:"),
                _ => *byte,
            };
            self.datum(Kind::Letter, byte);
        }
    }

    fn string(&mut self, ends: bool) {
        self.strings.push(self.data.len());
        for _ in 0..self.random.below(9) {
            let byte =
                if self.random.chance(85) { self.random.printable() } else { *self.random.pick(&[9, 8, 10, 13, 7, 0x7f, 0xe1]) };
            self.datum(Kind::Number, if byte == b'$' { b'.' } else { byte });
        }
        if ends {
            self.datum(Kind::Number, b'$');
        }
    }

    fn block(&mut self) -> At {
        match self.random.below(100) {
            0..80 => At::Data(*self.random.pick(&self.blocks)),
            80..94 => At::Fixed(FIRST_NAME),
            94..97 => At::Fixed(SECOND_NAME),
            97 | 98 => At::Fixed(*self.random.pick(&[0xffe8, 0xffff, 0xfdf0])),
            _ => At::Fixed(*self.random.pick(&[BUFFER, 0])),
        }
    }

    fn cell(&mut self) -> At {
        At::Data(*self.random.pick(&self.cells))
    }

    fn area(&mut self) -> At {
        At::Data(self.area)
    }
}

// Code.
impl Builder {
    fn here(&self) -> usize {
        PROGRAM_START + self.code.len()
    }

    fn put(&mut self, bytes: &[u8]) {
        self.code.extend(bytes);
    }

    // An instruction with a number of one byte behind it.
    fn with_number(&mut self, opcode: u8, kind: Kind, number: u8) {
        self.code.push(opcode);
        self.code_spots.push((self.code.len(), kind));
        self.code.push(number);
    }

    // An instruction with an address behind it.
    fn with_address(&mut self, opcode: u8, at: At) {
        self.code.push(opcode);
        match at {
            At::Fixed(address) => self.code.extend(address.to_le_bytes()),
            At::Data(place) => {
                self.data_words.push((self.code.len(), place));
                self.code.extend([0, 0]);
            }
        }
    }

    fn with_target(&mut self, opcode: u8, target: usize) {
        self.with_address(opcode, At::Fixed(target as u16));
    }

    // A jump over what this makes.
    fn jump_over(&mut self, opcode: u8, make: impl FnOnce(&mut Self)) {
        self.with_address(opcode, At::Fixed(0));
        let place = self.code.len() - 2;
        make(self);
        let target = self.here() as u16;
        self.code[place..place + 2].copy_from_slice(&target.to_le_bytes());
    }

    fn system_call(&mut self, number: u8) {
        self.with_number(NUMBER_C, Kind::Call, number);
        self.put(&[CALL, 5, 0]);
    }

    fn call_with_byte(&mut self, number: u8, argument: u8) {
        self.with_number(NUMBER_E, Kind::Number, argument);
        self.system_call(number);
    }

    fn call_with_address(&mut self, number: u8, argument: At) {
        self.with_address(LOAD_D, argument);
        self.system_call(number);
    }

    fn print_a(&mut self) {
        self.put(&[MOVE_E_A]);
        self.system_call(2);
    }

    fn end(&mut self) {
        if self.random.chance(30) {
            self.sum_cells();
        }
        match self.random.below(100) {
            0..50 => self.put(&[RETURN]),
            50..58 => self.put(&[JUMP, 0, 0]),
            58..66 => self.system_call(0),
            66..78 => self.put(&[HALT]),
            78..84 => {
                let top = self.here();
                self.with_target(JUMP, top);
            }
            84..88 => {
                let byte = *self.random.pick(&UNDEFINED);
                self.put(&[byte]);
            }
            88..92 => {
                let address = 0xfe00 + self.random.below(512) as u16;
                self.with_address(JUMP, At::Fixed(address));
            }
            92..95 => self.with_target(JUMP, PROGRAM_START),
            _ => {}
        }
    }

    // What all calls of a subroutine go to; it is not called from itself.
    fn subroutine(&mut self) {
        let target = self.here() as u16;
        for place in std::mem::take(&mut self.subroutine_words) {
            self.code[place..place + 2].copy_from_slice(&target.to_le_bytes());
        }
        self.depth = 2;
        for _ in 0..self.random.between(1, 3) {
            self.statement();
        }
        let early = *self.random.pick(&[0xc0, 0xc8, 0xd0, 0xd8, 0xe0, 0xe8, 0xf0, 0xf8]);
        self.put(&[early]);
        self.statement();
        self.put(&[RETURN]);
        for place in std::mem::take(&mut self.subroutine_words) {
            self.code[place..place + 2].copy_from_slice(&5u16.to_le_bytes());
        }
    }

    fn finish(self) -> Program {
        let mut bytes = self.code;
        let start = bytes.len();
        for (place, datum) in self.data_words {
            let address = (PROGRAM_START + start + datum) as u16;
            bytes[place..place + 2].copy_from_slice(&address.to_le_bytes());
        }
        bytes.extend(self.data);
        let spots =
            self.code_spots.into_iter().chain(self.data_spots.into_iter().map(|(place, kind)| (start + place, kind))).collect();
        Program { bytes, spots }
    }
}

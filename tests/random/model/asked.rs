// What a run asked its session, each question with the first step that asked it. The notes are beside the run: it has the whole memory
// and all files, and they say which cells it wrote, and which parts of its files are still those of host files.

use super::calls::{names_a_file, INPUT_AND_OUTPUT_BYTE, RANDOM_PLACE};
use super::files::{is_sayable, Key, MOST_RECORDS, RECORD};
use super::processor::{Processor, A, B, C, D, E, H};
use super::{Cause, Session, State, Watch, ENTRY_FOR_CALLS, SYSTEM_AREA, WARM_START};
use std::collections::{BTreeMap, BTreeSet};
use std::ops::Range;

// A question to a session, in the order of a listing.
#[derive(Clone, Copy, PartialEq, Eq, PartialOrd, Ord)]
pub enum Question {
    Cell(u16),
    Script(usize),
    Has(Key),
    Length(Key),
    Record(Key, usize),
    Directory(u8),
}

// The questions of a run with their first steps, where its files come from, and its stop.
pub struct Asked {
    pub first_steps: BTreeMap<Question, u64>,
    pub origins: BTreeMap<Key, Origin>,
    pub cause: Cause,
    pub steps: u64,
}

impl Asked {
    pub fn of(session: &Session) -> Asked {
        let mut notes = Notes::new(session);
        let (steps, cause) = State::load(session).run(session, &mut notes);
        Asked { first_steps: notes.first_steps, origins: notes.origins, cause, steps }
    }

    pub fn has(&self, question: Question) -> bool {
        self.first_steps.contains_key(&question)
    }
}

// Where a file comes from: the host file, whether its length is the host file's, and which of its records are.
pub struct Origin {
    pub host: Key,
    pub has_host_length: bool,
    pub is_host_record: Vec<bool>,
}

impl Origin {
    fn of_host(key: Key, length: usize) -> Origin {
        Origin { host: key, has_host_length: true, is_host_record: vec![true; length] }
    }

    fn of_made(key: Key) -> Origin {
        Origin { host: key, has_host_length: false, is_host_record: Vec::new() }
    }

    fn write(&mut self, number: usize) {
        if number >= self.is_host_record.len() {
            self.has_host_length = false;
            self.is_host_record.resize(number + 1, false);
        }
        self.is_host_record[number] = false;
    }
}

pub(super) struct Notes<'a> {
    script: &'a [u8],
    step: u64,
    first_steps: BTreeMap<Question, u64>,
    // The cells that the run wrote or asked for, so that a read asks for nothing new.
    is_settled: Vec<bool>,
    // Each file that is there.
    origins: BTreeMap<Key, Origin>,
    // The names of files that the run made, deleted or renamed, both names of a rename.
    changed: BTreeSet<Key>,
    // The cells that the step reads, whether it asks for them or not; a cell may be here twice.
    pub(super) reads: Vec<u16>,
    // What the step writes if it is executed: these cells, or a record; or what the result of its call says.
    pub(super) writes: Vec<u16>,
    record: Option<(Key, usize)>,
    call: Option<u8>,
}

impl Watch for Notes<'_> {
    fn tries(&mut self, state: &State) {
        self.reads.clear();
        self.writes.clear();
        self.record = None;
        self.call = None;
        match state.processor.next {
            WARM_START => {}
            ENTRY_FOR_CALLS => self.call(state),
            SYSTEM_AREA.. => {}
            _ => self.instruction(&state.processor),
        }
    }

    fn went(&mut self, state: &State) {
        if let Some(number) = self.call {
            self.writes = call_writes(number, state);
            self.files_after(number, state);
        }
        for address in &self.writes {
            self.is_settled[*address as usize] = true;
        }
        self.step += 1;
    }
}

impl<'a> Notes<'a> {
    pub(super) fn new(session: &'a Session) -> Notes<'a> {
        Notes {
            script: &session.script,
            step: 0,
            first_steps: BTreeMap::new(),
            is_settled: vec![false; 65536],
            origins: session.hosts.iter().map(|(key, file)| (*key, Origin::of_host(*key, file.length()))).collect(),
            changed: BTreeSet::new(),
            reads: Vec::new(),
            writes: Vec::new(),
            record: None,
            call: None,
        }
    }

    fn ask(&mut self, question: Question) {
        self.first_steps.entry(question).or_insert(self.step);
    }

    fn cell(&mut self, address: u16) {
        self.reads.push(address);
        if !self.is_settled[address as usize] {
            self.is_settled[address as usize] = true;
            self.ask(Question::Cell(address));
        }
    }

    fn cells(&mut self, addresses: impl IntoIterator<Item = u16>) {
        addresses.into_iter().for_each(|address| self.cell(address));
    }

    fn instruction(&mut self, processor: &Processor) {
        let at = processor.next;
        let opcode = processor.byte(at);
        self.cells(cells_from(at, 0..operand_bytes(opcode) + 1));
        self.cells(read_by(opcode, processor));
        self.writes = written_by(opcode, processor);
    }
}

// The cells at these offsets from an address; the first cell comes after the last.
fn cells_from(start: u16, offsets: Range<u16>) -> impl Iterator<Item = u16> {
    offsets.map(move |offset| start.wrapping_add(offset))
}

pub(super) fn operand_bytes(opcode: u8) -> u16 {
    match opcode {
        0x01 | 0x11 | 0x21 | 0x31 | 0x22 | 0x2a | 0x32 | 0x3a | 0xc3 | 0xcd => 2,
        0xd3 | 0xdb => 1,
        _ => match opcode & 0xc7 {
            0xc2 | 0xc4 => 2,
            0x06 | 0xc6 => 1,
            _ => 0,
        },
    }
}

// The cells that an instruction reads apart from its own bytes.
fn read_by(opcode: u8, processor: &Processor) -> Vec<u16> {
    let word = processor.word(processor.next.wrapping_add(1));
    let top = processor.stack;
    match opcode {
        0x0a => vec![processor.pair(B)],
        0x1a => vec![processor.pair(D)],
        0x2a => vec![word, word.wrapping_add(1)],
        0x3a => vec![word],
        0x34 | 0x35 => vec![processor.pair(H)],
        0x76 => vec![],
        0xc1 | 0xd1 | 0xe1 | 0xf1 | 0xc9 | 0xe3 => vec![top, top.wrapping_add(1)],
        _ => match opcode & 0xc7 {
            0x46 | 0x86 => vec![processor.pair(H)],
            0xc0 if processor.holds(opcode / 8 % 8) => vec![top, top.wrapping_add(1)],
            _ => vec![],
        },
    }
}

fn written_by(opcode: u8, processor: &Processor) -> Vec<u16> {
    let word = processor.word(processor.next.wrapping_add(1));
    let top = processor.stack;
    let pushed = || vec![top.wrapping_sub(2), top.wrapping_sub(1)];
    match opcode {
        0x02 => vec![processor.pair(B)],
        0x12 => vec![processor.pair(D)],
        0x22 => vec![word, word.wrapping_add(1)],
        0x32 => vec![word],
        0x76 => vec![],
        0x34..=0x36 | 0x70..=0x77 => vec![processor.pair(H)],
        0xe3 => vec![top, top.wrapping_add(1)],
        0xc5 | 0xd5 | 0xe5 | 0xf5 | 0xcd => pushed(),
        _ => match opcode & 0xc7 {
            0xc7 => pushed(),
            0xc4 if processor.holds(opcode / 8 % 8) => pushed(),
            _ => vec![],
        },
    }
}

// The number of script bytes that a line with this capacity asks for, the missing one after the last included, and whether the line
// ends.
fn line_asks(capacity: usize, rest: &[u8]) -> (usize, bool) {
    let mut stored: usize = 0;
    for (count, byte) in rest.iter().enumerate() {
        if stored == capacity {
            return (count, true);
        }
        match byte {
            0x0d | 0x0a => return (count + 1, true),
            0x08 | 0x7f => stored = stored.saturating_sub(1),
            0x03 if stored == 0 => return (count + 1, false),
            _ => stored += 1,
        }
    }
    match stored == capacity {
        true => (rest.len(), true),
        false => (rest.len() + 1, false),
    }
}

// Calls.
impl Notes<'_> {
    fn call(&mut self, state: &State) {
        let number = state.processor.registers[C];
        self.call = Some(number);
        match number {
            1 | 6 | 10 | 11 => self.script_call(number, state),
            2 | 8 | 12 | 13 | 24..=26 => self.return_address(state),
            7 => {
                self.cell(INPUT_AND_OUTPUT_BYTE);
                self.return_address(state);
            }
            9 => {
                self.return_address(state);
                self.string(state);
            }
            14 if state.processor.registers[E] < 4 => self.return_address(state),
            18 => {
                self.return_address(state);
                if let Some(search) = &state.desk.search {
                    self.ask(Question::Directory(search.pattern[0]));
                }
            }
            _ if names_a_file(number) => self.file_call(number, state),
            _ => {}
        }
    }

    fn return_address(&mut self, state: &State) {
        self.cells(cells_from(state.processor.stack, 0..2));
    }

    fn script_call(&mut self, number: u8, state: &State) {
        let start = state.desk.cursor;
        let is_left = start < self.script.len();
        let (count, returns) = match number {
            1 => (1, is_left),
            6 if state.processor.registers[E] != 0xff => (0, true),
            10 => {
                let at = state.processor.pair(D);
                self.cell(at);
                line_asks(state.processor.byte(at) as usize, &self.script[start..])
            }
            _ => (1, true),
        };
        (start..start + count).for_each(|offset| self.ask(Question::Script(offset)));
        if returns {
            self.return_address(state);
        }
    }

    // The string of function 9 with its `$`, or all cells.
    fn string(&mut self, state: &State) {
        let start = state.processor.pair(D);
        for offset in 0..=0xffff {
            let address = start.wrapping_add(offset);
            self.cell(address);
            if state.processor.byte(address) == b'$' {
                return;
            }
        }
    }

    fn file_call(&mut self, number: u8, state: &State) {
        let at = state.processor.pair(D);
        self.cell(at);
        let Ok(key) = state.key(1) else { return };
        let length = if matches!(number, 33..=36 | 40) { 36 } else { 33 };
        self.cells(cells_from(at, 0..length));
        self.return_address(state);
        match number {
            17 => self.ask(Question::Directory(key[0])),
            19 if has_wildcard(&key) => self.ask(Question::Directory(key[0])),
            22 if !is_sayable(&key) => {}
            23 => self.rename(&key, state),
            36 => {}
            19 | 22 => self.has(&key),
            _ => {
                self.has(&key);
                if state.files.contains_key(&key) {
                    self.present_file(number, &key, state);
                }
            }
        }
    }

    fn rename(&mut self, old: &Key, state: &State) {
        if let Ok(new) = state.key(17) {
            if !has_wildcard(old) && is_sayable(&new) {
                self.has(old);
                self.has(&new);
            }
        }
    }

    // What a call asks of its file, once it knows that the file is there.
    fn present_file(&mut self, number: u8, key: &Key, state: &State) {
        let is_random = matches!(number, 33 | 34 | 40);
        let place = if is_random { state.random_place() } else { state.sequential_place() };
        match number {
            16 => return,
            21 if place >= MOST_RECORDS => return,
            _ if is_random && state.field(RANDOM_PLACE + 2) != 0 => return,
            _ => self.length(key),
        }
        match number {
            20 | 33 => self.content(key, place),
            21 | 34 | 40 => {
                self.cells(cells_from(state.desk.buffer, 0..RECORD as u16));
                self.record = Some((*key, place));
            }
            _ => {}
        }
    }

    fn has(&mut self, key: &Key) {
        if !self.changed.contains(key) {
            self.ask(Question::Has(*key));
        }
    }

    fn length(&mut self, key: &Key) {
        let origin = &self.origins[key];
        if origin.has_host_length {
            self.ask(Question::Length(origin.host));
        }
    }

    fn content(&mut self, key: &Key, number: usize) {
        let origin = &self.origins[key];
        if origin.is_host_record.get(number) == Some(&true) {
            self.ask(Question::Record(origin.host, number));
        }
    }

    // Follows what a call did to the files: a record was written, or names came and went.
    fn files_after(&mut self, number: u8, state: &State) {
        if let Some((key, place)) = self.record {
            self.origins.get_mut(&key).expect("the file is there").write(place);
        }
        if !matches!(number, 19 | 22 | 23) {
            return;
        }
        let gone: Vec<Key> = self.origins.keys().filter(|key| !state.files.contains_key(*key)).copied().collect();
        let came: Vec<Key> = state.files.keys().filter(|key| !self.origins.contains_key(*key)).copied().collect();
        let mut moved = None;
        for key in gone {
            moved = self.origins.remove(&key);
            self.changed.insert(key);
        }
        for key in came {
            self.origins.insert(key, moved.take().unwrap_or_else(|| Origin::of_made(key)));
            self.changed.insert(key);
        }
    }
}

fn has_wildcard(key: &Key) -> bool {
    key[1..].contains(&b'?')
}

// The cells that a call wrote, by its result.
fn call_writes(number: u8, state: &State) -> Vec<u16> {
    let at = state.processor.pair(D);
    let succeeded = state.processor.registers[A] == 0;
    let buffer = cells_from(state.desk.buffer, 0..RECORD as u16);
    let sequential_place = [12, 14, 32].map(|offset| at.wrapping_add(offset));
    match number {
        8 => vec![INPUT_AND_OUTPUT_BYTE],
        10 => {
            let count = state.processor.byte(at.wrapping_add(1)) as u16;
            cells_from(at, 1..count + 2).collect()
        }
        35 | 36 => cells_from(at, 33..36).collect(),
        15 | 22 if succeeded => cells_from(at, 13..32).collect(),
        17 | 18 if succeeded => buffer.collect(),
        20 | 33 if succeeded => buffer.chain(sequential_place).collect(),
        21 | 34 | 40 if succeeded => sequential_place.to_vec(),
        _ => vec![],
    }
}

// A plain model of a session: edits change it, and a run begins at its loaded state each time, with the whole memory as one array
// and all files as one map.

mod calls;
mod files;
mod processor;

// Only some users of the model note what a run asked, and list it.
#[allow(dead_code)]
mod asked;
#[allow(dead_code)]
mod listing;
// Only the trace uses the text of instructions.
#[allow(dead_code)]
mod mnemonics;
#[allow(dead_code)]
mod trace;
#[allow(unused_imports)]
pub use self::{
    asked::{Asked, Origin, Question},
    files::is_sayable,
    listing::Rows,
    trace::{name_of_call, Choice, Step, Trace},
};

use asked::operand_bytes;
use calls::{names_a_file, Desk};
pub use files::{matches, name_in_folder, printed, File, Files, Key, RECORD};
use processor::{Did, Processor, A, B, C, D, E, H, L};
use std::fmt;
use std::rc::Rc;

const MOST_SCRIPT_BYTES: usize = 1_048_576;
const MOST_HOST_FILES: usize = 512;
const MOST_STEPS: u64 = 4_000_000_000;
pub const PROGRAM_START: usize = 0x100;
const SYSTEM_AREA: u16 = 0xfe00;
const ENTRY_FOR_CALLS: u16 = 0xfe06;
const WARM_START: u16 = 0xff03;
const LOADED_STACK: u16 = 0xfdfe;

#[derive(Clone)]
pub enum Edit {
    Insert(usize, Vec<u8>),
    Replace(usize, Vec<u8>),
    Remove(usize, usize),
    SetFile(Key, Vec<u8>),
    RemoveFile(Key),
    Poke(u16, Vec<u8>),
    SetLimit(u64),
}

// A session; each host file stands as the run finds it.
#[derive(Clone)]
pub struct Session {
    pub program: Vec<u8>,
    pub tail: Vec<u8>,
    pub hosts: Files,
    pub script: Vec<u8>,
    pub limit: u64,
}

impl Session {
    // Carries an edit out, or gives the number of its refusal.
    pub fn edit(&mut self, edit: &Edit) -> Result<(), u8> {
        let length = self.script.len();
        match edit {
            Edit::Insert(at, _) if *at > length => return Err(1),
            Edit::Insert(_, bytes) if length + bytes.len() > MOST_SCRIPT_BYTES => return Err(2),
            Edit::Insert(at, bytes) => {
                self.script.splice(*at..*at, bytes.iter().copied());
            }
            Edit::Replace(at, bytes) if at + bytes.len() > length => return Err(1),
            Edit::Replace(at, bytes) => self.script[*at..at + bytes.len()].copy_from_slice(bytes),
            Edit::Remove(at, count) if at + count > length => return Err(1),
            Edit::Remove(at, count) => {
                self.script.drain(*at..at + count);
            }
            Edit::SetFile(key, _) if !self.hosts.contains_key(key) && self.hosts.len() == MOST_HOST_FILES => return Err(5),
            Edit::SetFile(key, bytes) => {
                self.hosts.insert(*key, Rc::new(File::of_host(bytes)));
            }
            Edit::RemoveFile(key) => {
                self.hosts.remove(key).ok_or(3)?;
            }
            Edit::Poke(address, bytes) => {
                let place = (*address as usize).checked_sub(PROGRAM_START).ok_or(6)?;
                self.program.get_mut(place..place + bytes.len()).ok_or(6)?.copy_from_slice(bytes);
            }
            Edit::SetLimit(limit) if *limit > MOST_STEPS => return Err(7),
            Edit::SetLimit(limit) => self.limit = *limit,
        }
        Ok(())
    }
}

#[derive(Clone, PartialEq)]
pub enum Cause {
    WarmBoot,
    Halt,
    Limit,
    Undefined(u8),
    SystemArea(u16),
    ConsoleExhausted,
    NoDollar,
    Unsupported(u8),
    BadDrive(u8),
}

impl fmt::Display for Cause {
    fn fmt(&self, out: &mut fmt::Formatter) -> fmt::Result {
        match self {
            Cause::WarmBoot => write!(out, "WarmBoot"),
            Cause::Halt => write!(out, "Halt"),
            Cause::Limit => write!(out, "Limit"),
            Cause::Undefined(byte) => write!(out, "Undefined {byte:02X}"),
            Cause::SystemArea(address) => write!(out, "SystemArea {address:04X}"),
            Cause::ConsoleExhausted => write!(out, "ConsoleExhausted"),
            Cause::NoDollar => write!(out, "NoDollar"),
            Cause::Unsupported(number) => write!(out, "Unsupported {number}"),
            Cause::BadDrive(number) => write!(out, "BadDrive {number}"),
        }
    }
}

impl Cause {
    // The status of a program whose one run stops so.
    pub fn status(&self) -> i32 {
        match self {
            Cause::WarmBoot => 0,
            Cause::Limit => 3,
            Cause::Halt => 4,
            Cause::Undefined(_) => 5,
            Cause::SystemArea(_) => 6,
            Cause::ConsoleExhausted => 7,
            Cause::NoDollar => 8,
            Cause::Unsupported(_) => 9,
            Cause::BadDrive(_) => 10,
        }
    }
}

pub struct State {
    processor: Processor,
    files: Files,
    desk: Desk,
}

// The drive byte and the name of one word of the command tail, as they stand in page zero.
fn tail_name(word: &[u8]) -> [u8; 12] {
    let mut name = [b' '; 12];
    let has_drive = word.len() >= 2 && word[1] == b':' && word[0].is_ascii_uppercase();
    name[0] = if has_drive { word[0] - b'A' + 1 } else { 0 };
    let rest = if has_drive { &word[2..] } else { word };
    let mut parts = rest.split(|byte| *byte == b'.');
    for field in [1..9, 9..12] {
        let part = parts.next().unwrap_or(&[]);
        for place in 0..field.len() {
            match part.get(place) {
                Some(b'*') => {
                    name[field.start + place..field.end].fill(b'?');
                    break;
                }
                Some(byte) => name[field.start + place] = *byte,
                None => break,
            }
        }
    }
    name
}

pub fn page_zero(tail: &[u8]) -> [u8; 256] {
    let tail = tail.to_ascii_uppercase();
    let mut page = [0; 256];
    page[..3].copy_from_slice(&[0xc3, WARM_START as u8, (WARM_START >> 8) as u8]);
    page[5..8].copy_from_slice(&[0xc3, ENTRY_FOR_CALLS as u8, (ENTRY_FOR_CALLS >> 8) as u8]);
    let mut words = tail.split(|byte| *byte == b' ').filter(|word| !word.is_empty());
    for start in [0x5c, 0x6c] {
        page[start..start + 12].copy_from_slice(&tail_name(words.next().unwrap_or(&[])));
    }
    if !tail.is_empty() {
        page[0x80] = tail.len() as u8 + 1;
        page[0x81] = b' ';
        page[0x82..0x82 + tail.len()].copy_from_slice(&tail);
    }
    page
}

// The registers before a step.
#[derive(Clone, Copy, PartialEq)]
pub struct Moment {
    pub registers: [u8; 8],
    pub flags: u8,
    pub stack: u16,
    pub next: u16,
}

// How a run ended, with what it carried out: the opcodes, the calls, and the registers before each step; with the keys that calls of
// files were given, and how many bytes of the script were taken.
pub struct Run {
    pub cause: Cause,
    pub report: String,
    pub text: Vec<u8>,
    pub changed: Vec<(Key, Option<Vec<u8>>)>,
    pub opcodes: Vec<u8>,
    pub calls: Vec<u8>,
    pub trace: Vec<Moment>,
    pub keys: Vec<Key>,
    pub taken: usize,
    pub own_code: OwnCode,
}

// How many of the executed instructions of a run had a byte that the run had changed.
#[derive(Default)]
pub struct OwnCode {
    // A byte that is not the loaded one.
    pub written: u64,
    // A byte that was another when it was last executed, and, of these instructions, those on two pages and those that a call changed.
    pub changed: u64,
    pub changed_on_two_pages: u64,
    pub changed_by_a_call: u64,
    // The last step that executed a changed instruction.
    pub last_changed: usize,
}

// What is called at each step: with the state before it, and, if the step was executed, with the state after it.
pub trait Watch {
    fn tries(&mut self, state: &State);
    fn went(&mut self, state: &State);
}

impl Watch for () {
    fn tries(&mut self, _: &State) {}
    fn went(&mut self, _: &State) {}
}

// What the steps of a run were.
#[derive(Default)]
struct Notes {
    opcodes: Vec<u8>,
    calls: Vec<u8>,
    trace: Vec<Moment>,
    keys: Vec<Key>,
    // What is executed next, with its bytes.
    last: Option<(Moment, Vec<u8>)>,
    own_code: OwnCode,
    loaded: Vec<u8>,
    // The byte of each cell when it was last executed, and whether a call has changed it since.
    executed: Vec<Option<u8>>,
    by_a_call: Vec<bool>,
    before_the_call: Option<Box<[u8; 65536]>>,
}

impl Notes {
    fn note_bytes(&mut self, start: u16, bytes: &[u8]) {
        let (mut is_written, mut is_changed, mut is_by_a_call) = (false, false, false);
        for (offset, byte) in bytes.iter().enumerate() {
            let cell = start.wrapping_add(offset as u16) as usize;
            is_written |= *byte != self.loaded[cell];
            if self.executed[cell].is_some_and(|before| before != *byte) {
                is_changed = true;
                is_by_a_call |= self.by_a_call[cell];
            }
            self.executed[cell] = Some(*byte);
            self.by_a_call[cell] = false;
        }
        let last = start as usize + bytes.len() - 1;
        let code = &mut self.own_code;
        code.written += is_written as u64;
        code.changed += is_changed as u64;
        code.changed_on_two_pages += (is_changed && start as usize / 256 != last / 256) as u64;
        code.changed_by_a_call += is_by_a_call as u64;
        if is_changed {
            code.last_changed = self.trace.len();
        }
    }
}

impl Watch for Notes {
    fn tries(&mut self, state: &State) {
        let moment = state.moment();
        let number = moment.registers[C];
        let processor = &state.processor;
        if self.loaded.is_empty() {
            self.loaded = processor.memory.to_vec();
            self.executed = vec![None; 65536];
            self.by_a_call = vec![false; 65536];
        }
        let count = operand_bytes(processor.byte(moment.next)) + 1;
        self.last = Some((moment, (0..count).map(|offset| processor.byte(moment.next.wrapping_add(offset))).collect()));
        if moment.next == ENTRY_FOR_CALLS {
            self.before_the_call = Some(processor.memory.clone());
            self.calls.push(number);
            if names_a_file(number) {
                self.keys.extend(state.key(1).ok());
            }
        }
    }

    fn went(&mut self, state: &State) {
        let (moment, bytes) = self.last.take().expect("a step is tried before it went");
        if moment.next < SYSTEM_AREA {
            self.opcodes.push(bytes[0]);
            self.note_bytes(moment.next, &bytes);
        }
        if let Some(before) = self.before_the_call.take() {
            let cells = state.processor.memory.iter().zip(before.iter()).enumerate();
            cells.filter(|(_, (after, before))| after != before).for_each(|(cell, _)| self.by_a_call[cell] = true);
        }
        self.trace.push(moment);
    }
}

impl State {
    pub fn load(session: &Session) -> State {
        let mut memory = Box::new([0; 65536]);
        memory[..PROGRAM_START].copy_from_slice(&page_zero(&session.tail));
        memory[PROGRAM_START..PROGRAM_START + session.program.len()].copy_from_slice(&session.program);
        let processor =
            Processor { registers: [0; 8], stack: LOADED_STACK, next: PROGRAM_START as u16, flags: Default::default(), memory };
        State { processor, files: session.hosts.clone(), desk: Desk::new() }
    }

    fn moment(&self) -> Moment {
        let Processor { registers, flags, stack, next, .. } = self.processor;
        Moment { registers, flags: flags.byte(), stack, next }
    }

    // One step below the limit, or a stop.
    fn step(&mut self, session: &Session) -> Result<(), Cause> {
        match self.processor.next {
            WARM_START => return Err(Cause::WarmBoot),
            ENTRY_FOR_CALLS => return self.call(&session.script),
            SYSTEM_AREA.. => return Err(Cause::SystemArea(self.processor.next)),
            _ => {}
        }
        match self.processor.step() {
            Did::Went => Ok(()),
            Did::Halted => Err(Cause::Halt),
            Did::Undefined => Err(Cause::Undefined(self.processor.byte(self.processor.next))),
        }
    }

    fn registers_line(&self) -> String {
        let letters = ["B", "C", "D", "E", "H", "L"];
        let bytes: String = [B, C, D, E, H, L]
            .iter()
            .map(|code| format!("{}={:02X} ", letters[*code], self.processor.registers[*code]))
            .collect();
        let processor = &self.processor;
        let (a, flags) = (processor.registers[A], processor.flags.byte());
        format!("regs A={a:02X} F={flags:02X} {bytes}SP={:04X} PC={:04X}\n", processor.stack, processor.next)
    }

    // Steps up to the limit or a stop: how many were carried out, and why there is no further one.
    pub fn run(&mut self, session: &Session, watch: &mut impl Watch) -> (u64, Cause) {
        let mut steps = 0;
        while steps < session.limit {
            watch.tries(self);
            if let Err(cause) = self.step(session) {
                return (steps, cause);
            }
            watch.went(self);
            steps += 1;
        }
        (steps, Cause::Limit)
    }

    pub fn text(&self) -> &[u8] {
        &self.desk.text
    }

    // The files that are told otherwise than the host files of their names, in order; those without bytes are gone.
    pub fn changed(&self, session: &Session) -> Vec<(Key, Option<&[u8]>)> {
        let is_same = |key: &Key| match (self.files.get(key), session.hosts.get(key)) {
            (Some(file), Some(host)) => Rc::ptr_eq(file, host) || file.bytes() == host.bytes(),
            _ => false,
        };
        let mut keys: Vec<&Key> = self.files.keys().chain(session.hosts.keys()).filter(|key| !is_same(key)).collect();
        keys.sort();
        keys.dedup();
        keys.into_iter().map(|key| (*key, self.files.get(key).map(|file| file.bytes()))).collect()
    }
}

// The line of a report for a changed file.
pub fn changed_line((key, bytes): &(Key, Option<&[u8]>)) -> String {
    match bytes {
        None => format!("gone {}\n", printed(key)),
        Some(bytes) => format!("file {} {}\n", printed(key), digits(bytes)),
    }
}

// Bytes as the texts of edits and reports have them, before they are perhaps raised.
pub fn digits(bytes: &[u8]) -> String {
    if bytes.is_empty() {
        return "-".to_string();
    }
    let digit = |half: u8| char::from_digit(half as u32, 16).expect("half a byte is a digit");
    bytes.iter().flat_map(|byte| [digit(byte >> 4), digit(byte & 15)]).collect()
}

// The run of a session from its loaded state, with its report.
pub fn run(session: &Session) -> Run {
    let mut state = State::load(session);
    let mut notes = Notes::default();
    let (steps, cause) = state.run(session, &mut notes);
    let changed = state.changed(session);
    let (registers, text) = (state.registers_line(), digits(state.text()));
    let lines: String = changed.iter().map(changed_line).collect();
    let report = format!("stop {cause}\nsteps {steps}\n{registers}text {text}\n{lines}end\n");
    let changed = changed.into_iter().map(|(key, bytes)| (key, bytes.map(<[u8]>::to_vec))).collect();
    let Notes { opcodes, calls, trace, keys, own_code, .. } = notes;
    let State { desk, .. } = state;
    Run { cause, report, text: desk.text, changed, opcodes, calls, trace, keys, taken: desk.cursor, own_code }
}

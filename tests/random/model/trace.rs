// The trace of a run: a line for each call and each instruction, with what the filters ask about it.

use super::asked::{operand_bytes, Notes};
use super::calls::{names_a_file, RANDOM_PLACE};
use super::files::{matches, Key};
use super::mnemonics::instruction_text;
use super::processor::{A, C, D, E, H};
use super::{Cause, Session, State, Watch, ENTRY_FOR_CALLS, SYSTEM_AREA};
use std::ops::RangeInclusive;

const MOST_PRINTED: usize = 64;
const NAME: u16 = 1;
const NEW_NAME: u16 = 17;
const FILE_NAME_BYTES: u16 = 8;
const FILE_TYPE_BYTES: u16 = 3;

// Which steps have a line.
#[derive(Default)]
pub struct Choice {
    pub instructions: bool,
    pub from: Option<u64>,
    pub to: Option<u64>,
    pub at: Option<u16>,
    pub writes: Option<RangeInclusive<u16>>,
    pub reads: Option<RangeInclusive<u16>>,
    pub file: Option<Key>,
    pub last: Option<u64>,
}

// A step of a run, with its line.
pub struct Step {
    pub number: u64,
    pub address: u16,
    pub line: String,
    // The number of the call, for a call.
    pub call: Option<u8>,
    pub reads: Vec<u16>,
    pub writes: Vec<u16>,
    // The names that a call is given, or patterns of names: two for a rename.
    pub names: Vec<Key>,
}

impl Choice {
    fn has(&self, step: &Step) -> bool {
        let is_among = |range: &Option<RangeInclusive<u16>>, cells: &[u16]| {
            range.as_ref().is_none_or(|range| cells.iter().any(|cell| range.contains(cell)))
        };
        (self.instructions || step.call.is_some())
            && self.from.is_none_or(|from| step.number >= from)
            && self.to.is_none_or(|to| step.number <= to)
            && self.at.is_none_or(|at| step.address == at)
            && is_among(&self.writes, &step.writes)
            && is_among(&self.reads, &step.reads)
            && self.file.is_none_or(|file| step.names.iter().any(|name| matches(name, &file)))
    }
}

// All steps of a run that have a line for some choice, and why the run stopped.
pub struct Trace {
    pub steps: Vec<Step>,
    pub cause: Cause,
}

impl Trace {
    pub fn of(session: &Session) -> Trace {
        let mut tracer = Tracer { notes: Notes::new(session), number: 0, steps: Vec::new(), begun: None };
        let (_, cause) = State::load(session).run(session, &mut tracer);
        tracer.end_with_a_stop();
        Trace { steps: tracer.steps, cause }
    }

    // Returns the steps that have a line.
    pub fn chosen(&self, choice: &Choice) -> Vec<&Step> {
        let steps: Vec<&Step> = self.steps.iter().filter(|step| choice.has(step)).collect();
        let last = choice.last.map_or(steps.len(), |last| steps.len().min(last as usize));
        steps[steps.len() - last..].to_vec()
    }

    pub fn text(&self, choice: &Choice) -> String {
        let lines: String = self.chosen(choice).iter().map(|step| format!("{}\n", step.line)).collect();
        lines + &format!("stop {}\n", self.cause)
    }
}

// A step that was not executed yet, with what its line needs of the state before it.
struct Begun {
    step: Step,
    text_length: usize,
    // The cells that an instruction writes, in the order of writing, with their bytes before it.
    cells: Vec<(u16, u8)>,
}

struct Tracer<'a> {
    notes: Notes<'a>,
    number: u64,
    steps: Vec<Step>,
    begun: Option<Begun>,
}

impl Watch for Tracer<'_> {
    fn tries(&mut self, state: &State) {
        self.notes.tries(state);
        self.begun = self.begin(state);
    }

    fn went(&mut self, state: &State) {
        self.notes.went(state);
        if let Some(Begun { mut step, text_length, cells }) = self.begun.take() {
            step.writes = self.notes.writes.clone();
            step.line += &match step.call {
                Some(number) => result_text(number, state) + &printed_text(&state.text()[text_length..]),
                None => cells.iter().map(|(cell, old)| cell_text(*cell, *old, state.processor.byte(*cell))).collect(),
            };
            self.steps.push(step);
        }
        self.number += 1;
    }
}

impl Tracer<'_> {
    // Begins the step that comes next, if it is a call or an instruction.
    fn begin(&self, state: &State) -> Option<Begun> {
        let (number, address) = (self.number, state.processor.next);
        let (what, call, names) = match address {
            ENTRY_FOR_CALLS => (call_text(state), Some(state.processor.registers[C]), given_names(state)),
            SYSTEM_AREA.. => return None,
            _ => (instruction_line(state), None, Vec::new()),
        };
        let line = format!("step {number} {what}");
        let step = Step { number, address, line, call, reads: self.notes.reads.clone(), writes: Vec::new(), names };
        let cells = self.notes.writes.iter().map(|cell| (*cell, state.processor.byte(*cell))).collect();
        Some(Begun { step, text_length: state.text().len(), cells })
    }

    // Adds the step that stopped the run, which has no result.
    fn end_with_a_stop(&mut self) {
        self.steps.extend(self.begun.take().map(|begun| begun.step));
    }
}

// The registers before an instruction, its bytes and its text.
fn instruction_line(state: &State) -> String {
    let byte = |offset: u16| state.processor.byte(state.processor.next.wrapping_add(offset));
    let bytes: String = (0..=operand_bytes(byte(0))).map(|offset| format!("{:02X}", byte(offset))).collect();
    let registers = state.registers_line();
    format!("{} {bytes} {}", registers.trim_end(), instruction_text(byte(0), [byte(1), byte(2)]))
}

fn cell_text(cell: u16, old: u8, new: u8) -> String {
    format!(" cell {cell:04X} {old:02X} to {new:02X}")
}

pub fn name_of_call(number: u8) -> &'static str {
    match number {
        0 => "system reset",
        1 => "console input",
        2 => "console output",
        6 => "direct console i/o",
        7 => "get i/o byte",
        8 => "set i/o byte",
        9 => "print string",
        10 => "read console buffer",
        11 => "get console status",
        12 => "return version number",
        13 => "reset disk system",
        14 => "select disk",
        15 => "open file",
        16 => "close file",
        17 => "search for first",
        18 => "search for next",
        19 => "delete file",
        20 => "read sequential",
        21 => "write sequential",
        22 => "make file",
        23 => "rename file",
        24 => "return login vector",
        25 => "return current disk",
        26 => "set dma address",
        33 => "read random",
        34 => "write random",
        35 => "compute file size",
        36 => "set random record",
        40 => "write random with zero fill",
        3..=5 | 27..=32 | 37 => "unsupported",
        _ => "unknown",
    }
}

// A call with its name and what it is given.
fn call_text(state: &State) -> String {
    let number = state.processor.registers[C];
    let (byte, word) = (state.processor.registers[E], state.processor.pair(D));
    let file = || file_text(state, NAME);
    let random_number = || state.random_place() + 65536 * state.field(RANDOM_PLACE + 2) as usize;
    let record = |number: usize, way: &str| format!(" {} record {number} {way} {:04X}", file(), state.desk.buffer);
    let given = match number {
        2 | 6 | 8 | 14 => format!(" {byte:02X}"),
        9 | 10 | 26 => format!(" {word:04X}"),
        15..=17 | 19 | 22 | 35 | 36 => format!(" {}", file()),
        23 => format!(" {} to {}", file(), file_text(state, NEW_NAME)),
        20 => record(state.sequential_place(), "to"),
        21 => record(state.sequential_place(), "from"),
        33 => record(random_number(), "to"),
        34 | 40 => record(random_number(), "from"),
        _ => String::new(),
    };
    format!("call {number} {}{given}", name_of_call(number))
}

// A file by the bytes of its control block: the drive, and the name at this offset; its bytes in digits if a text would leave a doubt.
fn file_text(state: &State, offset: u16) -> String {
    let drive = state.field(0).checked_sub(1).unwrap_or(state.desk.drive);
    let bytes = |start: u16, count: u16| -> Vec<u8> { (start..start + count).map(|offset| state.field(offset)).collect() };
    let name = bytes(offset, FILE_NAME_BYTES);
    let kind = bytes(offset + FILE_NAME_BYTES, FILE_TYPE_BYTES);
    match (plain_text(&name).as_deref(), plain_text(&kind).as_deref()) {
        (None | Some(""), _) | (_, None) => [vec![drive], name, kind].concat().iter().fold("=".to_string(), |text, byte| format!("{text}{byte:02x}")),
        (Some(name), Some("")) => drive_text(drive) + name,
        (Some(name), Some(kind)) => format!("{}{name}.{kind}", drive_text(drive)),
    }
}

// A field without the blanks at its end, unless a byte that is left is a blank, a point or a colon, or is not printable.
fn plain_text(field: &[u8]) -> Option<String> {
    let length = field.iter().rposition(|byte| *byte != b' ').map_or(0, |last| last + 1);
    let is_plain = |byte: &u8| byte.is_ascii_graphic() && !b".:".contains(byte);
    field[..length].iter().all(is_plain).then(|| field[..length].iter().map(|byte| escaped(*byte)).collect())
}

fn drive_text(drive: u8) -> String {
    match drive {
        0 => String::new(),
        1..=3 => format!("{}:", (b'A' + drive) as char),
        _ => "?:".to_string(),
    }
}

fn given_names(state: &State) -> Vec<Key> {
    match state.processor.registers[C] {
        23 => [NAME, NEW_NAME].iter().filter_map(|offset| state.key(*offset).ok()).collect(),
        number if names_a_file(number) => state.key(NAME).into_iter().collect(),
        _ => Vec::new(),
    }
}

// What a call returned, for the calls that return something.
fn result_text(number: u8, state: &State) -> String {
    match number {
        12 | 24 => format!(" = {:04X}", state.processor.pair(H)),
        1 | 6 | 7 | 11 | 15..=23 | 25 | 33..=36 | 40 => format!(" = {:02X}", state.processor.registers[A]),
        _ => String::new(),
    }
}

// What a call sent to the console: the first bytes, and how many there are if those are not all.
fn printed_text(sent: &[u8]) -> String {
    if sent.is_empty() {
        return String::new();
    }
    let shown: String = sent.iter().take(MOST_PRINTED).map(|byte| escaped(*byte)).collect();
    let count = if sent.len() > MOST_PRINTED { format!(" of {} bytes", sent.len()) } else { String::new() };
    format!(" \"{shown}\"{count}")
}

fn escaped(byte: u8) -> String {
    match byte {
        b'"' => "\\\"".to_string(),
        b'\\' => "\\\\".to_string(),
        b'\r' => "\\r".to_string(),
        b'\n' => "\\n".to_string(),
        b'\t' => "\\t".to_string(),
        0x20..=0x7e => (byte as char).to_string(),
        _ => format!("\\x{byte:02X}"),
    }
}

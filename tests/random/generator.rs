// Sessions made at random: a program with its tail, host files and script, and the lines that edit and run it.

mod programs;
pub mod random;

use crate::model::{self, digits, matches, name_in_folder, printed, Cause, Edit, File, Key, Run, Session, PROGRAM_START, RECORD};
use programs::statements::{any_call_number, any_instruction};
use programs::{program, small_code, Kind, Program};
use random::Random;

const NAMES: [[u8; 11]; 8] = [
    *b"A          ",
    *b"B       TXT",
    *b"NOTE    TXT",
    *b"X       COM",
    *b"AB      C  ",
    *b"LIST    $$$",
    *b"Z-9_#@     ",
    *b"LONGNAMEDAT",
];
const MOST_SCRIPT_BYTES: usize = 1_048_576;
const MOST_HOST_FILES: usize = 512;

pub enum Line {
    Edit(Edit),
    Drop,
    Run,
}

// One line of an edit text: what it is to the model, and its text.
pub struct Command {
    pub line: Line,
    pub text: String,
}

impl Command {
    pub fn verb(&self) -> &str {
        self.text.split(' ').next().unwrap_or_default()
    }
}

// A host file as it stands in the folder of its drive.
#[derive(Clone)]
pub struct HostFile {
    pub key: Key,
    pub name: String,
    pub bytes: Vec<u8>,
}

pub struct Case {
    pub session: Session,
    pub files: Vec<HostFile>,
    pub commands: Vec<Command>,
    // The checkpoints of the way with few of them, and the spacing and checkpoints of another.
    pub few_slots: usize,
    pub spacing: usize,
    pub slots: usize,
}

impl Case {
    // Returns the session after all edits, with its files. Only the tests of listings and of traces use it.
    #[allow(dead_code)]
    pub fn edited(&self) -> (Session, Vec<HostFile>) {
        let mut session = self.session.clone();
        for command in &self.commands {
            if let Line::Edit(edit) = &command.line {
                // A refused edit leaves the session as it is.
                let _ = session.edit(edit);
            }
        }
        let files = session
            .hosts
            .iter()
            .map(|(key, file)| HostFile { key: *key, name: name_in_folder(key), bytes: file.bytes().to_vec() })
            .collect();
        (session, files)
    }
}

// The case of a number: the same one each time.
pub fn case(number: u64) -> Case {
    let random = &mut Random::new(number);
    let names = names(random);
    let program = program(random, &names);
    let files = host_files(random, &names);
    let typed = script(random);
    let in_lines = typed.len() < 100 && random.chance(30);
    let session = Session {
        program: program.bytes.clone(),
        tail: tail(random, &names),
        hosts: files.iter().map(|file| (file.key, File::of_host(&file.bytes).into())).collect(),
        script: if in_lines { Vec::new() } else { typed.clone() },
        limit: limit(random),
    };
    let last = model::run(&session);
    let mut editor = Editor { random, session: session.clone(), program: &program, names: &names, last, commands: Vec::new() };
    if in_lines {
        editor.carry_out(Edit::Insert(0, typed));
    }
    let commands = editor.commands();
    let (few_slots, spacing, slots) = (random.between(1, 4), random.between(1, 40), *random.pick(&[4, 64, 4096]));
    Case { session, files, commands, few_slots, spacing, slots }
}

// A few names that the program and the edits use; several of them differ in their drives alone.
fn names(random: &mut Random) -> Vec<Key> {
    let few = random.between(1, 3);
    let first = random.below(NAMES.len());
    (0..random.between(2, 5))
        .map(|_| {
            let name = &NAMES[(first + random.below(few)) % NAMES.len()];
            let drive = if random.chance(60) { 0 } else { random.below(4) };
            key(drive as u8, name)
        })
        .collect()
}

fn key(drive: u8, name: &[u8; 11]) -> Key {
    let mut key = [drive; 12];
    key[1..].copy_from_slice(name);
    key
}

fn any_name(random: &mut Random) -> Key {
    key(random.below(4) as u8, random.pick(&NAMES))
}

// One of these names mostly.
fn likely_name(random: &mut Random, names: &[Key]) -> Key {
    if random.chance(80) {
        *random.pick(names)
    } else {
        any_name(random)
    }
}

fn any_letters(random: &mut Random, text: &str) -> String {
    let raised = random.chance(50);
    text.chars().map(|letter| if raised || random.chance(50) { letter } else { letter.to_ascii_lowercase() }).collect()
}

fn host_files(random: &mut Random, names: &[Key]) -> Vec<HostFile> {
    let mut files: Vec<HostFile> = Vec::new();
    for _ in 0..random.between(0, 6) {
        let key = likely_name(random, names);
        if files.iter().all(|file| file.key != key) {
            let bytes = file_bytes(random);
            files.push(host_file(random, key, bytes));
        }
    }
    if random.below(400) == 0 {
        for number in files.len()..MOST_HOST_FILES {
            let mut name = *b"F          ";
            name[1..4].copy_from_slice(format!("{number:03}").as_bytes());
            files.push(host_file(random, key(number as u8 % 4, &name), Vec::new()));
        }
    }
    files
}

fn host_file(random: &mut Random, key: Key, bytes: Vec<u8>) -> HostFile {
    HostFile { key, name: any_letters(random, &name_in_folder(&key)), bytes }
}

// The bytes of a file: text, code or anything, of no record to five, and rarely of more than an extent.
fn file_bytes(random: &mut Random) -> Vec<u8> {
    let records = if random.chance(4) { random.between(127, 130) } else { random.between(0, 5) };
    let length = if records == 0 { 0 } else { records * RECORD - if random.chance(50) { random.below(RECORD) } else { 0 } };
    let mut bytes: Vec<u8> = match random.below(10) {
        0..7 => (0..length).map(|_| random.printable()).collect(),
        7..9 => small_code(random),
        _ => (0..length).map(|_| random.byte()).collect(),
    };
    if records < 127 && random.chance(50) {
        bytes.truncate(random.between(1, 40));
    }
    bytes
}

fn script(random: &mut Random) -> Vec<u8> {
    if random.below(400) == 0 {
        return vec![b'a'; MOST_SCRIPT_BYTES];
    }
    if random.chance(15) {
        return Vec::new();
    }
    typed_bytes(random, 0, 60)
}

fn typed_bytes(random: &mut Random, least: usize, most: usize) -> Vec<u8> {
    let byte = |random: &mut Random| match random.below(100) {
        0..70 => random.printable(),
        70..82 => 0x0d,
        82..86 => 0x08,
        86..90 => 0x7f,
        90..92 => 0x03,
        92..97 => random.below(0x20) as u8,
        _ => random.byte(),
    };
    let mut bytes: Vec<u8> = (0..random.between(least, most)).map(|_| byte(random)).collect();
    // A byte that is typed and taken back, and then 03H.
    if bytes.len() > 3 && random.chance(10) {
        let place = random.below(bytes.len() - 2);
        bytes[place..place + 3].copy_from_slice(&[b'-', *random.pick(&[0x08, 0x7f]), 0x03]);
    }
    bytes
}

fn limit(random: &mut Random) -> u64 {
    (match random.below(100) {
        0..3 => random.below(50),
        3..12 => random.between(50, 200),
        12..95 => random.between(400, 3000),
        _ => random.between(3000, 10000),
    }) as u64
}

fn tail(random: &mut Random, names: &[Key]) -> Vec<u8> {
    let mut text = String::new();
    match random.below(100) {
        0..20 => {}
        20..92 => {
            for _ in 0..random.between(1, 2) {
                text += *random.pick(&["", " ", " ", "  "]);
                text += &tail_word(random, names);
            }
        }
        92..98 => text = (0..random.below(30)).map(|_| random.printable() as char).collect(),
        _ => text = (0..126).map(|_| random.printable() as char).collect(),
    }
    text.into_bytes()
}

fn tail_word(random: &mut Random, names: &[Key]) -> String {
    if random.chance(12) {
        return random
            .pick(&["*.*", "a*.*", "?.?", "b:*.*", "E:X", "z:a", "toolongname.text", "a.b.c", ":", "c:", "$"])
            .to_string();
    }
    let name = printed(&likely_name(random, names));
    let prefix = if !name.contains(':') && random.chance(20) { "A:" } else { "" };
    any_letters(random, &format!("{prefix}{name}"))
}

// Makes the lines of an edit text, and follows what they make of the session. Most edits are of what the last run of the model used.
struct Editor<'a> {
    random: &'a mut Random,
    session: Session,
    program: &'a Program,
    names: &'a [Key],
    last: Run,
    commands: Vec<Command>,
}

impl Editor<'_> {
    fn commands(mut self) -> Vec<Command> {
        if self.random.chance(90) {
            self.run();
        }
        for _ in 0..self.random.between(3, 12) {
            if self.random.chance(9) {
                self.drop_checkpoints();
            } else {
                let edit = self.edit();
                self.carry_out(edit);
            }
            if self.random.chance(75) {
                self.run();
            }
        }
        self.run();
        self.commands
    }

    fn carry_out(&mut self, edit: Edit) {
        let text = self.text(&edit);
        // A refused edit leaves the session as it is.
        let _ = self.session.edit(&edit);
        self.commands.push(Command { line: Line::Edit(edit), text });
    }

    fn run(&mut self) {
        self.last = model::run(&self.session);
        self.commands.push(Command { line: Line::Run, text: "run".to_string() });
    }

    fn drop_checkpoints(&mut self) {
        let count = if self.random.chance(80) { self.random.below(6) as u64 } else { 9_999_999_999 };
        self.commands.push(Command { line: Line::Drop, text: format!("drop {count}") });
    }

    // An edit of a part that the last run did not use is made less often.
    fn edit(&mut self) -> Edit {
        let asked_script = self.last.taken > 0 || self.last.cause == Cause::ConsoleExhausted;
        let took_script = asked_script && !self.session.script.is_empty();
        let asked_files = !self.last.keys.is_empty();
        if self.last.cause == Cause::Limit && self.random.chance(30) {
            return Edit::SetLimit(self.session.limit.saturating_add(self.random.between(100, 2000) as u64).min(10_000));
        }
        loop {
            let (used, edit) = match self.random.below(100) {
                0..40 => (true, self.poke()),
                40..49 => (asked_script, Edit::Insert(self.script_place(), typed_bytes(self.random, 0, 6))),
                49..58 => (took_script, self.replace()),
                58..65 => (took_script, self.remove()),
                65..84 => (asked_files, self.set_file()),
                84..91 => (asked_files, self.remove_file()),
                _ => (true, self.set_limit()),
            };
            if used || self.random.chance(10) {
                return edit;
            }
        }
    }

    fn poke(&mut self) -> Edit {
        let length = self.session.program.len();
        if length == 0 || self.random.chance(5) {
            let past = (PROGRAM_START + length).saturating_sub(self.random.below(3));
            let address = *self.random.pick(&[0, 0x80, 0xff, past, past, 0xffff]);
            let count = self.random.between(0, 4);
            return Edit::Poke(address as u16, (0..count).map(|_| self.random.byte()).collect());
        }
        let changed: Vec<usize> =
            (0..length).filter(|place| self.session.program[*place] != self.program.bytes[*place]).collect();
        if !changed.is_empty() && self.random.chance(20) {
            let place = *self.random.pick(&changed);
            return Edit::Poke((PROGRAM_START + place) as u16, vec![self.program.bytes[place]]);
        }
        let place = match self.random.below(100) {
            0..10 => None,
            10..20 => self.spot(),
            _ => (0..4).find_map(|_| self.used_place()).or_else(|| self.spot()),
        };
        let place = place.unwrap_or_else(|| self.random.below(length)).min(length - 1);
        let bytes = match self.random.below(100) {
            0..6 => vec![self.session.program[place]],
            6..14 => (0..self.random.between(0, 4).min(length - place)).map(|_| self.random.byte()).collect(),
            _ => vec![self.sensible(place)],
        };
        Edit::Poke((PROGRAM_START + place) as u16, bytes)
    }

    // A place of the program that the last run used: a cell that an instruction had as its address, or else its number or its opcode.
    fn used_place(&mut self) -> Option<usize> {
        if self.last.trace.is_empty() {
            return None;
        }
        let at = (self.random.pick(&self.last.trace).next as usize).checked_sub(PROGRAM_START)?;
        let program = &self.session.program;
        let address = u16::from_le_bytes([*program.get(at + 1)?, *program.get(at + 2)?]) as usize;
        let datum = address.checked_sub(PROGRAM_START).filter(|datum| *datum < program.len());
        match (program[at], datum) {
            (0x01 | 0x11 | 0x21, Some(datum)) => Some(datum + self.random.below(13)),
            (0x2a | 0x3a, Some(datum)) => Some(datum),
            (0xc2..=0xcd, _) if self.random.chance(90) => None,
            _ if self.is_spot(at + 1) => Some(at + 1),
            _ => Some(at),
        }
    }

    fn spot(&mut self) -> Option<usize> {
        let spots = &self.program.spots;
        (!spots.is_empty()).then(|| self.random.pick(spots).0)
    }

    fn is_spot(&self, place: usize) -> bool {
        self.program.spots.iter().any(|(spot, _)| *spot == place)
    }

    // A byte that a program may well have at this place.
    fn sensible(&mut self, place: usize) -> u8 {
        let Some((_, kind)) = self.program.spots.iter().find(|(spot, _)| *spot == place) else {
            return any_instruction(self.random);
        };
        match kind {
            Kind::Number if self.random.chance(30) => self.random.byte(),
            Kind::Number => self.random.printable(),
            Kind::Call => any_call_number(self.random),
            Kind::Count if self.random.chance(5) => 0,
            Kind::Count => self.random.between(1, 6) as u8,
            Kind::Letter if self.random.chance(30) => b'?',
            Kind::Letter => {
                let name = self.file_name();
                *self.random.pick(&name[1..])
            }
            Kind::Drive if self.random.chance(95) => self.random.between(0, 4) as u8,
            Kind::Drive => self.random.byte(),
            Kind::Place => self.random.place(),
        }
    }

    fn script_place(&mut self) -> usize {
        let length = self.session.script.len();
        match self.random.below(100) {
            0..6 => length + self.random.between(1, 3),
            6..15 => length,
            15..30 => self.random.below(length + 1),
            30..50 => self.random.below(self.last.taken + 2).min(length),
            _ => self.random.below(self.last.taken.max(1)).min(length),
        }
    }

    fn replace(&mut self) -> Edit {
        let at = self.script_place();
        let rest = &self.session.script[at.min(self.session.script.len())..];
        let equal = rest[..rest.len().min(3)].to_vec();
        let bytes = match self.random.below(100) {
            0..12 => equal,
            12..20 => typed_bytes(self.random, 1, 4),
            _ => equal.iter().map(|_| self.random.printable()).collect(),
        };
        Edit::Replace(at, bytes)
    }

    fn remove(&mut self) -> Edit {
        let at = self.script_place();
        let most = self.session.script.len().saturating_sub(at).min(5);
        let count = match self.random.below(100) {
            0..3 => 9_999_999_999,
            3..12 => most + 1,
            12..90 => self.random.between(most.min(1), most),
            _ => 0,
        };
        Edit::Remove(at, count)
    }

    // Mostly the name of a file that the last run used, or one that matches a pattern of it.
    fn file_name(&mut self) -> Key {
        if self.last.keys.is_empty() || self.random.chance(25) {
            return likely_name(self.random, self.names);
        }
        let pattern = *self.random.pick(&self.last.keys);
        let matching: Vec<Key> = NAMES.iter().map(|name| key(pattern[0], name)).filter(|key| matches(&pattern, key)).collect();
        match matching.is_empty() {
            true => likely_name(self.random, self.names),
            false => *self.random.pick(&matching),
        }
    }

    // A file that is there gets other bytes, the same ones, or one byte more or less; or a new one comes.
    fn set_file(&mut self) -> Edit {
        let Some(key) = self.host_file().filter(|_| self.random.chance(60)) else {
            return Edit::SetFile(self.file_name(), file_bytes(self.random));
        };
        let mut bytes = self.session.hosts[&key].bytes().to_vec();
        match self.random.below(4) {
            0 => {}
            1 => bytes.truncate(self.random.between(0, bytes.len())),
            2 => bytes.push(self.random.printable()),
            _ if bytes.is_empty() => bytes.push(b'+'),
            _ => {
                let place = self.random.below(bytes.len()) / RECORD * RECORD + self.random.below(8);
                bytes[place] = self.random.printable();
            }
        }
        Edit::SetFile(key, bytes)
    }

    fn remove_file(&mut self) -> Edit {
        let there = self.host_file().filter(|_| self.random.chance(85));
        Edit::RemoveFile(there.unwrap_or_else(|| any_name(self.random)))
    }

    // A host file, mostly one that the last run used.
    fn host_file(&mut self) -> Option<Key> {
        let hosts = &self.session.hosts;
        let used: Vec<Key> =
            hosts.keys().filter(|key| self.last.keys.iter().any(|pattern| matches(pattern, key))).copied().collect();
        let there: Vec<Key> = hosts.keys().copied().collect();
        let among = if used.is_empty() || self.random.chance(20) { there } else { used };
        (!among.is_empty()).then(|| *self.random.pick(&among))
    }

    fn set_limit(&mut self) -> Edit {
        Edit::SetLimit(match self.random.below(100) {
            0..8 => 4_000_000_001 + self.random.below(1000) as u64,
            8..40 => self.random.below(self.last.trace.len() + 2) as u64,
            _ => limit(self.random),
        })
    }

    // An edit as a line, with digits and letters of either case and at times with zeros before a number.
    fn text(&mut self, edit: &Edit) -> String {
        match edit {
            Edit::Insert(at, bytes) => format!("insert {} {}", self.number(*at as u64), self.digits(bytes)),
            Edit::Replace(at, bytes) => format!("replace {} {}", self.number(*at as u64), self.digits(bytes)),
            Edit::Remove(at, count) => format!("remove {} {}", self.number(*at as u64), self.number(*count as u64)),
            Edit::SetFile(key, bytes) => format!("file {} {}", self.name(key), self.digits(bytes)),
            Edit::RemoveFile(key) => format!("gone {}", self.name(key)),
            Edit::Poke(address, bytes) => {
                let address = any_letters(self.random, &format!("{address:04X}"));
                format!("poke {address} {}", self.digits(bytes))
            }
            Edit::SetLimit(limit) => format!("limit {}", self.number(*limit)),
        }
    }

    fn number(&mut self, number: u64) -> String {
        if self.random.chance(5) {
            format!("{number:010}")
        } else {
            number.to_string()
        }
    }

    fn digits(&mut self, bytes: &[u8]) -> String {
        let digits = digits(bytes);
        any_letters(self.random, &digits.to_ascii_uppercase())
    }

    fn name(&mut self, key: &Key) -> String {
        let prefix = if key[0] == 0 && self.random.chance(20) { "a:" } else { "" };
        let name = any_letters(self.random, &printed(key));
        format!("{prefix}{name}")
    }
}

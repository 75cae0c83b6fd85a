// A session that differs from another in much that the other's run did not ask for, and in nothing that it asked for.

use crate::generator::random::Random;
use crate::generator::HostFile;
use crate::model::{is_sayable, name_in_folder, page_zero, Asked, File, Key, Question, Session, PROGRAM_START, RECORD};

const MOST_HOST_FILES: usize = 512;
const MOST_PROGRAM_BYTES: usize = 64_512;
const MOST_TAIL_BYTES: usize = 126;
// How often something is tried that may change what was asked for.
const TRIES: usize = 20;

pub struct Unlisted {
    pub session: Session,
    pub files: Vec<HostFile>,
    // What was changed, each once.
    pub changes: Vec<&'static str>,
}

struct Changer<'a> {
    random: &'a mut Random,
    asked: &'a Asked,
    session: Session,
    files: Vec<HostFile>,
    changes: Vec<&'static str>,
}

impl Unlisted {
    // Changes a session with these host files, whose run asked for this.
    pub fn of(session: &Session, files: &[HostFile], asked: &Asked, random: &mut Random) -> Unlisted {
        let mut changer = Changer { random, asked, session: session.clone(), files: files.to_vec(), changes: Vec::new() };
        changer.program();
        changer.tail();
        changer.script();
        changer.host_files();
        changer.new_files();
        let Changer { mut session, files, changes, .. } = changer;
        session.hosts = files.iter().map(|file| (file.key, File::of_host(&file.bytes).into())).collect();
        Unlisted { session, files, changes }
    }
}

impl Changer<'_> {
    fn note(&mut self, what: &'static str) {
        if !self.changes.contains(&what) {
            self.changes.push(what);
        }
    }

    fn has_cell(&self, address: usize) -> bool {
        self.asked.has(Question::Cell(address as u16))
    }

    // Another byte than this one.
    fn other_byte(&mut self, byte: u8) -> u8 {
        byte.wrapping_add(self.random.between(1, 255) as u8)
    }

    // Changes each byte that was not asked for, and puts bytes after the last one, or takes bytes from the end; a cell past the last
    // byte is zero.
    fn program(&mut self) {
        for place in 0..self.session.program.len() {
            if !self.has_cell(PROGRAM_START + place) {
                self.session.program[place] = self.other_byte(self.session.program[place]);
                self.note("bytes of the program");
            }
        }
        let length = self.session.program.len();
        let needed = (0..length).rev().find(|place| self.has_cell(PROGRAM_START + place)).map_or(0, |place| place + 1);
        if self.random.chance(30) && needed < length {
            self.session.program.truncate(self.random.between(needed, length - 1));
            self.note("a shorter program");
        } else if self.random.chance(60) {
            let more = if self.random.chance(20) { MOST_PROGRAM_BYTES } else { self.random.between(1, 300) };
            for place in length..(length + more).min(MOST_PROGRAM_BYTES) {
                let byte = if self.has_cell(PROGRAM_START + place) { 0 } else { self.random.byte() };
                self.session.program.push(byte);
            }
            self.note("a longer program");
        }
    }

    // Tries other tails, and other bytes in this one.
    fn tail(&mut self) {
        for _ in 0..TRIES {
            let length = self.random.between(0, MOST_TAIL_BYTES);
            let tail = (0..length).map(|_| self.random.printable()).collect();
            self.try_tail(tail, "another tail");
        }
        for place in 0..self.session.tail.len() {
            let mut tail = self.session.tail.clone();
            tail[place] = self.random.printable();
            self.try_tail(tail, "bytes of the tail");
        }
    }

    // Takes a tail if it changes no cell that was asked for.
    fn try_tail(&mut self, tail: Vec<u8>, what: &'static str) {
        let (old, new) = (page_zero(&self.session.tail), page_zero(&tail));
        if tail != self.session.tail && (0..PROGRAM_START).all(|place| old[place] == new[place] || !self.has_cell(place)) {
            self.session.tail = tail;
            self.note(what);
        }
    }

    // Changes each byte that was not asked for, and the length if the end was not asked for.
    fn script(&mut self) {
        let length = self.session.script.len();
        for offset in 0..length {
            if !self.asked.has(Question::Script(offset)) {
                self.session.script[offset] = self.other_byte(self.session.script[offset]);
                self.note("bytes of the script");
            }
        }
        if self.asked.has(Question::Script(length)) {
            return;
        }
        let needed = (0..length).rev().find(|offset| self.asked.has(Question::Script(*offset))).map_or(0, |offset| offset + 1);
        if self.random.chance(50) && needed < length {
            self.session.script.truncate(self.random.between(needed, length - 1));
            self.note("a shorter script");
        } else if length < 1000 {
            let more = self.random.between(1, 5);
            self.session.script.extend((0..more).map(|_| self.random.byte()));
            self.note("a longer script");
        }
    }

    fn has_directory(&self, key: &Key) -> bool {
        self.asked.has(Question::Directory(key[0]))
    }

    // Changes all of each host file that was not asked for: whether it is there, its length, its records.
    fn host_files(&mut self) {
        for mut file in std::mem::take(&mut self.files) {
            let key = file.key;
            let is_settled = self.asked.has(Question::Has(key)) || self.has_directory(&key);
            let has_length = self.asked.has(Question::Length(key)) || self.has_directory(&key);
            if !is_settled && !has_length && self.random.chance(50) {
                self.note("a file removed");
                continue;
            }
            let length = file.bytes.len().div_ceil(RECORD);
            let records: Vec<bool> = (0..length).map(|number| self.asked.has(Question::Record(key, number))).collect();
            if !has_length && !records.contains(&true) {
                file.bytes = self.bytes_of_length(file.bytes.len() + 1);
                self.note(if is_settled { "a file that was only there" } else { "a file that was not asked for" });
            } else if records.contains(&false) {
                self.change_records(&mut file.bytes, &records);
                self.note("records of a file");
            }
            self.files.push(file);
        }
    }

    // Random bytes: about this number or few.
    fn bytes_of_length(&mut self, length: usize) -> Vec<u8> {
        let length = if self.random.chance(50) { length } else { self.random.between(0, 5 * RECORD) };
        (0..length).map(|_| self.random.byte()).collect()
    }

    // Changes the records that were not asked for; the last one may get another number of bytes.
    fn change_records(&mut self, bytes: &mut Vec<u8>, is_asked: &[bool]) {
        for (number, _) in is_asked.iter().enumerate().filter(|(_, is_asked)| !**is_asked) {
            let start = number * RECORD;
            if number + 1 == is_asked.len() {
                let length = self.random.between(1, RECORD);
                bytes.truncate(start);
                bytes.extend((0..length).map(|_| self.random.byte()));
            } else {
                bytes[start..start + RECORD].iter_mut().for_each(|byte| *byte = self.other_byte(*byte));
            }
        }
    }

    // Adds files under names that were not asked for.
    fn new_files(&mut self) {
        for _ in 0..self.random.between(0, 4) {
            let key = self.new_key();
            let is_asked = self.asked.has(Question::Has(key)) || self.has_directory(&key);
            let is_free = self.files.iter().all(|file| file.key != key);
            if !is_asked && is_free && self.files.len() < MOST_HOST_FILES {
                let bytes = self.bytes_of_length(0);
                self.files.push(HostFile { key, name: name_in_folder(&key), bytes });
                self.note("a new file");
            }
        }
    }

    // A random name, or one that the session's own files or its questions have on another drive.
    fn new_key(&mut self) -> Key {
        let mut key = *b"\0NEW     FIL";
        let named = self.asked.first_steps.keys().filter_map(|question| match question {
            Question::Has(key) if is_sayable(key) => Some(*key),
            _ => None,
        });
        let mut known: Vec<Key> = self.session.hosts.keys().copied().chain(named).collect();
        known.push(key);
        if self.random.chance(60) {
            key = *self.random.pick(&known);
        } else {
            key[4] = b'A' + self.random.below(26) as u8;
        }
        key[0] = self.random.below(4) as u8;
        key
    }
}

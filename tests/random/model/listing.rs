// The listing of what a run asked its session.

use super::files::{is_sayable, printed, Key};
use super::{Asked, Question, Session, PROGRAM_START};

// How neighbours are listed: all rows of a kind in one line, or a line for each row that the same step asked for first.
#[derive(Clone, Copy, PartialEq)]
pub enum Rows {
    Joined,
    ByStep,
}

impl Rows {
    pub const ALL: [Rows; 2] = [Rows::Joined, Rows::ByStep];
}

// Places with their first steps, in order.
type Places = Vec<(usize, u64)>;

impl Asked {
    // The lines of the listing, for the session that was run.
    pub fn listing(&self, session: &Session, rows: Rows) -> String {
        let cells = |is_wanted: fn(usize) -> bool| {
            self.places(|question| match question {
                Question::Cell(address) if is_wanted(*address as usize) => Some(*address as usize),
                _ => None,
            })
        };
        let script = self.places(|question| match question {
            Question::Script(offset) if *offset < session.script.len() => Some(*offset),
            _ => None,
        });
        let mut lines = row_lines("page", &cells(|address| address < PROGRAM_START), address_text, rows);
        lines += &row_lines("program", &cells(|address| address >= PROGRAM_START), address_text, rows);
        lines += &row_lines("script", &script, |offset| offset.to_string(), rows);
        if let Some(step) = self.first_steps.get(&Question::Script(session.script.len())) {
            lines += &format!("script end step {step}\n");
        }
        lines + &self.file_lines(session, rows) + &format!("stop {}\n", self.cause)
    }

    fn places(&self, place_of: impl Fn(&Question) -> Option<usize>) -> Places {
        self.first_steps.iter().filter_map(|(question, step)| Some((place_of(question)?, *step))).collect()
    }

    fn file_lines(&self, session: &Session, rows: Rows) -> String {
        let is_there = |key: &Key| session.hosts.contains_key(key);
        let mut files = String::new();
        let mut absent = String::new();
        let mut lengths = String::new();
        let mut directories = String::new();
        let mut keys: Vec<Key> = Vec::new();
        for (question, step) in &self.first_steps {
            match question {
                Question::Has(key) if is_there(key) => files += &format!("file {} step {step}\n", name_text(key)),
                Question::Has(key) => absent += &format!("none {} step {step}\n", name_text(key)),
                Question::Length(key) => {
                    let length = session.hosts[key].length();
                    lengths += &format!("length {} {length} step {step}\n", name_text(key));
                }
                Question::Record(key, _) => keys.push(*key),
                Question::Directory(drive) => directories += &format!("directory {} step {step}\n", (b'A' + drive) as char),
                _ => {}
            }
        }
        keys.dedup();
        let records: String = keys.iter().map(|key| self.record_lines(key, rows)).collect();
        files + &absent + &lengths + &records + &directories
    }

    fn record_lines(&self, key: &Key, rows: Rows) -> String {
        let numbers = self.places(|question| match question {
            Question::Record(other, number) if other == key => Some(*number),
            _ => None,
        });
        row_lines(&format!("record {}", name_text(key)), &numbers, |number| number.to_string(), rows)
    }
}

fn address_text(address: usize) -> String {
    format!("{address:04X}")
}

fn name_text(key: &Key) -> String {
    if is_sayable(key) {
        printed(key)
    } else {
        key.iter().fold("=".to_string(), |text, byte| text + &format!("{byte:02x}"))
    }
}

// The lines of a kind over these places.
fn row_lines(kind: &str, places: &Places, text: impl Fn(usize) -> String, rows: Rows) -> String {
    let row = |row: &[(usize, u64)]| match (row[0].0, row[row.len() - 1].0) {
        (first, last) if first == last => text(first),
        (first, last) => format!("{}-{}", text(first), text(last)),
    };
    let Some(first) = places.iter().map(|(_, step)| *step).min() else { return String::new() };
    match rows {
        Rows::Joined => {
            let rows: Vec<String> = places.chunk_by(|left, right| left.0 + 1 == right.0).map(row).collect();
            format!("{kind} {} step {first}\n", rows.join(" "))
        }
        Rows::ByStep => places
            .chunk_by(|left, right| left.0 + 1 == right.0 && left.1 == right.1)
            .map(|places| format!("{kind} {} step {}\n", row(places), places[0].1))
            .collect(),
    }
}

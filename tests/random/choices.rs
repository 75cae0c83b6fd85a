// Choices of steps made at random, each with the options of `cpmtrace` that make it.

use crate::generator::random::Random;
use crate::model::{is_sayable, matches, printed, Choice, Files, Key, Step, Trace};
use std::ops::RangeInclusive;

// The most options that a choice has beside `--steps`.
const MOST_FILTERS: usize = 4;
const LONGEST_RANGE: usize = 300;

// A choice of steps, and the words that make it.
pub struct Chosen {
    pub choice: Choice,
    pub words: Vec<String>,
}

impl Chosen {
    // Calls alone, or all steps.
    pub fn unfiltered(instructions: bool) -> Chosen {
        let words = if instructions { vec!["--steps".to_string()] } else { vec![] };
        Chosen { choice: Choice { instructions, ..Choice::default() }, words }
    }

    // Filters that one step of the trace passes, mostly: a choice of filters by chance would nearly always leave no line.
    pub fn any(random: &mut Random, trace: &Trace, hosts: &Files) -> Chosen {
        let mut chosen = Chosen::unfiltered(random.chance(70));
        let mut filters = [Filter::From, Filter::To, Filter::At, Filter::Writes, Filter::Reads, Filter::File, Filter::Last];
        let among = trace.chosen(&chosen.choice);
        let step = if among.is_empty() { None } else { Some(*random.pick(&among)) };
        for place in 0..random.between(1, MOST_FILTERS) {
            let other = random.between(place, filters.len() - 1);
            filters.swap(place, other);
            let step = step.filter(|_| random.chance(92));
            chosen.add(filters[place], random, step, among.len(), hosts);
        }
        chosen
    }

    // Adds a filter, which this step passes if it is given.
    fn add(&mut self, filter: Filter, random: &mut Random, step: Option<&Step>, count: usize, hosts: &Files) {
        let most = step.map_or(count as u64, |step| step.number);
        match filter {
            Filter::From => {
                let from = if random.chance(20) { most } else { random.below(most as usize + 1) as u64 };
                self.choice.from = Some(from);
                self.word(filter, from.to_string());
            }
            Filter::To => {
                let to = match random.below(10) {
                    0..2 => most,
                    9 => 4_000_000_000,
                    _ => most + random.below(1000) as u64,
                };
                self.choice.to = Some(to);
                self.word(filter, to.to_string());
            }
            Filter::At => {
                let at = step.map_or(random.below(65536) as u16, |step| step.address);
                self.choice.at = Some(at);
                let digits = address_text(random, at);
                self.word(filter, digits);
            }
            Filter::Writes => {
                if let Some((range, text)) = any_range(random, step.map_or(&[], |step| &step.writes)) {
                    self.choice.writes = Some(range);
                    self.word(filter, text);
                }
            }
            Filter::Reads => {
                if let Some((range, text)) = any_range(random, step.map_or(&[], |step| &step.reads)) {
                    self.choice.reads = Some(range);
                    self.word(filter, text);
                }
            }
            Filter::File => {
                let names = step.map_or(vec![], |step| named_files(step, hosts));
                if !names.is_empty() || random.chance(10) {
                    let file = if names.is_empty() { *b"\0A          " } else { *random.pick(&names) };
                    self.choice.file = Some(file);
                    let name = any_case(random, &printed(&file));
                    self.word(filter, name);
                }
            }
            Filter::Last => {
                let last = 1 + random.below(count.min(50) + 1) as u64;
                self.choice.last = Some(last);
                self.word(filter, last.to_string());
            }
        }
    }

    fn word(&mut self, filter: Filter, value: String) {
        self.words.extend([filter.option().to_string(), value]);
    }
}

#[derive(Clone, Copy)]
enum Filter {
    From,
    To,
    At,
    Writes,
    Reads,
    File,
    Last,
}

impl Filter {
    fn option(self) -> &'static str {
        match self {
            Filter::From => "--from",
            Filter::To => "--to",
            Filter::At => "--at",
            Filter::Writes => "--writes",
            Filter::Reads => "--reads",
            Filter::File => "--file",
            Filter::Last => "--last",
        }
    }
}

// The files that a call names: by its own names, if a file can have them, and the host files that its names match.
fn named_files(step: &Step, hosts: &Files) -> Vec<Key> {
    let own = step.names.iter().copied().filter(is_sayable);
    let matched = hosts.keys().copied().filter(|key| step.names.iter().any(|name| matches(name, key)));
    own.chain(matched).collect()
}

// A range with one of these cells, and its text. Without cells it is rarely any range.
fn any_range(random: &mut Random, cells: &[u16]) -> Option<(RangeInclusive<u16>, String)> {
    if cells.is_empty() && random.chance(80) {
        return None;
    }
    let cell = if cells.is_empty() { random.below(65536) as u16 } else { *random.pick(cells) };
    if random.chance(40) {
        return Some((cell..=cell, address_text(random, cell)));
    }
    let first = cell.saturating_sub(random.below(LONGEST_RANGE) as u16);
    let last = cell.saturating_add(random.below(LONGEST_RANGE) as u16);
    let text = format!("{}-{}", address_text(random, first), address_text(random, last));
    Some((first..=last, text))
}

// An address with or without zeros before it, its letters of any case.
fn address_text(random: &mut Random, address: u16) -> String {
    let digits = if random.chance(60) { format!("{address:04X}") } else { format!("{address:X}") };
    any_case(random, &digits)
}

fn any_case(random: &mut Random, text: &str) -> String {
    text.chars().map(|letter| if random.chance(50) { letter } else { letter.to_ascii_lowercase() }).collect()
}

// Makes sessions at random, each a function of its number alone, and compares what the built `cpmtrace` prints for each with the trace
// of the plain model: the calls, all steps, and what several filters leave of them. `jobs.rs` has the words of the command line.
#![allow(dead_code)]

mod choices;
mod counts;
mod edges;
mod generator;
mod jobs;
mod laid;
mod model;
mod rule;

use choices::Chosen;
use counts::Counts;
use edges::at_the_edges;
use generator::random::Random;
use generator::HostFile;
use jobs::Words;
use laid::Laid;
use model::{name_of_call, Session, Trace};
use std::fs;
use std::path::Path;

const USAGE: &str = "tests/random/traces [COUNT] [SEED] [--jobs N]";
// The filtered traces of each session.
const FILTERED: usize = 4;

// A session in a folder of its own, with its trace and the built program.
struct Test<'a> {
    session: &'a Session,
    laid: Laid,
    trace: Trace,
    program: &'a Path,
    counts: &'a mut Counts,
}

impl Test<'_> {
    // Compares the traces of all choices.
    fn check(&mut self, random: &mut Random) -> Result<(), String> {
        self.compare(&Chosen::unfiltered(false), "calls")?;
        self.compare(&Chosen::unfiltered(true), "steps")?;
        for number in 0..FILTERED {
            let chosen = Chosen::any(random, &self.trace, &self.session.hosts);
            let count = self.trace.chosen(&chosen.choice).len();
            self.counts.count("Traces", "with filters", 1);
            self.counts.count("Traces", "with filters that leave a line", (count > 0) as u64);
            chosen.words.iter().filter(|word| word.starts_with("--")).for_each(|word| self.counts.count("Options", word, 1));
            self.compare(&chosen, &format!("filtered-{number}"))?;
        }
        self.count_steps();
        Ok(())
    }

    // Compares what the program prints for a choice with the text of the model. Both stay in the folder.
    fn compare(&mut self, chosen: &Chosen, out: &str) -> Result<(), String> {
        let wanted = self.trace.text(&chosen.choice);
        fs::write(self.laid.folder.join(format!("{out}.model")), &wanted).map_err(|fault| fault.to_string())?;
        self.counts.count("Traces", "all", 1);
        let options: Vec<&str> = chosen.words.iter().map(String::as_str).collect();
        let printed = self.laid.printed(self.program, &options, out)?;
        match difference(&printed, &wanted) {
            None => Ok(()),
            Some(what) => Err(format!("{out} and {out}.model differ, with the options `{}`: {what}", options.join(" "))),
        }
    }

    fn count_steps(&mut self) {
        self.counts.count("Runs", "all", 1);
        self.counts.count("Runs by their stops", self.trace.cause.to_string().split(' ').next().unwrap_or_default(), 1);
        for step in &self.trace.steps {
            match step.call {
                Some(number) => self.counts.count("Calls by their names", name_of_call(number), 1),
                None => self.counts.count("Runs", "their instructions", 1),
            }
        }
    }
}

// Returns the first line that differs, if one does.
fn difference(printed: &str, wanted: &str) -> Option<String> {
    if printed == wanted {
        return None;
    }
    let (mut printed, mut wanted) = (printed.split('\n'), wanted.split('\n'));
    let mut number = 0;
    loop {
        number += 1;
        match (printed.next(), wanted.next()) {
            (None, None) => return Some("by their line ends".to_string()),
            (printed, wanted) if printed != wanted => {
                let text = |line: Option<&str>| line.map_or("no line".to_string(), |line| format!("`{line}`"));
                return Some(format!("line {number} is {} and not {}", text(printed), text(wanted)));
            }
            _ => {}
        }
    }
}

// Tests the session of a number before its edits, after all of them, and with another program.
fn check(words: &Words, number: u64, folder: &Path, counts: &mut Counts) -> Result<(), String> {
    let _ = fs::remove_dir_all(folder);
    let case = generator::case(number);
    let random = &mut Random::new(number);
    let mut test = |name: &str, session: &Session, files: &[HostFile], random: &mut Random| {
        let laid =
            Laid::new(session, files, &folder.join(name)).map_err(|fault| format!("its files are not written: {fault}"))?;
        laid.write_words().map_err(|fault| fault.to_string())?;
        let mut test = Test { session, laid, trace: Trace::of(session), program: &words.programs[0], counts };
        test.check(random).map_err(|what| format!("{name}: {what}"))
    };
    test("first", &case.session, &case.files, random)?;
    let (session, files) = case.edited();
    test("edited", &session, &files, random)?;
    let session = at_the_edges(random, &session);
    test("edges", &session, &files, random)
}

fn main() {
    jobs::test_all(USAGE, 1, check);
}

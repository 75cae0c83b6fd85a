// Makes sessions at random, each a function of its number alone, and compares what the built `cpmdeps` prints for each with the listing
// and the rule of the plain model. Then it changes much that the listing does not have: program, tail, script and host files. The changed
// session must have the same listing and the same report, except that a record which the run did not write is the changed one.
// `jobs.rs` has the words of the command line.
#![allow(dead_code)]

mod counts;
mod generator;
mod jobs;
mod laid;
mod model;
mod rule;
mod unlisted;

use counts::Counts;
use generator::random::Random;
use generator::HostFile;
use jobs::Words;
use laid::Laid;
use model::{changed_line, is_sayable, Asked, Key, Origin, Question, Rows, Run, Session, RECORD};
use std::collections::BTreeSet;
use std::fs;
use std::path::{Path, PathBuf};
use unlisted::Unlisted;

const USAGE: &str = "tests/random/listings CPMDEPS CPMRUN COUNT [SEED] [--jobs N]";
// The targets of rules for make, one of them for each session.
const TARGETS: [&str; 5] = ["out.txt", "two words", "one\\ two\\\\ #$", "\\#\\$", "./a(b"];
// The joined listing, and the one by step.
type Listings = [String; 2];
// The lines of a report about the run itself: stop, steps, registers and text.
const LINES_OF_RUN: usize = 4;

// A session to test, in a folder of its own, with the two built programs.
struct Test<'a> {
    words: &'a Words,
    folder: PathBuf,
    counts: &'a mut Counts,
}

impl Test<'_> {
    // Writes the files of a session, and compares what `cpmdeps` prints for it with the listings of the model, which it returns.
    fn compare_listings(
        &mut self,
        session: &Session,
        files: &[HostFile],
        asked: &Asked,
        name: &str,
    ) -> Result<(Laid, Listings), String> {
        let laid =
            Laid::new(session, files, &self.folder.join(name)).map_err(|fault| format!("its files are not written: {fault}"))?;
        laid.write_words().map_err(|fault| fault.to_string())?;
        let listings = Rows::ALL.map(|rows| asked.listing(session, rows));
        self.compare(&laid, &[], &listings[0], "joined")?;
        self.compare(&laid, &["--by-step"], &listings[1], "by-step")?;
        let target = TARGETS[session.program.len() % TARGETS.len()];
        self.compare(&laid, &["--make", target], &laid.paths.rule(target, asked), "rule")?;
        self.compare_written_rule(&laid, asked)?;
        Ok((laid, listings))
    }

    // Compares the rule that `cpmrun` writes for a run that writes no files with the one that `cpmdeps` prints, and with the model's.
    fn compare_written_rule(&mut self, laid: &Laid, asked: &Asked) -> Result<(), String> {
        self.compare(laid, &["--make", "rule.d"], &laid.paths.rule("rule.d", asked), "rule.made")?;
        self.counts.count("Processes", "all", 1);
        laid.run(&self.words.programs[1], &["--deps", "rule.d"])?;
        let read = |name: &str| fs::read(laid.folder.join(name)).map_err(|fault| format!("{name} is not there: {fault}"));
        if read("rule.d")? == read("rule.made")? {
            return Ok(());
        }
        Err("rule.d and rule.made differ".to_string())
    }

    // Compares what `cpmdeps` prints with these options with the text of the model. Both stay in the folder.
    fn compare(&mut self, laid: &Laid, options: &[&str], wanted: &str, out: &str) -> Result<(), String> {
        fs::write(laid.folder.join(format!("{out}.model")), wanted).map_err(|fault| fault.to_string())?;
        self.counts.count("Processes", "all", 1);
        if laid.printed(&self.words.programs[0], options, out)? == wanted {
            return Ok(());
        }
        let name = laid.folder.file_name().unwrap_or_default().to_string_lossy();
        Err(format!("{out} and {out}.model of the session {name} differ"))
    }

    // Runs the changed session: it must have these listings, and this report.
    fn compare_changed(&mut self, unlisted: &Unlisted, wanted: &Listings, report: &str) -> Result<(), String> {
        let session = &unlisted.session;
        let (laid, listings) = self.compare_listings(session, &unlisted.files, &Asked::of(session), "changed")?;
        let modelled = model::run(session).report;
        fs::write(laid.folder.join("edits"), "run\n").map_err(|fault| fault.to_string())?;
        self.counts.count("Processes", "all", 1);
        if laid.printed(&self.words.programs[1], &["--edits", "edits"], "report")? != modelled {
            return Err("the report of the changed session is not the model's".to_string());
        }
        if modelled != report {
            fs::write(laid.folder.join("report.expected"), report).map_err(|fault| fault.to_string())?;
            return Err("report and report.expected of the session changed differ".to_string());
        }
        if listings != *wanted {
            return Err("the changed session has another listing".to_string());
        }
        Ok(())
    }

    // Tests a session with these files, and then one with unlisted changes.
    fn check(&mut self, session: &Session, files: &[HostFile], random: &mut Random) -> Result<(), String> {
        let asked = Asked::of(session);
        let (_, listings) = self.compare_listings(session, files, &asked, "listed")?;
        self.add_listings(&asked, &listings);
        let unlisted = Unlisted::of(session, files, &asked, random);
        self.counts.count("Runs", "with unlisted changes", !unlisted.changes.is_empty() as u64);
        unlisted.changes.iter().for_each(|change| self.counts.count("Runs by unlisted changes", change, 1));
        let run = model::run(session);
        let report = Changed { before: session, after: &unlisted.session, run: &run, asked: &asked }.report();
        self.counts.count("Runs", "with unlisted records in their reports", (report != run.report) as u64);
        self.compare_changed(&unlisted, &listings, &report)
    }

    // Counts a run, and the lines of its listings.
    fn add_listings(&mut self, asked: &Asked, [joined, by_step]: &Listings) {
        self.counts.count("Runs", "all", 1);
        self.counts.count("Runs", "their steps", asked.steps);
        self.counts.count("Runs by their stops", asked.cause.to_string().split(' ').next().unwrap_or_default(), 1);
        for (title, listing) in [("Lines of listings", joined), ("Lines of listings by step", by_step)] {
            for line in listing.lines() {
                let is_of_two_words = line.starts_with("script end");
                let kind: Vec<&str> = line.split(' ').take(1 + is_of_two_words as usize).collect();
                self.counts.count(title, kind.join(" "), 1);
            }
        }
        let is_of_no_host_file = |question: &&Question| matches!(question, Question::Has(key) if !is_sayable(key));
        let count = asked.first_steps.keys().filter(is_of_no_host_file).count();
        self.counts.count("Lines of listings", "none =", count as u64);
    }
}

// A session before and after changes to what its run did not ask for.
struct Changed<'a> {
    before: &'a Session,
    after: &'a Session,
    run: &'a Run,
    asked: &'a Asked,
}

impl Changed<'_> {
    // The report after the changes: that of the run before them, with the files that the same run leaves over other host files.
    fn report(&self) -> String {
        let mut report: String = self.run.report.split_inclusive('\n').take(LINES_OF_RUN).collect();
        let hosts = self.before.hosts.keys().chain(self.after.hosts.keys());
        for key in hosts.chain(self.asked.origins.keys()).collect::<BTreeSet<_>>() {
            let (left, host) = (self.file(key), self.after.hosts.get(key).map(|file| file.bytes().to_vec()));
            if left != host {
                report += &changed_line(&(*key, left.as_deref()));
            }
        }
        report + "end\n"
    }

    // The records that the run leaves of a file.
    fn file(&self, key: &Key) -> Option<Vec<u8>> {
        match self.asked.origins.get(key) {
            Some(origin) => self.file_of_origin(key, origin),
            None if self.before.hosts.contains_key(key) => None,
            None => self.after.hosts.get(key).map(|file| file.bytes().to_vec()),
        }
    }

    // The same of a file that was there after the run: what it did not write is the host file's.
    fn file_of_origin(&self, key: &Key, origin: &Origin) -> Option<Vec<u8>> {
        let host = self.after.hosts.get(&origin.host);
        if origin.has_host_length && !origin.is_host_record.contains(&false) {
            return host.map(|file| file.bytes().to_vec());
        }
        let length = if origin.has_host_length { host?.length() } else { origin.is_host_record.len() };
        let left = self.file_before(key);
        let record = |number: usize| match origin.is_host_record.get(number) {
            Some(false) => left[number * RECORD..][..RECORD].to_vec(),
            _ => host.and_then(|file| file.read(number)).map_or(vec![0; RECORD], |record| record.to_vec()),
        };
        Some((0..length).flat_map(record).collect())
    }

    // The records of a file after the run before the changes.
    fn file_before(&self, key: &Key) -> Vec<u8> {
        match self.run.changed.iter().find(|(changed, _)| changed == key) {
            Some((_, bytes)) => bytes.clone().unwrap_or_default(),
            None => self.before.hosts.get(key).map_or(Vec::new(), |file| file.bytes().to_vec()),
        }
    }
}

// Tests the session of a number before its edits, and after all of them.
fn check(words: &Words, number: u64, folder: &Path, counts: &mut Counts) -> Result<(), String> {
    let _ = fs::remove_dir_all(folder);
    let case = generator::case(number);
    let random = &mut Random::new(number);
    let mut test = |name: &str, session: &Session, files: &[HostFile]| {
        let folder = folder.join(name);
        Test { words, folder, counts }.check(session, files, random).map_err(|what| format!("{name}: {what}"))
    };
    test("first", &case.session, &case.files)?;
    let (session, files) = case.edited();
    test("edited", &session, &files)
}

fn main() {
    jobs::test_all(USAGE, 2, check);
}

// Makes sessions at random, each a function of its number alone, and has the built program answer each in several ways: with few
// checkpoints, with those that it makes by itself, with another spacing, and cold, one run to a process. All must give the same
// replies, and the same as a plain model. `jobs.rs` has the words of the command line.

mod counts;
mod generator;
mod jobs;
mod model;

// Only the test of listings uses all of these.
#[allow(dead_code)]
mod laid;
#[allow(dead_code)]
mod rule;

use counts::Counts;
use generator::{Case, Command, Line};
use jobs::Words;
use laid::Laid;
use model::{name_in_folder, printed, Run, Session};
use std::collections::BTreeMap;
use std::fs;
use std::path::Path;

const USAGE: &str = "tests/random/long PROGRAM COUNT [SEED] [--jobs N]";
// The option and the folder of the files of each drive that a run without edits changes.
const WRITTEN: [(&str, &str); 4] = [("--out", "out-a"), ("--out-b", "out-b"), ("--out-c", "out-c"), ("--out-d", "out-d")];

// A case in a folder of files, and the program that runs it.
struct Test<'a> {
    case: &'a Case,
    laid: Laid,
    program: &'a Path,
}

impl<'a> Test<'a> {
    fn new(case: &'a Case, folder: &Path, program: &'a Path) -> std::io::Result<Test<'a>> {
        let laid = Laid::new(&case.session, &case.files, folder)?;
        laid.write_words()?;
        fs::write(folder.join("edits"), lines(case.commands.iter()))?;
        Ok(Test { case, laid, program })
    }

    // What the program replies to the lines of a file, with these options.
    fn replies(&self, edits: &str, options: &[&str], out: &str) -> Result<String, String> {
        self.laid.printed(self.program, &[&["--edits", edits], options].concat(), out)
    }
}

fn lines<'a>(commands: impl Iterator<Item = &'a Command>) -> String {
    commands.map(|command| command.text.clone() + "\n").collect()
}

// One reply for each line: a report up to its end, or one line; none where the text is not made of these.
fn split<'a>(text: &'a str, commands: &[Command]) -> Option<Vec<&'a str>> {
    let mut rest = text;
    let mut replies = Vec::new();
    for command in commands {
        let end = match command.line {
            Line::Run => "\nend\n",
            _ => "\n",
        };
        let length = rest.find(end)? + end.len();
        replies.push(&rest[..length]);
        rest = &rest[length..];
    }
    rest.is_empty().then_some(replies)
}

// Where two texts of replies to the same lines first differ.
fn difference(what: &str, left: &str, right: &str, commands: &[Command]) -> Result<(), String> {
    if left == right {
        return Ok(());
    }
    let place = match (split(left, commands), split(right, commands)) {
        (Some(left), Some(right)) => left.iter().zip(&right).position(|(left, right)| left != right),
        _ => None,
    };
    Err(match place {
        Some(place) => format!("{what} differ at line {}: {}", place + 1, commands[place].text),
        None => format!("{what} differ"),
    })
}

// The replies that the model gives, and its runs.
fn modelled(case: &Case) -> (Vec<String>, Vec<Run>) {
    let mut session: Session = case.session.clone();
    let (mut replies, mut runs) = (Vec::new(), Vec::new());
    for command in &case.commands {
        replies.push(match &command.line {
            Line::Drop => "ok\n".to_string(),
            Line::Edit(edit) => match session.edit(edit) {
                Ok(()) => "ok\n".to_string(),
                Err(number) => format!("refused {number}\n"),
            },
            Line::Run => {
                runs.push(model::run(&session));
                runs[runs.len() - 1].report.clone()
            }
        });
    }
    (replies, runs)
}

// Each run of the case cold: a process of its own over the edits before it.
fn compare_cold(test: &Test, replies: &[&str], counts: &mut Counts) -> Result<(), String> {
    let commands = &test.case.commands;
    for (last, _) in commands.iter().enumerate().filter(|(_, command)| matches!(command.line, Line::Run)) {
        let kept = || (0..=last).filter(|place| *place == last || matches!(commands[*place].line, Line::Edit(_)));
        let wanted: String = kept().map(|place| replies[place]).collect();
        fs::write(test.laid.folder.join("cold"), lines(kept().map(|place| &commands[place])))
            .map_err(|fault| fault.to_string())?;
        counts.count("Processes", "all", 1);
        if test.replies("cold", &[], "cold.out")? != wanted {
            return Err(format!("the run of line {} and that of a process of its own differ", last + 1));
        }
    }
    Ok(())
}

// The session of the case run once, without edits: what is printed, the status and the written files must be as the model has them.
fn compare_one_run(test: &Test, counts: &mut Counts) -> Result<(), String> {
    let wanted = model::run(&test.case.session);
    WRITTEN.iter().try_for_each(|(_, name)| fs::create_dir(test.laid.folder.join(name))).map_err(|fault| fault.to_string())?;
    let output = test.laid.run(test.program, &WRITTEN.map(|(option, name)| [option, name]).concat())?;
    counts.count("Processes", "all", 1);
    let gone = wanted.changed.iter().filter(|(_, bytes)| bytes.is_none()).map(|(key, _)| format!("gone {}\n", printed(key)));
    let told = format!("stop {}\n", wanted.cause) + &gone.collect::<String>();
    if output.status.code() != Some(wanted.cause.status()) || output.stdout != wanted.text || output.stderr != told.as_bytes() {
        return Err(format!("the one run without edits gives another text or status: {}", output.status));
    }
    for (drive, (_, name)) in WRITTEN.iter().enumerate() {
        let files = wanted.changed.iter().filter(|(key, _)| key[0] as usize == drive);
        let wanted: BTreeMap<_, _> = files.filter_map(|(key, bytes)| Some((name_in_folder(key), bytes.clone()?))).collect();
        if folder_files(&test.laid.folder.join(name)).map_err(|fault| fault.to_string())? != wanted {
            return Err(format!("the one run without edits writes other files into {name}"));
        }
    }
    Ok(())
}

fn folder_files(folder: &Path) -> std::io::Result<BTreeMap<String, Vec<u8>>> {
    let mut files = BTreeMap::new();
    for entry in fs::read_dir(folder)? {
        let entry = entry?;
        files.insert(entry.file_name().to_string_lossy().into_owned(), fs::read(entry.path())?);
    }
    Ok(files)
}

// Answers a case in all ways and compares the answers.
fn check(words: &Words, number: u64, folder: &Path, counts: &mut Counts) -> Result<(), String> {
    let case = &generator::case(number);
    let test = Test::new(case, folder, &words.programs[0]).map_err(|fault| format!("its files are not written: {fault}"))?;
    let few = test.replies("edits", &["--spacing", "1", "--slots", &case.few_slots.to_string()], "few.out")?;
    let usual = test.replies("edits", &[], "usual.out")?;
    let options = ["--spacing", &case.spacing.to_string(), "--slots", &case.slots.to_string()];
    let spaced = test.replies("edits", &options, "spaced.out")?;
    counts.count("Processes", "all", 3);
    let (modelled, runs) = modelled(case);
    counts.add_session(case, &modelled, &runs);
    fs::write(folder.join("model.out"), modelled.concat()).map_err(|fault| fault.to_string())?;
    difference("few.out and usual.out", &few, &usual, &case.commands)?;
    difference("few.out and spaced.out", &few, &spaced, &case.commands)?;
    let replies = split(&few, &case.commands).ok_or("few.out has other than one reply to each line")?;
    compare_cold(&test, &replies, counts)?;
    difference("few.out and model.out", &few, &modelled.concat(), &case.commands)?;
    compare_one_run(&test, counts)
}

fn main() {
    jobs::test_all(USAGE, 1, check);
}

// The rule for make that `cpmdeps --make` prints and `cpmrun --deps` writes.

use crate::model::{is_sayable, name_in_folder, printed, Asked, Cause, Key, Question, PROGRAM_START};
use std::collections::{BTreeMap, BTreeSet};

// The paths of a session: its program, its script, the folders of its drives, and each host file's name in its folder.
#[derive(Default)]
pub struct Paths {
    pub program: String,
    pub script: Option<String>,
    pub folders: [Option<String>; 4],
    pub names: BTreeMap<Key, String>,
}

// A path as make reads it: each blank and `#` after an odd number of backslashes, of which half stay.
fn escape(path: &str) -> String {
    let mut text = String::new();
    let mut backslashes = 0;
    for letter in path.chars() {
        match letter {
            ' ' | '#' => text += &"\\".repeat(backslashes + 1),
            '$' => text.push('$'),
            _ => {}
        }
        text.push(letter);
        backslashes = if letter == '\\' { backslashes + 1 } else { 0 };
    }
    text
}

// A folder with a slash at its end.
fn slashed(folder: &str) -> String {
    if folder.ends_with('/') { folder.to_string() } else { format!("{folder}/") }
}

// A path without `./` before it.
fn plain(path: &str) -> &str {
    match path.strip_prefix("./") {
        Some(rest) if !rest.is_empty() => rest.trim_start_matches('/'),
        _ => path,
    }
}

impl Paths {
    // The rule for what a run of the session asked.
    pub fn rule(&self, target: &str, asked: &Asked) -> String {
        let questions = || asked.first_steps.keys();
        let is_searched = |drive: u8| questions().any(|question| *question == Question::Directory(drive));
        let keys: BTreeSet<Key> = questions().filter_map(key_of).collect();
        let mut others = Vec::new();
        if questions().any(|question| matches!(question, Question::Script(_))) {
            others.extend(self.script.clone());
        }
        let needed = self.names.iter().filter(|(key, _)| keys.contains(*key) || is_searched(key[0]));
        others.extend(needed.filter_map(|(key, name)| self.path(key, name)));
        let searched = (0..4).filter(|drive| is_searched(*drive)).filter_map(|drive| self.folders[drive as usize].as_deref());
        others.extend(searched.map(slashed));
        let absent: Vec<&Key> = keys.iter().filter(|key| !self.names.contains_key(*key) && is_sayable(key)).collect();
        let is_odd = |path: &str| path.contains([' ', '#', '(', ')', ',', '\\']);
        let is_target = |path: &str| plain(path) == plain(target);
        let mut wildcards = String::new();
        for key in &absent {
            let name = name_in_folder(key);
            let Some(path) = self.path(key, &name) else { continue };
            if is_odd(&path) {
                let folder = self.folders[key[0] as usize].as_deref().filter(|_| !is_target(&path));
                others.extend(folder.map(slashed));
                continue;
            }
            for path in [self.path(key, &name), self.path(key, &name.to_lowercase())].into_iter().flatten() {
                if !is_target(&path) {
                    wildcards += &format!(" {}", path.replace('$', "$$"));
                }
            }
        }
        others.retain(|path| !is_target(path));
        let has_program = questions().any(|question| matches!(question, Question::Cell(address) if *address as usize >= PROGRAM_START));
        let program = has_program.then_some(&self.program).filter(|path| !is_target(path));
        let mut text = escape(target) + ":";
        for path in program.into_iter().chain(&others) {
            text += &format!(" {}", escape(path));
        }
        if !wildcards.is_empty() {
            text += &format!(" $(wildcard{wildcards})");
        }
        text.push('\n');
        for path in &others {
            text += &format!("{}:\n", escape(path));
        }
        for key in absent {
            let path = self.path(key, &name_in_folder(key)).unwrap_or_else(|| printed(key));
            text += &format!("# not there: {path}\n");
        }
        if asked.cause != Cause::WarmBoot {
            text += &format!("# stop {}\n", asked.cause);
        }
        text
    }

    // The path of a name in the folder of its drive, if that has a folder.
    fn path(&self, key: &Key, name: &str) -> Option<String> {
        let folder = self.folders[key[0] as usize].as_deref()?;
        Some(slashed(folder) + name)
    }
}

// The file of a question.
fn key_of(question: &Question) -> Option<Key> {
    match question {
        Question::Has(key) | Question::Length(key) | Question::Record(key, _) => Some(*key),
        _ => None,
    }
}

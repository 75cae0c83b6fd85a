// Replays the edit lines of an example by the plain model, each run from its start, and prints the replies. Called with the folder of
// an example: its program, the first line of its `tail`, its `files`, its `script` and its `edits.txt`.
#![allow(dead_code, unused_imports)]

mod model;

use model::{run, Edit, File, Files, Key, Session};
use std::io::{Error, ErrorKind};
use std::path::Path;
use std::{env, fs};

// The bytes of a file, or none where it is not there.
fn bytes_of(path: &Path) -> Result<Vec<u8>, Error> {
    match fs::read(path) {
        Err(fault) if fault.kind() == ErrorKind::NotFound => Ok(Vec::new()),
        read => read,
    }
}

// The key of a name on drive A.
fn key_of(name: &str) -> Key {
    let name = name.to_ascii_uppercase();
    let (stem, kind) = name.split_once('.').unwrap_or((&name, ""));
    let mut key = [b' '; 12];
    key[0] = 0;
    key[1..1 + stem.len()].copy_from_slice(stem.as_bytes());
    key[9..9 + kind.len()].copy_from_slice(kind.as_bytes());
    key
}

fn files_of(folder: &Path) -> Result<Files, Error> {
    let mut files = Files::new();
    if folder.is_dir() {
        for entry in fs::read_dir(folder)? {
            let entry = entry?;
            files.insert(key_of(&entry.file_name().to_string_lossy()), File::of_host(&fs::read(entry.path())?).into());
        }
    }
    Ok(files)
}

fn session_of(folder: &Path) -> Result<Session, Error> {
    let name = folder.file_name().ok_or(Error::other("the folder has no name"))?;
    let tail = bytes_of(&folder.join("tail"))?;
    Ok(Session {
        program: fs::read(folder.join(name).with_extension("com"))?,
        tail: tail.split(|byte| *byte == b'\n').next().unwrap_or(&[]).to_vec(),
        hosts: files_of(&folder.join("files"))?,
        script: bytes_of(&folder.join("script"))?,
        limit: 1_000_000,
    })
}

// The bytes of digits, or of `-`.
fn bytes_in(digits: &str) -> Option<Vec<u8>> {
    match digits {
        "-" => Some(Vec::new()),
        _ => (0..digits.len()).step_by(2).map(|place| u8::from_str_radix(digits.get(place..place + 2)?, 16).ok()).collect(),
    }
}

// The edit of a line; `run` and what else is none has none.
fn edit_of(line: &str) -> Option<Edit> {
    let words: Vec<&str> = line.split(' ').collect();
    Some(match words[..] {
        ["insert", at, digits] => Edit::Insert(at.parse().ok()?, bytes_in(digits)?),
        ["replace", at, digits] => Edit::Replace(at.parse().ok()?, bytes_in(digits)?),
        ["remove", at, count] => Edit::Remove(at.parse().ok()?, count.parse().ok()?),
        ["poke", address, digits] => Edit::Poke(u16::from_str_radix(address, 16).ok()?, bytes_in(digits)?),
        ["file", name, digits] => Edit::SetFile(key_of(name), bytes_in(digits)?),
        ["gone", name] => Edit::RemoveFile(key_of(name)),
        ["limit", limit] => Edit::SetLimit(limit.parse().ok()?),
        _ => return None,
    })
}

fn main() -> Result<(), Error> {
    let folder = env::args().nth(1).ok_or(Error::other("examples FOLDER"))?;
    let folder = Path::new(&folder);
    let mut session = session_of(folder)?;
    for line in fs::read_to_string(folder.join("edits.txt"))?.lines() {
        if line == "run" {
            print!("{}", run(&session).report);
            continue;
        }
        let edit = edit_of(line).ok_or_else(|| Error::other(format!("no edit line: {line}")))?;
        match session.edit(&edit) {
            Ok(()) => println!("ok"),
            Err(number) => println!("refused {number}"),
        }
    }
    Ok(())
}

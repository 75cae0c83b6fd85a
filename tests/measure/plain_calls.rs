// A plain machine with the calls of CP/M, that of tests/random/model: one array of memory, whole files, and nothing recorded of what was
// read or written. Called with a program, the folder of the files of drive A, a script, a folder for changed files, a limit of steps and
// perhaps a command tail, it runs the program once, as `cpmrun` does it.
#![allow(dead_code, unused_imports)]

#[path = "../random"]
mod random {
    pub mod model;
}

use random::model::{name_in_folder, printed, File, Files, Session, State};
use std::io::{Error, Write};
use std::path::Path;
use std::{env, fs};

// The files of a folder, whose names are letters of either case, digits and a point.
fn files(folder: &Path) -> Result<Files, Error> {
    let mut files = Files::new();
    for entry in fs::read_dir(folder)? {
        let entry = entry?;
        let name = entry.file_name().to_string_lossy().to_ascii_uppercase();
        let (stem, kind) = name.split_once('.').unwrap_or((&name, ""));
        let mut key = [b' '; 12];
        key[0] = 0;
        key[1..1 + stem.len()].copy_from_slice(stem.as_bytes());
        key[9..9 + kind.len()].copy_from_slice(kind.as_bytes());
        files.insert(key, File::of_host(&fs::read(entry.path())?).into());
    }
    Ok(files)
}

fn main() -> Result<(), Error> {
    let words: Vec<String> = env::args().collect();
    let [_, program, folder, script, out, limit, tail @ ..] = &words[..] else {
        return Err(Error::other("plain_calls PROGRAM FILES SCRIPT OUT LIMIT [TAIL]"));
    };
    let limit = limit.parse().map_err(Error::other)?;
    let tail = tail.join(" ").into_bytes();
    let session = Session { program: fs::read(program)?, tail, hosts: files(folder.as_ref())?, script: fs::read(script)?, limit };
    let mut state = State::load(&session);
    let (_, cause) = state.run(&session, &mut ());
    std::io::stdout().write_all(state.text())?;
    for (key, bytes) in state.changed(&session) {
        match bytes {
            Some(bytes) => fs::write(Path::new(out).join(name_in_folder(&key)), bytes)?,
            None => eprintln!("gone {}", printed(&key)),
        }
    }
    eprintln!("stop {cause}");
    Ok(())
}

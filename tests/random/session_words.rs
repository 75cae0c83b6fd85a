// The words of a command line that name a session, as `cpmdeps` and `cpmtrace` read them.

use crate::model::{is_sayable, File, Files, Key, Session};
use crate::rule::Paths;
use std::fs;
use std::io::Error;

const DRIVES: [&str; 4] = ["--files", "--files-b", "--files-c", "--files-d"];

// A session with its paths, and the options that are not about the session, with their values.
pub struct SessionWords {
    pub session: Session,
    pub paths: Paths,
    pub options: Vec<(String, String)>,
}

impl SessionWords {
    // Reads the words of a command line, of which these options have no value.
    pub fn read(mut words: impl Iterator<Item = String>, flags: &[&str]) -> Result<SessionWords, Error> {
        let session = Session { program: vec![], tail: vec![], hosts: Files::new(), script: vec![], limit: 1_000_000 };
        let mut read = SessionWords { session, paths: Paths::default(), options: Vec::new() };
        let (mut plain, mut has_only_plain) = (Vec::new(), false);
        while let Some(word) = words.next() {
            match word.split_once('=') {
                _ if has_only_plain || !word.starts_with("--") => plain.push(word),
                Some((option, value)) => read.set(option, value.to_string())?,
                None if word == "--" => has_only_plain = true,
                None if flags.contains(&word.as_str()) => read.options.push((word, String::new())),
                None => read.set(&word, words.next().ok_or_else(|| Error::other(format!("{word} has no value")))?)?,
            }
        }
        let program = plain.first().ok_or_else(|| Error::other("PROGRAM [TAIL] and options"))?;
        read.session.program = fs::read(program)?;
        read.paths.program = program.clone();
        read.session.tail = plain.get(1).cloned().unwrap_or_default().into_bytes();
        Ok(read)
    }

    // Takes an option with its value.
    fn set(&mut self, option: &str, value: String) -> Result<(), Error> {
        match option {
            "--limit" => self.session.limit = value.parse().map_err(Error::other)?,
            "--typed" => self.session.script = typed_bytes(&value)?,
            "--console" => {
                self.session.script = fs::read(&value)?;
                self.paths.script = Some(value);
            }
            _ => match DRIVES.iter().position(|drive| *drive == option) {
                Some(drive) => self.add_files(drive, value)?,
                None => self.options.push((option.to_string(), value)),
            },
        }
        Ok(())
    }

    fn add_files(&mut self, drive: usize, folder: String) -> Result<(), Error> {
        for entry in fs::read_dir(&folder)? {
            let path = entry?.path();
            let name = path.file_name().and_then(|name| name.to_str()).unwrap_or_default();
            let Some(key) = key_of(drive as u8, name).filter(|_| path.is_file() && !path.is_symlink()) else { continue };
            self.session.hosts.insert(key, File::of_host(&fs::read(&path)?).into());
            self.paths.names.insert(key, name.to_string());
        }
        self.paths.folders[drive] = Some(folder);
        Ok(())
    }
}

// Returns the key of a name, if a folder of host files can have it.
pub fn key_of(drive: u8, name: &str) -> Option<Key> {
    let (stem, kind) = name.split_once('.').unwrap_or((name, ""));
    let has_point_alone = name.ends_with('.');
    let fits = name.is_ascii() && !has_point_alone && stem.len() <= 8 && kind.len() <= 3 && !name.contains(' ');
    let mut key = [b' '; 12];
    key[0] = drive;
    if !fits {
        return None;
    }
    key[1..1 + stem.len()].copy_from_slice(stem.to_ascii_uppercase().as_bytes());
    key[9..9 + kind.len()].copy_from_slice(kind.to_ascii_uppercase().as_bytes());
    is_sayable(&key).then_some(key)
}

// Returns the script of a text with escapes: a carriage return is added unless it ends with one.
fn typed_bytes(text: &str) -> Result<Vec<u8>, Error> {
    let (mut bytes, mut rest) = (Vec::new(), text.bytes());
    while let Some(byte) = rest.next() {
        bytes.push(match byte {
            b'\\' => escaped_byte(&mut rest).ok_or_else(|| Error::other("--typed has another escape"))?,
            _ => byte,
        });
    }
    if bytes.last() != Some(&b'\r') {
        bytes.push(b'\r');
    }
    Ok(bytes)
}

// Returns the byte of an escape, from what comes after its backslash.
fn escaped_byte(rest: &mut impl Iterator<Item = u8>) -> Option<u8> {
    let half = |byte: Option<u8>| (byte? as char).to_digit(16).map(|digit| digit as u8);
    match rest.next()? {
        b'r' => Some(b'\r'),
        b'n' => Some(b'\n'),
        b't' => Some(b'\t'),
        b'\\' => Some(b'\\'),
        b'x' => Some(half(rest.next())? * 16 + half(rest.next())?),
        _ => None,
    }
}

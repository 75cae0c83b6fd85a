// Prints the trace of a run by the plain model: `trace PROGRAM [TAIL]` with the options of `cpmtrace`.
#![allow(dead_code, unused_imports)]

mod model;
mod rule;
mod session_words;

use model::{Choice, Key, Trace};
use session_words::{key_of, SessionWords};
use std::env;
use std::io::{stdout, Error, ErrorKind, Write};
use std::ops::RangeInclusive;

// Returns the steps that these options choose.
fn choice_of(options: &[(String, String)]) -> Result<Choice, Error> {
    let mut choice = Choice::default();
    for (option, value) in options {
        let number = || value.parse::<u64>().map_err(Error::other);
        match option.as_str() {
            "--steps" => choice.instructions = true,
            "--from" => choice.from = Some(number()?),
            "--to" => choice.to = Some(number()?),
            "--at" => choice.at = Some(address_of(value)?),
            "--writes" => choice.writes = Some(range_of(value)?),
            "--reads" => choice.reads = Some(range_of(value)?),
            "--file" => choice.file = Some(file_of(value).ok_or_else(|| Error::other(format!("no name of a file: {value}")))?),
            "--last" => choice.last = Some(number()?),
            _ => return Err(Error::other(format!("no option: {option}"))),
        }
    }
    Ok(choice)
}

// Returns the address of one to four hexadecimal digits.
fn address_of(digits: &str) -> Result<u16, Error> {
    let is_address = (1..=4).contains(&digits.len()) && digits.bytes().all(|digit| digit.is_ascii_hexdigit());
    let address = u16::from_str_radix(digits, 16).ok().filter(|_| is_address);
    address.ok_or_else(|| Error::other(format!("no address: {digits}")))
}

fn range_of(text: &str) -> Result<RangeInclusive<u16>, Error> {
    let (first, last) = text.split_once('-').unwrap_or((text, text));
    let range = address_of(first)?..=address_of(last)?;
    Some(range).filter(|range| !range.is_empty()).ok_or_else(|| Error::other(format!("no range: {text}")))
}

// Returns the key of a name, which may have a drive before it.
fn file_of(name: &str) -> Option<Key> {
    match name.as_bytes() {
        [letter, b':', ..] => {
            let drive = letter.to_ascii_uppercase().checked_sub(b'A').filter(|drive| *drive < 4)?;
            key_of(drive, &name[2..])
        }
        _ => key_of(0, name),
    }
}

fn main() -> Result<(), Error> {
    let words = SessionWords::read(env::args().skip(1), &["--steps"])?;
    let choice = choice_of(&words.options)?;
    match stdout().write_all(Trace::of(&words.session).text(&choice).as_bytes()) {
        // The reader has all that it needs.
        Err(fault) if fault.kind() == ErrorKind::BrokenPipe => Ok(()),
        written => written,
    }
}

// Prints what a run asked its session, by the plain model: `listing PROGRAM [TAIL]` with the options of `cpmdeps`.
#![allow(dead_code, unused_imports)]

mod model;
mod rule;
mod session_words;

use model::{Asked, Rows};
use session_words::SessionWords;
use std::env;
use std::io::Error;

fn main() -> Result<(), Error> {
    let words = SessionWords::read(env::args().skip(1), &["--by-step"])?;
    let (mut rows, mut target) = (Rows::Joined, None);
    for (option, value) in &words.options {
        match option.as_str() {
            "--by-step" => rows = Rows::ByStep,
            "--make" => target = Some(value),
            _ => return Err(Error::other(format!("no option: {option}"))),
        }
    }
    let asked = Asked::of(&words.session);
    print!(
        "{}",
        match target {
            Some(target) => words.paths.rule(target, &asked),
            None => asked.listing(&words.session, rows),
        }
    );
    Ok(())
}

//! The verb `book`: the proved program itself, on a book.

use crate::arguments::Asked;
use crate::feed::looks_like_text;
use crate::input::Input;
use crate::output::{say, Output};
use crate::proved::BOOK;
use crate::trouble::{Outcome, Status};
use std::process::Stdio;

/// Bytes of a book that the program reads.
const MOST_READ: usize = 65_536;

pub fn book(asked: &Asked, output: &mut Output) -> Outcome {
    let mut input = Input::open(asked.operand())?;
    let mut program = BOOK.start(Stdio::piped())?;
    let book = input.first(MOST_READ + 1)?;
    let name = &input.name;
    if looks_like_text(&book) {
        say(&format!(
            "{name} looks like text, and book reads records alone; `run` reads both"
        ));
    }
    if MOST_READ < book.len() {
        say(&format!(
            "{name} has more than {MOST_READ} bytes, and the rest is not read; `run` reads it all"
        ));
    }
    program.feed(book);
    program.pass_on(output, told)
}

/// The status that a line tells: its second word is 0 or the refusal's number.
fn told(line: &str) -> Option<Status> {
    let refusal = line.split(' ').nth(1)?;
    refusal.parse().ok().map(Status::of)
}

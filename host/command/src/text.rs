//! The verbs `write` and `show`: a book made of text, and text made of a book.

use crate::arguments::Asked;
use crate::feed::{looks_like_text, Feed, Next, Piece, Taken};
use crate::input::Input;
use crate::output::{say, Output};
use crate::records::line::{hex, said, values, RAW};
use crate::records::table::row;
use crate::refusals::meaning;
use crate::trouble::{system, Outcome, Status, Trouble};
use native::entries::Entry;
use native::reading::Answer;
use std::fs;

/// Bytes on one line of those that are no record.
const MOST_RAW: usize = 32;

/// Nothing is written before the whole text is read and right.
pub fn write(asked: &Asked, output: &mut Output) -> Outcome {
    let mut feed = Feed::new(Input::open(asked.operand())?, Taken::Text)?;
    let book = feed.rest()?;
    match asked.value("--to") {
        Some(file) => write_file(file, &book)?,
        None if at_a_terminal() => {
            let how = "write it to a file, with > FILE or --to FILE";
            return Err(Trouble(format!(
                "a book is bytes, which a terminal can't show: {how}"
            )));
        }
        None => output.put(book)?,
    }
    Ok(Status::Accepted)
}

/// Whole or not at all: another use never sees half a book.
fn write_file(file: &str, book: &[u8]) -> Result<(), Trouble> {
    let new = format!("{file}.{}.new", std::process::id());
    let written = fs::write(&new, book).and_then(|()| fs::rename(&new, file));
    written.map_err(|error| {
        let _ = fs::remove_file(&new);
        system(format!("{file} can't be written"), &error)
    })
}

fn at_a_terminal() -> bool {
    let place = fs::read_link("/proc/self/fd/1").unwrap_or_default();
    ["/dev/pts", "/dev/tty", "/dev/console"]
        .iter()
        .any(|terminal| place.to_string_lossy().starts_with(terminal))
}

pub fn show(asked: &Asked, output: &mut Output) -> Outcome {
    let input = Input::open(asked.operand())?;
    let name = input.name.clone();
    let mut feed = Feed::new(input, Taken::Records)?;
    let mut status = Status::Accepted;
    loop {
        match feed.next() {
            Next::End => return Ok(status),
            Next::Waits => {
                output.flush()?;
                feed.wait()?;
            }
            Next::Piece(piece) => match piece.reading.answer {
                Answer::Found { entry, .. } => output.line(&line(&piece, entry, usize::MAX))?,
                Answer::Refused { why, .. } => {
                    unread(&mut feed, &piece, why.number(), output)?;
                    status = Status::Stopped;
                    if piece.place == 0 && looks_like_text(&piece.bytes) {
                        say(&format!(
                            "{name} looks like text; `write` makes a book of it"
                        ));
                    }
                }
            },
        }
    }
}

/// The line of a record that can be read, with at most so many figures of a list.
pub fn line(piece: &Piece, entry: Entry, most: usize) -> String {
    let row = row(u16::from(entry.kind())).expect("every kind has its row");
    said(row, &values(row, &piece.bytes), most)
}

/// All bytes from a record on that can't be read, and why it can't.
fn unread(feed: &mut Feed, piece: &Piece, why: u8, output: &mut Output) -> Result<(), Trouble> {
    let place = piece.place;
    output.line(&format!(
        "# at byte {place}, refusal {why}: {}",
        meaning(why)
    ))?;
    let mut bytes = piece.bytes.clone();
    bytes.extend(feed.rest()?);
    for part in bytes.chunks(MOST_RAW) {
        output.line(&format!("{RAW} {}", hex(part, "")))?;
    }
    Ok(())
}

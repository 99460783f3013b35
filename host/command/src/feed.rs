//! Records as they come, from bytes or from lines of text.

use crate::input::Input;
use crate::records::line::{bytes_of, HEAD};
use crate::trouble::Trouble;
use native::reading::{read, Answer, Reading};
use native::terms::Refusal;

/// What an input is to be taken for.
#[derive(Clone, Copy, Debug, PartialEq, Eq)]
pub enum Taken {
    /// By its first bytes.
    AsItLooks,
    Text,
    Records,
}

/// A record with its place in the book, or what stands where none can be read.
pub struct Piece {
    pub place: u64,
    pub bytes: Vec<u8>,
    pub reading: Reading,
}

/// What can be had without waiting for the input.
pub enum Next {
    Piece(Piece),
    Waits,
    End,
}

pub struct Feed {
    input: Input,
    text: Option<Lines>,
    held: Vec<u8>,
    /// What stands before it in `held` was given already.
    start: usize,
    place: u64,
    ended: bool,
}

/// Lines that were begun, and how many were taken.
#[derive(Default)]
struct Lines {
    begun: Vec<u8>,
    taken: u64,
    /// A line that says no record, which is told once all before it are answered.
    wrong: Option<Trouble>,
}

const MARK: &[u8] = &[0xef, 0xbb, 0xbf];

/// A readable record has a byte 0 at the end of its head, which no text has; text may begin with the mark of its encoding.
pub fn looks_like_text(first: &[u8]) -> bool {
    let head = &first[..first.len().min(HEAD)];
    let head = head.strip_prefix(MARK).unwrap_or(head);
    let sign = |byte: &u8| matches!(byte, b'\t' | b'\n' | b'\r' | b' '..=b'~');
    !first.is_empty() && head.iter().all(sign)
}

impl Feed {
    pub fn new(mut input: Input, taken: Taken) -> Result<Feed, Trouble> {
        let first = input.first(HEAD)?;
        let text = match taken {
            Taken::AsItLooks => looks_like_text(&first),
            Taken::Text => true,
            Taken::Records => false,
        };
        let mut feed = Feed {
            input,
            text: None,
            held: Vec::new(),
            start: 0,
            place: 0,
            ended: false,
        };
        if text {
            let begun = first.strip_prefix(MARK).unwrap_or(&first).to_vec();
            let mut lines = Lines {
                begun,
                ..Lines::default()
            };
            lines.take(&feed.input.name, false, &mut feed.held);
            feed.text = Some(lines);
        } else {
            feed.held = first;
        }
        Ok(feed)
    }

    /// The next record, as soon as it is whole or can't be read.
    pub fn next(&mut self) -> Next {
        let rest = &self.held[self.start..];
        if rest.is_empty() {
            return if self.ended { Next::End } else { Next::Waits };
        }
        let reading = read(rest, 0);
        let length = match reading.answer {
            Answer::Found { length, .. } => length,
            Answer::Refused { .. } if !is_cut(&reading) => told_by(rest),
            Answer::Refused { .. } if self.ended => rest.len(),
            Answer::Refused { .. } => return Next::Waits,
        };
        let piece = Piece {
            place: self.place,
            bytes: rest[..length].to_vec(),
            reading,
        };
        self.place += length as u64;
        self.start += length;
        Next::Piece(piece)
    }

    /// Waits for more of the input.
    pub fn wait(&mut self) -> Result<(), Trouble> {
        self.held.drain(..self.start);
        self.start = 0;
        let Feed {
            input, text, held, ..
        } = self;
        match text {
            None => self.ended = input.more(held)? == 0,
            Some(lines) => {
                if let Some(wrong) = lines.wrong.take() {
                    return Err(wrong);
                }
                let ended = input.more(&mut lines.begun)? == 0;
                lines.take(&input.name, ended, held);
                // A wrong line is told when the feed is asked once more.
                self.ended = ended && lines.wrong.is_none();
            }
        }
        Ok(())
    }

    /// All that is left, as it is.
    pub fn rest(&mut self) -> Result<Vec<u8>, Trouble> {
        while !self.ended {
            self.wait()?;
        }
        Ok(self.held.split_off(self.start))
    }
}

fn is_cut(reading: &Reading) -> bool {
    let why = match reading.answer {
        Answer::Found { .. } => return false,
        Answer::Refused { why, .. } => why,
    };
    matches!(why, Refusal::CutShort)
}

/// How many of the bytes it takes to see that they are no record. How many more have come by then is chance, and is not told.
fn told_by(bytes: &[u8]) -> usize {
    let enough = |size: &usize| !is_cut(&read(&bytes[..*size], 0));
    (HEAD..bytes.len()).find(enough).unwrap_or(bytes.len())
}

impl Lines {
    /// The bytes of every line that is whole, up to the first wrong one.
    fn take(&mut self, name: &str, ended: bool, held: &mut Vec<u8>) {
        let mut start = 0;
        while start < self.begun.len() && self.wrong.is_none() {
            let end = self.begun[start..].iter().position(|&byte| byte == b'\n');
            let (end, next) = match end {
                Some(length) => (start + length, start + length + 1),
                None if ended => (self.begun.len(), self.begun.len()),
                None => break,
            };
            self.taken += 1;
            match spelled(&self.begun[start..end]) {
                Ok(bytes) => held.extend(bytes),
                Err(wrong) => self.wrong = Some(Trouble(format!("{name}:{}: {wrong}", self.taken))),
            }
            start = next;
        }
        self.begun.drain(..start);
    }
}

fn spelled(line: &[u8]) -> Result<Vec<u8>, String> {
    match std::str::from_utf8(line) {
        Ok(line) => bytes_of(line).map_err(|wrong| wrong.to_string()),
        Err(_) => Err("bytes that are no text".to_string()),
    }
}

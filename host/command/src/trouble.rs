//! How a verb ends: with a status that a script can go by, or in trouble, which is told in one line.

use std::fmt::Display;
use std::io;

/// The exit status of every verb.
#[derive(Clone, Copy, Debug, PartialEq, Eq, PartialOrd, Ord)]
pub enum Status {
    Accepted = 0,
    /// Some record or question was refused.
    Refused = 1,
    /// Wrong usage, or a line or file that can't be read or written.
    Trouble = 2,
    /// The run stopped at a record that can't be read.
    Stopped = 3,
}

impl Status {
    /// A run that stopped says so, also where records were refused before.
    pub fn and(self, other: Status) -> Status {
        self.max(other)
    }

    /// As the refusal number of one record has it: 1 to 3 end the reading.
    pub fn of(refusal: u8) -> Status {
        match refusal {
            0 => Status::Accepted,
            1..=3 => Status::Stopped,
            _ => Status::Refused,
        }
    }
}

/// What is wrong, in one line.
#[derive(Debug, PartialEq, Eq)]
pub struct Trouble(pub String);

pub type Outcome = Result<Status, Trouble>;

/// Something that the system would not do.
pub fn system(what: impl Display, error: &io::Error) -> Trouble {
    Trouble(format!("{what}: {}", told(error)))
}

/// The system's words without its number, which tells a reader nothing.
fn told(error: &io::Error) -> String {
    let words = error.to_string();
    let end = words.find(" (os error").unwrap_or(words.len());
    words[..end].to_lowercase()
}

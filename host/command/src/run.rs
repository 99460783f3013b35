//! The verb `run`: a line for each record, in words.

use crate::arguments::Asked;
use crate::decimal::{counted, yuan};
use crate::desk::{Answer, Desk};
use crate::feed::{Feed, Next, Piece, Taken};
use crate::input::Input;
use crate::output::{say, Output};
use crate::reasons::figures;
use crate::records::line::hex;
use crate::refusals::meaning;
use crate::text::line;
use crate::trouble::{Outcome, Status, Trouble};
use native::reading;

/// Where the available sum ends, behind the record's number.
const SUM_ENDS: usize = 48;
/// Figures of a day end that are told before they are only counted.
const MOST_FIGURES: usize = 4;
/// Bytes that are told of a record that can't be read.
const MOST_BYTES: usize = 6;

pub const BY_SOURCE: &str = "answered by the proved source, compiled by rustc";

pub fn run(asked: &Asked, output: &mut Output) -> Outcome {
    let manner = asked.one_of(&["--refused", "--lines", "--quiet"])?;
    let mut feed = opened(asked)?;
    let each = |output: &mut Output, told: Told| match manner {
        Some("--quiet") => Ok(()),
        Some("--refused") if told.answer.refusal == 0 => Ok(()),
        Some("--lines") => output.line(&told.bare()),
        _ => output.line(&told.line()),
    };
    let run = answered(&mut feed, output, None, each)?;
    if manner == Some("--quiet") {
        output.line(&run.summary())?;
    } else {
        run.tell(output)?;
    }
    Ok(run.status)
}

/// The input that is asked for, taken as asked.
pub fn opened(asked: &Asked) -> Result<Feed, Trouble> {
    let taken = match asked.one_of(&["--text", "--records"])? {
        Some("--text") => Taken::Text,
        Some(_) => Taken::Records,
        None => Taken::AsItLooks,
    };
    Feed::new(Input::open(asked.operand())?, taken)
}

/// What a run came to.
pub struct Run {
    pub desk: Desk,
    pub status: Status,
    accepted: u64,
    available: i64,
    /// The byte at which a record can't be read.
    stopped: Option<u64>,
}

/// Answers record after record as they come, up to `most` of them; each answer is told at once.
pub fn answered(
    feed: &mut Feed,
    output: &mut Output,
    most: Option<u64>,
    mut each: impl FnMut(&mut Output, Told) -> Result<(), Trouble>,
) -> Result<Run, Trouble> {
    let mut run = Run {
        desk: Desk::new(),
        status: Status::Accepted,
        accepted: 0,
        available: 0,
        stopped: None,
    };
    while run.stopped.is_none() && most.map_or(true, |most| run.desk.records < most) {
        match feed.next() {
            Next::End => break,
            Next::Waits => {
                output.flush()?;
                feed.wait()?;
            }
            Next::Piece(piece) => {
                let answer = run.take(&piece);
                each(
                    output,
                    Told {
                        desk: &run.desk,
                        piece: &piece,
                        answer,
                    },
                )?;
            }
        }
    }
    Ok(run)
}

impl Run {
    fn take(&mut self, piece: &Piece) -> Answer {
        let answer = self.desk.answer(piece);
        let status = Status::of(answer.refusal);
        self.status = self.status.and(status);
        self.accepted += u64::from(status == Status::Accepted);
        self.available = answer.available;
        if status == Status::Stopped {
            self.stopped = Some(piece.place);
        }
        answer
    }

    /// Behind all that is printed, for the person at the desk: what the run came to, and who has answered.
    pub fn tell(&self, output: &mut Output) -> Result<(), Trouble> {
        output.flush()?;
        say(&format!("{}; {BY_SOURCE}", self.summary()));
        Ok(())
    }

    fn summary(&self) -> String {
        let (records, accepted) = (self.desk.records, self.accepted);
        let read = records - u64::from(self.stopped.is_some());
        let refused = read - accepted;
        let stopped = match self.stopped {
            Some(place) => format!("; stopped at byte {place}, record {records}"),
            None => String::new(),
        };
        let available = yuan(self.available);
        let read = counted(read, "record");
        format!("{read}, {accepted} accepted, {refused} refused{stopped}; available {available}")
    }
}

/// A record and its answer, at the desk that has given it.
pub struct Told<'a> {
    pub desk: &'a Desk,
    pub piece: &'a Piece,
    pub answer: Answer,
}

impl Told<'_> {
    /// As document 01 has it: the record's number, the refusal's or 0, available in fen.
    fn bare(&self) -> String {
        let Answer { refusal, available } = self.answer;
        format!("{} {refusal} {available}", self.desk.records)
    }

    fn line(&self) -> String {
        let words = self.words();
        let available = yuan(self.answer.available);
        let width = SUM_ENDS.saturating_sub(words.chars().count());
        let width = width.max(available.len() + 2);
        let records = self.desk.records;
        format!("{records:>4}  {words}{available:>width$}{}", self.why())
    }

    fn words(&self) -> String {
        let Piece {
            place,
            bytes,
            reading,
        } = self.piece;
        match reading.answer {
            reading::Answer::Found { entry, .. } => line(self.piece, entry, MOST_FIGURES),
            reading::Answer::Refused { .. } => {
                let told = hex(&bytes[..bytes.len().min(MOST_BYTES)], " ");
                let more = if MOST_BYTES < bytes.len() { " .." } else { "" };
                format!("(at byte {place}) {told}{more}")
            }
        }
    }

    fn why(&self) -> String {
        let refusal = self.answer.refusal;
        let word = match Status::of(refusal) {
            Status::Accepted => return String::new(),
            Status::Stopped => "STOPPED",
            _ => "REFUSED",
        };
        let figures = figures(&self.desk.book, self.piece, refusal);
        format!("  {word} {refusal}: {}; {figures}", meaning(refusal))
    }
}

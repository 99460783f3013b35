//! The expiry program: what a line asks, and what is printed for it.

use crate::account::Position;
use crate::expiry::{assign, exercise, Obligation, Request};
use crate::terms::Right;
use std::str::{from_utf8, FromStr};

/// A line that has more bytes, its end not counted, is not read, whatever it says.
pub const LONGEST_LINE: usize = 65_535;

#[derive(Clone, Debug, PartialEq, Eq)]
pub enum Question {
    Exercise(Request),
    Assign {
        exercised: u32,
        accounts: Vec<Obligation>,
    },
}

pub fn printed(input: &[u8]) -> String {
    let lines = (1_usize..).zip(input.split(|&byte| byte == b'\n'));
    lines
        .map(|(number, line)| answer_line(number, line))
        .collect()
}

/// Empty where nothing is asked.
fn answer_line(number: usize, line: &[u8]) -> String {
    let words: Vec<&[u8]> = line
        .split(|byte| b" \t\r".contains(byte))
        .filter(|word| !word.is_empty())
        .collect();
    let fits = line.len() <= LONGEST_LINE;
    let remark = words.first().map_or(true, |word| word[0] == b'#');
    if fits && remark {
        return String::new();
    }
    match question(&words).filter(|_| fits) {
        Some(question) => question.answer() + "\n",
        None => format!("unreadable {number}\n"),
    }
}

fn question(words: &[&[u8]]) -> Option<Question> {
    match words {
        [b"exercise", fields @ ..] => Some(Question::Exercise(request(fields)?)),
        [b"assign", exercised, counts @ ..] => Some(Question::Assign {
            exercised: number(exercised)?,
            accounts: accounts(counts)?,
        }),
        _ => None,
    }
}

fn request(fields: &[&[u8]]) -> Option<Request> {
    match fields {
        [right_word, strike, unit, long, short, covered, count, offered] => Some(Request {
            right: right(right_word)?,
            strike: number(strike)?,
            unit: number(unit)?,
            held: Position {
                long: number::<u32>(long)?.into(),
                short: number::<u32>(short)?.into(),
                covered: number::<u32>(covered)?.into(),
            },
            count: number(count)?,
            offered: number(offered)?,
        }),
        _ => None,
    }
}

fn right(word: &[u8]) -> Option<Right> {
    match word {
        b"call" => Some(Right::Call),
        b"put" => Some(Right::Put),
        _ => None,
    }
}

fn accounts(counts: &[&[u8]]) -> Option<Vec<Obligation>> {
    let pairs = counts.chunks(2);
    pairs
        .map(|pair| match pair {
            [short, covered] => Some(Obligation {
                short: number(short)?,
                covered: number(covered)?,
            }),
            _ => None,
        })
        .collect()
}

/// Digits alone: what Rust reads as a number may have a sign.
fn number<T: FromStr>(word: &[u8]) -> Option<T> {
    let digits = word.iter().all(u8::is_ascii_digit);
    let text = from_utf8(word).ok().filter(|_| digits)?;
    text.parse().ok()
}

impl Question {
    /// The refusal number, or 0 and, for each account, what it is assigned.
    pub fn answer(&self) -> String {
        let answer = match self {
            Question::Exercise(request) => exercise(request).map(|()| Vec::new()),
            Question::Assign {
                exercised,
                accounts,
            } => assign(*exercised, accounts),
        };
        match answer {
            Err(refusal) => refusal.to_string(),
            Ok(assigned) => assigned.iter().fold("0".to_string(), |line, account| {
                format!("{line} {} {}", account.covered, account.uncovered)
            }),
        }
    }
}

//! Why a record can't be read: how many bytes there are and should be, its kind, its length, its counts, its codes.

use crate::decimal::counted;
use crate::records::line::{values, HEAD};
use crate::records::table::{row, Form, Row, Times, ROWS};
use native::entries::{Counts, Kind};
use native::terms::Measure;

/// The bytes are all that is left where the record is cut short.
pub fn figures(bytes: &[u8], refusal: u8) -> String {
    match refusal {
        1 => {
            let left = counted(bytes.len() as u64, "byte");
            format!("{left} left unread, {} needed", needed(bytes))
        }
        2 => format!("kind {}, listed are {}", two(bytes, 2), kinds()),
        _ => misshapen(bytes),
    }
}

/// A field of two bytes.
fn two(bytes: &[u8], at: usize) -> u16 {
    u16::from_le_bytes([bytes[at], bytes[at + 1]])
}

/// As far as the record itself says: a head, then a day end's counts, then what its length says.
fn needed(bytes: &[u8]) -> usize {
    if bytes.len() < HEAD {
        return HEAD;
    }
    let head = row(two(bytes, 2)).map_or(HEAD, counted_head);
    head.max(if bytes.len() < head {
        0
    } else {
        usize::from(two(bytes, 0))
    })
}

/// The bytes up to a row's last count, or those of the bare head where it counts nothing.
fn counted_head(row: &Row) -> usize {
    let counts = (0..row.fields.len()).filter(|&place| row.counts(place));
    HEAD + counts.map(|place| row.fields[place].width).sum::<usize>()
}

/// As `1 to 10, 16 to 18`.
fn kinds() -> String {
    let mut kinds: Vec<u16> = ROWS.iter().map(|row| row.kind).collect();
    kinds.sort_unstable();
    let mut runs: Vec<(u16, u16)> = Vec::new();
    for kind in kinds {
        match runs.last_mut() {
            Some(run) if run.1 + 1 == kind => run.1 = kind,
            _ => runs.push((kind, kind)),
        }
    }
    let told = |(first, last): &(u16, u16)| match last - first {
        0 => first.to_string(),
        _ => format!("{first} to {last}"),
    };
    runs.iter().map(told).collect::<Vec<_>>().join(", ")
}

fn misshapen(bytes: &[u8]) -> String {
    let (length, code) = (two(bytes, 0), two(bytes, 2));
    let (kind, row) = match (Kind::try_from(code), row(code)) {
        (Ok(kind), Some(row)) => (kind, row),
        _ => return String::new(),
    };
    let own = if kind.is_day_end() {
        let [n, m] = [Measure::Contracts, Measure::Underlyings].map(|measure| measure.range());
        let length = |n: u64, m: u64| counts(n as u16, m as u16).length();
        let (least, most) = (length(n.0, m.0), length(n.1, m.1));
        format!("{least} to {most} in steps of 4")
    } else {
        kind.length().to_string()
    };
    if !kind.fits(length) {
        return format!("length {length}, of {} {own}", row.first_word());
    }
    if kind.is_day_end() {
        return uncounted(length, two(bytes, 4), two(bytes, 6));
    }
    unlisted(row, bytes)
}

fn counts(n: u16, m: u16) -> Counts {
    Counts { n, m }
}

fn uncounted(length: u16, n: u16, m: u16) -> String {
    let [ns, ms] = [Measure::Contracts, Measure::Underlyings].map(|measure| measure.range());
    let (n_most, m_most) = (ns.1, ms.1);
    if counts(n, m).allowed() {
        let own = counts(n, m).length();
        return format!("length {length}, of n {n} and m {m} it is {own}");
    }
    format!(
        "n {n} and m {m}, n is {} to {n_most} and m {} to {m_most}",
        ns.0, ms.0
    )
}

/// The record is whole, and one of its codes is none.
fn unlisted(row: &Row, bytes: &[u8]) -> String {
    for (field, numbers) in row.fields.iter().zip(values(row, bytes)) {
        if let (Form::Word(words), Times::Once) = (field.form, field.times) {
            let code = numbers[0];
            if !(1..=words.len() as u64).contains(&code) {
                let name = field.name;
                return format!("{name} code {code}, listed are 1 to {}", words.len());
            }
        }
    }
    String::new()
}

//! Lines of worked examples: what a line asks, and the answer that `plain` gives. A line that asks nothing is a remark. And books, whose
//! records `plain` answers too; and questions of an expiry day.

pub mod assigning;
pub mod booking;
pub mod cases;
pub mod chance;
pub mod damaging;
pub mod edges;
pub mod examples;
pub mod exercising;
pub mod expiring;
pub mod making;
pub mod ordering;
pub mod paying;
pub mod reached;
pub mod runs;
pub mod setting_up;
pub mod stated;
pub mod tables;
pub mod telling;
pub mod trial;

use edges::Edges;
use plain::entry::Entry;

/// The fields of a line, the word that says what it asks among them.
pub struct Words<'a>(Vec<&'a str>);

impl<'a> Words<'a> {
    pub fn of(line: &'a str) -> Words<'a> {
        Words(line.split(' ').collect())
    }

    pub fn first(&self) -> &'a str {
        self.0[0]
    }

    pub fn text(&self, place: usize) -> Option<&'a str> {
        self.0.get(place).copied()
    }

    /// A decimal number, as wide as the type that is asked for.
    pub fn number<T: std::str::FromStr>(&self, place: usize) -> Option<T> {
        self.text(place)?.parse().ok()
    }

    /// A hexadecimal number; one that is too wide for the type is none.
    pub fn hex<T: TryFrom<u64>>(&self, place: usize) -> Option<T> {
        let value = u64::from_str_radix(self.text(place)?, 16).ok()?;
        T::try_from(value).ok()
    }
}

/// A day end by its counts and its figures, settlements first; a figure that the line does not have is 0.
fn day_end(n: u16, m: u16, figure: impl Fn(usize) -> Option<u32>) -> Entry {
    let (n, m) = (usize::from(n), usize::from(m));
    let figures = |places: std::ops::Range<usize>| places.map(|i| figure(i).unwrap_or(0)).collect();
    Entry::DayEnd {
        settlements: figures(0..n),
        closes: figures(n..n + m),
    }
}

/// The line again, with ` = ` and the answer where it asks something.
pub fn answered(edges: &mut Edges, line: &str) -> String {
    let words = Words::of(line);
    let answer = cases::answer(&words)
        .or_else(|| runs::answer(&words))
        .or_else(|| edges.answer(&words));
    match answer {
        Some(answer) => format!("{line} = {answer}"),
        None => line.to_string(),
    }
}

//! The book program: what it reads of its input, and what it prints.

use crate::book::run_book;

/// Bytes past these are not read.
pub const MOST_READ: usize = 65_536;

pub fn printed(input: &[u8]) -> String {
    let book = &input[..input.len().min(MOST_READ)];
    // A record takes a byte at least, so that there is a place for each.
    lines(&run_book(book, book.len()).answers)
}

/// A line for each record: its number from 1, the refusal number or 0, and the available sum.
pub fn lines(answers: &[(u8, i64)]) -> String {
    let numbered = (1_usize..).zip(answers);
    numbered
        .map(|(number, (verdict, available))| format!("{number} {verdict} {available}\n"))
        .collect()
}

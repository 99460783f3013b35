//! The words of refusals 1, 2, 3 and 5: of a record that can't be read, held to its bytes, and of one that is out of its place, held to the
//! book before it.

use crate::common::lines::{decimal, figures, part};
use plain::book::Book;
use plain::entry::Entry;
use plain::record::read;
use plain::terms::{CONTRACTS, UNDERLYINGS};
use std::ops::RangeInclusive;

/// The bytes are all that are left from the record on. Gives the form of the words.
pub fn hold(bytes: &[u8], refusal: u8, words: &str) -> &'static str {
    match refusal {
        1 => cut(bytes, words),
        2 => unknown(bytes, words),
        _ if words.starts_with("length ") && words.contains(", of n ") => unlike(bytes, words),
        _ if words.starts_with("length ") => too_long(bytes, words),
        _ if words.starts_with("n ") => uncounted(bytes, words),
        _ => unlisted(bytes, words),
    }
}

/// Where the record stands, and up to six of the bytes that it takes to see that it is none.
pub fn hold_bytes(bytes: &[u8], place: usize, words: &str) {
    let left = &bytes[place..];
    let enough = |size: &usize| read(&left[..*size], 0) != Err(1);
    let seen = (0..left.len()).find(enough).unwrap_or(left.len());
    let told: String = left[..seen.min(6)]
        .iter()
        .map(|byte| format!(" {byte:02x}"))
        .collect();
    let more = if 6 < seen { " .." } else { "" };
    assert_eq!(words, format!("(at byte {place}){told}{more}"));
}

fn two(bytes: &[u8], at: usize) -> u16 {
    u16::from_le_bytes([bytes[at], bytes[at + 1]])
}

fn range(words: &str) -> RangeInclusive<u64> {
    let (least, most) = words.split_once(" to ").unwrap_or((words, words));
    decimal(least, 0) as u64..=decimal(most, 0) as u64
}

/// A head, then a day end's counts, then what the record's own length says.
fn cut(bytes: &[u8], words: &str) -> &'static str {
    let (left, needed) = part(words, " left unread, ");
    let (left, bytes_or_byte) = part(left, " ");
    assert_eq!(bytes_or_byte == "byte", left == "1", "{words}");
    let needed = needed.strip_suffix(" needed").expect("so many are needed");
    let (own, form) = match bytes.len() {
        0..=3 => (4, "in its head"),
        4..=7 if two(bytes, 2) == 8 => (8, "in its counts"),
        _ => (i128::from(two(bytes, 0)), "in its fields"),
    };
    let [left, needed] = [left, needed].map(|count| decimal(count, 0));
    assert_eq!([left, needed], [bytes.len() as i128, own], "{words}");
    assert!(left < needed, "{words}");
    form
}

fn unknown(bytes: &[u8], words: &str) -> &'static str {
    let (kind, listed) = part(words, ", listed are ");
    assert_eq!(figures(kind, ["kind"], 0), [two(bytes, 2).into()]);
    let ranges: Vec<RangeInclusive<u64>> = listed.split(", ").map(range).collect();
    let told = |kind: u16| ranges.iter().any(|range| range.contains(&kind.into()));
    let known = |kind: u16| read(&head(0, kind), 0) != Err(2);
    assert!(!told(two(bytes, 2)), "{words}");
    assert!((0..=u16::MAX).all(|kind| told(kind) == known(kind)));
    "kind"
}

fn head(length: u16, kind: u16) -> [u8; 4] {
    let ([first, second], [third, fourth]) = (length.to_le_bytes(), kind.to_le_bytes());
    [first, second, third, fourth]
}

/// A length that no record of the kind has is refused for the head alone.
fn fits(kind: u16, length: u16) -> bool {
    read(&head(length, kind), 0) != Err(3)
}

fn too_long(bytes: &[u8], words: &str) -> &'static str {
    let (length, own) = part(words, ", of ");
    let (word, own) = part(own, " ");
    let kind = two(bytes, 2);
    assert_eq!(figures(length, ["length"], 0), [two(bytes, 0).into()]);
    assert_eq!(word, word_of(kind));
    assert!(!fits(kind, two(bytes, 0)), "{words}");
    let (own, step) = match own.split_once(" in steps of ") {
        Some((own, step)) => (range(own), decimal(step, 0) as u64),
        None => (range(own), 1),
    };
    let told = |length: u64| own.contains(&length) && (length - own.start()) % step == 0;
    assert!((0..=u16::MAX).all(|length| told(length.into()) == fits(kind, length)));
    if kind == 8 {
        "length of a day end"
    } else {
        "length"
    }
}

fn unlike(bytes: &[u8], words: &str) -> &'static str {
    let words = words.replace(", of n ", ", n ").replace(" and m ", ", m ");
    let words = words.replace(" it is ", ", own ");
    let [length, n, m, own] = figures(&words, ["length", "n", "m", "own"], 0);
    assert_eq!([length, n, m], [0, 4, 6].map(|at| two(bytes, at).into()));
    assert!(counts_allowed(n, m), "{words}");
    assert_eq!(own, 8 + 4 * n + 4 * m);
    assert!(own != length, "{words}");
    "length unlike its counts"
}

fn counts_allowed(n: i128, m: i128) -> bool {
    CONTRACTS.contains(&(n as u64)) && UNDERLYINGS.contains(&(m as u64))
}

fn uncounted(bytes: &[u8], words: &str) -> &'static str {
    let (own, allowed) = part(words, ", ");
    let own = own.replace(" and ", ", ");
    let [n, m] = figures(&own, ["n", "m"], 0);
    assert_eq!([n, m], [4, 6].map(|at| two(bytes, at).into()));
    assert!(!counts_allowed(n, m), "{words}");
    let allowed = allowed.strip_prefix("n is ").expect("what n is");
    let (ns, ms) = part(allowed, " and m ");
    assert_eq!([range(ns), range(ms)], [CONTRACTS, UNDERLYINGS]);
    "counts"
}

fn unlisted(bytes: &[u8], words: &str) -> &'static str {
    let (name, rest) = part(words, " code ");
    let (code, listed) = part(rest, ", listed are ");
    let (at, form) = match (two(bytes, 2), name) {
        (5, "kind") => (10, "code of an order's kind"),
        (16, "class") => (4, "code of a class"),
        (17, "right") => (6, "code of a right"),
        other => panic!("{other:?} has no code"),
    };
    assert_eq!(decimal(code, 0), two(bytes, at).into());
    let own = range(listed);
    let readable = |code: u16| {
        let mut record = bytes[..usize::from(two(bytes, 0))].to_vec();
        record[at..at + 2].copy_from_slice(&code.to_le_bytes());
        read(&record, 0).is_ok()
    };
    assert!((0..=u16::MAX).all(|code| own.contains(&code.into()) == readable(code)));
    form
}

/// The word that a record of the kind begins with.
fn word_of(kind: u16) -> &'static str {
    let words = [
        "deposit", "withdraw", "lock", "unlock", "order", "fill", "cancel", "day-end", "pay",
        "drop",
    ];
    match kind {
        16 => "underlying",
        17 => "contract",
        18 => "open",
        _ => words[usize::from(kind) - 1],
    }
}

/// What is said of a record that is out of its place, and of the book, is so.
pub fn hold_place(book: &Book, entry: &Entry, words: &str) -> &'static str {
    let (own, stage) = part(words, "; the book ");
    let (kind, _) = plain::record::fields(entry);
    let (word, place) = part(own, " ");
    assert_eq!(word, word_of(kind));
    let tables = book.tables();
    let (m, n) = (tables.underlyings.len(), tables.contracts.len());
    let open = matches!(book, Book::Open(_));
    let out_of_place = match (kind, place) {
        (16, "comes before the first contract") => open || 0 < n,
        (17, "comes before the opening") => open,
        (18, "comes once, behind the contracts") => open || n == 0,
        (1..=10, "comes behind the opening") => !open,
        _ => panic!("{words}"),
    };
    assert!(out_of_place, "{words}");
    if open {
        assert_eq!(stage, "is open");
        return "the book is open";
    }
    let counted = stage.strip_prefix("has ").expect("what the book has");
    let (underlyings, rest) = part(counted, " and ");
    let (contracts, rest) = part(rest, " and ");
    assert_eq!(rest, "is not open");
    for (told, count, what) in [(underlyings, m, "underlying"), (contracts, n, "contract")] {
        let more = if count == 1 { "" } else { "s" };
        assert_eq!(told, format!("{count} {what}{more}"));
    }
    "the book is not open"
}

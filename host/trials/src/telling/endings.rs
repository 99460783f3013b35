//! Refusals 1, 2 and 3: the run ends with them, whatever is behind.

use super::{opened, told_with, Telling};
use plain::record::written;
use plain::worked;

type Ending = (&'static str, u8, &'static [u8]);

/// What ends a run though records follow. Of 296 bytes of a day end too few are there.
const ENDINGS: [Ending; 27] = [
    ("too long a day end", 1, &[40, 1, 8, 0, 64, 0, 8, 0]),
    ("kind 0", 2, &[8, 0, 0, 0, 1, 0, 0, 0]),
    ("kind 11", 2, &[4, 0, 11, 0]),
    ("kind 12", 2, &[8, 0, 12, 0, 1, 0, 0, 0]),
    ("kind 15", 2, &[8, 0, 15, 0, 1, 0, 0, 0]),
    ("kind 19", 2, &[8, 0, 19, 0, 1, 0, 0, 0]),
    ("kind 7 and a high byte", 2, &[8, 0, 7, 1, 1, 0, 0, 0]),
    ("kind and length both wrong", 2, &[0, 0, 0, 0]),
    ("length 0", 3, &[0, 0, 7, 0, 1, 0, 0, 0]),
    ("a cancel of 7 bytes", 3, &[7, 0, 7, 0, 1, 0, 0]),
    ("a cancel of 9 bytes", 3, &[9, 0, 7, 0, 1, 0, 0, 0, 0]),
    ("a pay of 3 bytes", 3, &[3, 0, 9, 0]),
    ("a pay of 8 bytes", 3, &[8, 0, 9, 0, 1, 0, 0, 0]),
    ("a drop of 5 bytes", 3, &[5, 0, 10, 0, 0]),
    (
        "a drop of 12 bytes",
        3,
        &[12, 0, 10, 0, 1, 0, 0, 0, 0, 0, 0, 0],
    ),
    ("a length with a high byte", 3, &[8, 1, 7, 0, 1, 0, 0, 0]),
    ("a day end of 18 bytes", 3, &[18, 0, 8, 0, 1, 0, 1, 0]),
    ("a day end of 300 bytes", 3, &[44, 1, 8, 0, 64, 0, 8, 0]),
    ("counts unlike the length", 3, &[20, 0, 8, 0, 1, 0, 1, 0]),
    ("no settlement", 3, &[16, 0, 8, 0, 0, 0, 2, 0]),
    ("65 settlements", 3, &[40, 1, 8, 0, 65, 0, 7, 0]),
    ("9 closes", 3, &[40, 1, 8, 0, 63, 0, 9, 0]),
    ("order kind 0", 3, &order(0)),
    ("order kind 7", 3, &order(7)),
    ("class 0", 3, &underlying(0)),
    ("class 3", 3, &underlying(3)),
    ("right 3", 3, &contract(3)),
];

const fn order(kind: u8) -> [u8; 20] {
    [
        20, 0, 5, 0, 1, 0, 0, 0, 0, 0, kind, 0, 1, 0, 0, 0, 1, 0, 0, 0,
    ]
}

const fn underlying(class: u8) -> [u8; 16] {
    [16, 0, 16, 0, class, 0, 1, 0, 0, 0, 1, 0, 1, 0, 1, 0]
}

const fn contract(right: u8) -> [u8; 20] {
    [
        20, 0, 17, 0, 0, 0, right, 0, 1, 0, 0, 0, 100, 0, 0, 0, 1, 0, 0, 0,
    ]
}

/// With these bytes a book ends: which refusal comes first.
const LAST: [Ending; 12] = [
    ("three bytes of no kind", 1, &[8, 0, 11]),
    ("four bytes of no kind", 2, &[200, 0, 11, 0]),
    ("three bytes of a pay", 1, &[4, 0, 9]),
    ("three bytes of a drop", 1, &[4, 0, 10]),
    ("four bytes of a wrong length", 3, &[9, 0, 7, 0]),
    ("four bytes of a right length", 1, &[8, 0, 7, 0]),
    ("a day end with no counts", 1, &[16, 0, 8, 0, 0, 0, 0]),
    ("18 bytes, with no counts", 3, &[18, 0, 8, 0]),
    ("12 bytes, with no counts", 3, &[12, 0, 8, 0]),
    ("300 bytes, with no counts", 3, &[44, 1, 8, 0]),
    ("a day end with wrong counts", 3, &[16, 0, 8, 0, 0, 0, 1, 0]),
    (
        "a wrong code, cut",
        1,
        &[20, 0, 5, 0, 1, 0, 0, 0, 0, 0, 7, 0],
    ),
];

pub fn books() -> Vec<Telling> {
    let behind = written(&worked::entries()).expect("its day end is in range");
    let mut books = Vec::new();
    for (name, refusal, bytes) in ENDINGS {
        books.extend(ended(name, refusal, &[bytes, &behind].concat()));
    }
    for (name, refusal, bytes) in LAST {
        books.extend(ended(name, refusal, bytes));
    }
    books
}

/// As the first record, and behind an opening.
fn ended(name: &str, refusal: u8, bytes: &[u8]) -> [Telling; 2] {
    [
        told_with(name, &[], bytes, &[(refusal, 0)]),
        told_with(
            &format!("{name}, behind an opening"),
            &opened(),
            bytes,
            &[(refusal, 600_000)],
        ),
    ]
}

//! Examples, and books that are not open yet, held to the text under `tests/expected/`. With WRITE_EXPECTED set the text is written anew, to be
//! read before it is kept; the test still fails then, where the text was another.

use crate::after;
use crate::forms::all_forms_hold;
use ravundesk::account::{csv, json, table, view};
use std::{env, fs};

fn example(name: &str) -> Vec<u8> {
    let directory = concat!(env!("CARGO_MANIFEST_DIR"), "/../../examples");
    fs::read(format!("{directory}/{name}.book")).expect("an example")
}

fn hold(name: &str, text: &str) {
    let file = format!("{}/tests/expected/{name}", env!("CARGO_MANIFEST_DIR"));
    let expected = fs::read_to_string(&file).unwrap_or_default();
    if env::var_os("WRITE_EXPECTED").is_some() {
        fs::write(&file, text).expect("the directory is there");
    }
    assert_eq!(text, expected, "{name}");
}

pub fn told(name: &str, bytes: &[u8], records: usize) {
    let run = after(bytes, records);
    assert!(run.answered == records, "{name} has so many records");
    let view = view(&run.book);
    all_forms_hold(&view);
    hold(&format!("{name}.{records}.txt"), &table(&view));
    hold(&format!("{name}.{records}.csv"), &csv(&view));
    hold(&format!("{name}.{records}.json"), &json(&view));
}

/// One order is partly filled, the other would close what it filled.
#[test]
fn the_worked_book() {
    told("day", &example("day"), 7);
    told("day", &example("day"), 10);
}

/// No record yet, an underlying, a contract.
#[test]
fn a_book_that_is_not_open() {
    for records in 0..=2 {
        told("day", &example("day"), records);
    }
}

/// Up to its end, with the record that could not be read.
#[test]
fn refusals() {
    told("refusals", &example("refusals"), 22);
}

/// A payout waits, and less than nothing is available.
#[test]
fn a_payout_that_waits() {
    told("payout", &example("payout"), 12);
}

/// 64 positions and 32 resting orders; and the second day, when they are gone and the first are sold again.
#[test]
fn a_full_book() {
    told("full", &example("full"), 365);
    told("full", &example("full"), 400);
}

/// Tables with no room for more rows.
#[test]
fn full_tables_wait_for_what_comes_next() {
    let waits_for = |records| view(&after(&example("full"), records).book).waits_for;
    let told = [0, 1, 8, 9, 71, 72, 73].map(waits_for);
    let expected = [
        "an underlying",
        "an underlying or a contract",
        "a contract",
        "a contract or the opening",
        "a contract or the opening",
        "the opening",
        "entries",
    ];
    assert_eq!(told, expected);
}

//! A list: entries on given tables and opening cash.

use plain::book::{run_book, run_list};
use plain::entry::Entry;
use plain::record::written;
use plain::terms::{Class, Contract, Right, Tables, Underlying};
use plain::worked;

fn fund() -> Underlying {
    Underlying::new(Class::Fund, 25_000, [20, 50, 100])
}

fn call(underlying: u16) -> Contract {
    Contract::new(underlying, Right::Call, [26_000, 10_000, 500])
}

fn tables(underlyings: usize, contracts: usize) -> Tables {
    Tables {
        underlyings: vec![fund(); underlyings],
        contracts: vec![call(0); contracts],
    }
}

/// The worked book's last seven records on what its first three set up.
#[test]
fn a_list_is_a_book_behind_its_opening() {
    let entries = worked::entries();
    let book = written(&entries).unwrap();
    let list = written(&entries[3..]).unwrap();
    for places in 0..9 {
        let run = run_list(&tables(1, 1), 600_000, &list, places).unwrap();
        let whole = run_book(&book, 3 + places);
        assert_eq!(run.answers, whole.answers[3..]);
        assert_eq!(run.place + book.len() - list.len(), whole.place);
        assert_eq!(run.book, whole.book);
    }
}

#[test]
fn a_record_that_cannot_be_read_ends_it() {
    let mut list = written(&worked::entries()[3..5]).unwrap();
    list.extend([8, 0, 11, 0, 8, 0, 7, 0, 1, 0, 0, 0]);
    let run = run_list(&tables(1, 1), 600_000, &list, 9).unwrap();
    assert_eq!(run.answers, [(0, 100_000), (0, 152_000), (2, 152_000)]);
    assert_eq!(run.place, 36);
}

/// Whatever their values are.
#[test]
fn set_up_records_are_out_of_place() {
    let records = [
        Entry::Underlying(fund()),
        Entry::Underlying(Underlying::new(Class::Fund, 0, [0; 3])),
        Entry::Contract(call(0)),
        Entry::Contract(call(8)),
        Entry::Opening { cash: 0 },
        Entry::Opening { cash: u64::MAX },
    ];
    let list = written(&records).unwrap();
    let run = run_list(&tables(1, 1), 7, &list, 9).unwrap();
    assert_eq!(run.answers, [(5, 7); 6]);
    assert_eq!(run.place, list.len());
    assert_eq!(run.book, run_list(&tables(1, 1), 7, &[], 9).unwrap().book);
}

#[test]
fn counts_and_cash() {
    const MOST: u64 = 1_000_000_000_000_000;
    for (underlyings, contracts, cash, refusal) in [
        (1, 1, 0, 0),
        (8, 64, MOST, 0),
        (0, 0, 0, 5),
        (8, 0, 0, 5),
        (9, 0, MOST + 1, 5),
        (0, 1, 0, 4),
        (9, 1, 0, 4),
        (1, 65, 0, 4),
        (1, 1, MOST + 1, 4),
        (1, 1, u64::MAX, 4),
    ] {
        let run = run_list(&tables(underlyings, contracts), cash, &[], 1);
        assert_eq!(run.err().unwrap_or(0), refusal, "{underlyings} {contracts}");
    }
}

#[test]
fn rows() {
    let figures = |close, limits| Underlying::new(Class::Stock, close, limits);
    for (row, refusal) in [
        (figures(1, [0; 3]), 0),
        (figures(10_000_000, [10_000; 3]), 0),
        (figures(0, [0; 3]), 4),
        (figures(10_000_001, [0; 3]), 4),
        (figures(1, [10_001, 0, 0]), 4),
        (figures(1, [0, 10_001, 0]), 4),
        (figures(1, [0, 0, 10_001]), 4),
    ] {
        let mut given = tables(1, 1);
        given.underlyings.push(row);
        refused(&given, refusal);
    }
    let terms = |underlying, figures| Contract::new(underlying, Right::Put, figures);
    for (row, refusal) in [
        (terms(0, [1, 100, 0]), 0),
        (terms(1, [10_000_000, 100_000, 10_000_000]), 0),
        (terms(2, [1, 100, 0]), 4),
        (terms(0, [0, 100, 0]), 4),
        (terms(0, [10_000_001, 100, 0]), 4),
        (terms(0, [1, 0, 0]), 4),
        (terms(0, [1, 150, 0]), 4),
        (terms(0, [1, 100_100, 0]), 4),
        (terms(0, [1, 100, 10_000_001]), 4),
    ] {
        let mut given = tables(2, 1);
        given.contracts.push(row);
        refused(&given, refusal);
    }
}

fn refused(given: &Tables, refusal: u8) {
    let run = run_list(given, 0, &[], 1);
    assert_eq!(run.err().unwrap_or(0), refusal, "{given:?}");
}

//! A payout in two steps: what is asked for waits, and is held, until it is paid or dropped.

use plain::account::Desk;
use plain::book::Book;
use plain::entry::Entry;
use plain::record::{read, write, written};
use plain::terms::{Class, Contract, Kind, Right, Tables, Underlying};
use std::slice;

/// A call whose margin is 250,000.
fn opened(cash: u64) -> Desk {
    let tables = Tables {
        underlyings: vec![Underlying::new(Class::Fund, 25_000, [20, 50, 20])],
        contracts: vec![Contract::new(0, Right::Call, [26_000, 10_000, 500])],
    };
    Desk::open(&tables, cash).unwrap()
}

fn ask(amount: u64) -> Entry {
    Entry::Withdraw { amount }
}

fn sell(number: u32, quantity: u32) -> Entry {
    Entry::order(number, 0, Kind::SellOpen, quantity, 500)
}

fn day_end(settlement: u32) -> Entry {
    Entry::DayEnd {
        settlements: vec![settlement],
        closes: vec![25_000],
    }
}

/// An entry, its verdict, and then available, cash and what waits.
type Step = (Entry, Result<(), u8>, (i64, i64, Option<i64>));

/// A refused entry leaves all as it was.
fn book(desk: &mut Desk, steps: &[Step]) {
    for (entry, verdict, money) in steps {
        let before = desk.clone();
        assert_eq!(desk.step(entry), *verdict, "{entry:?}");
        let account = &desk.account;
        let found = (desk.available(), account.cash, account.waiting);
        assert_eq!(found, *money, "{entry:?}");
        assert!(verdict.is_ok() || *desk == before, "{entry:?}");
    }
}

#[test]
fn asked_for_it_is_held_and_paid_it_is_gone() {
    book(
        &mut opened(600_000),
        &[
            (ask(100_001), Ok(()), (499_999, 600_000, Some(100_001))),
            (sell(1, 2), Err(14), (499_999, 600_000, Some(100_001))),
            (Entry::Pay, Ok(()), (499_999, 499_999, None)),
            (sell(1, 2), Err(14), (499_999, 499_999, None)),
            (Entry::Pay, Err(19), (499_999, 499_999, None)),
        ],
    );
}

#[test]
fn dropped_it_is_available_again() {
    book(
        &mut opened(600_000),
        &[
            (ask(600_000), Ok(()), (0, 600_000, Some(600_000))),
            (sell(1, 2), Err(14), (0, 600_000, Some(600_000))),
            (Entry::Drop, Ok(()), (600_000, 600_000, None)),
            (sell(1, 2), Ok(()), (100_000, 600_000, None)),
            (Entry::Drop, Err(19), (100_000, 600_000, None)),
            (ask(100_001), Err(14), (100_000, 600_000, None)),
            (ask(100_000), Ok(()), (0, 600_000, Some(100_000))),
        ],
    );
}

/// 4, then 20, then 14.
#[test]
fn one_request_at_a_time() {
    const MOST: u64 = 10_000_000_000_000;
    book(
        &mut opened(1_000),
        &[
            (ask(0), Err(4), (1_000, 1_000, None)),
            (ask(MOST), Err(14), (1_000, 1_000, None)),
            (ask(MOST + 1), Err(4), (1_000, 1_000, None)),
            (ask(1), Ok(()), (999, 1_000, Some(1))),
            (ask(0), Err(4), (999, 1_000, Some(1))),
            (ask(1), Err(20), (999, 1_000, Some(1))),
            (ask(MOST), Err(20), (999, 1_000, Some(1))),
            (ask(MOST + 1), Err(4), (999, 1_000, Some(1))),
            (Entry::Pay, Ok(()), (999, 999, None)),
            (ask(1_000), Err(14), (999, 999, None)),
            (ask(999), Ok(()), (0, 999, Some(999))),
        ],
    );
}

/// The day end takes the order's hold and leaves the request's; a margin that leaps leaves less than nothing, and is paid out all the same.
#[test]
fn a_day_end_leaves_what_waits() {
    book(
        &mut opened(600_000),
        &[
            (sell(1, 2), Ok(()), (100_000, 600_000, None)),
            (Entry::fill(1, 1, 500), Ok(()), (150_000, 650_000, None)),
            (ask(150_000), Ok(()), (0, 650_000, Some(150_000))),
            (day_end(500), Ok(()), (250_000, 650_000, Some(150_000))),
            (day_end(4_000), Ok(()), (-100_000, 650_000, Some(150_000))),
            (ask(1), Err(20), (-100_000, 650_000, Some(150_000))),
            (Entry::Pay, Ok(()), (-100_000, 500_000, None)),
            (ask(1), Err(14), (-100_000, 500_000, None)),
        ],
    );
}

/// A fill beside it pays from what its own order held.
#[test]
fn cash_reaches_for_what_waits() {
    let buy = Entry::order(1, 0, Kind::BuyOpen, 2, 500);
    book(
        &mut opened(100_001),
        &[
            (buy, Ok(()), (1, 100_001, None)),
            (ask(1), Ok(()), (0, 100_001, Some(1))),
            (Entry::fill(1, 2, 500), Ok(()), (0, 1, Some(1))),
            (Entry::Pay, Ok(()), (0, 0, None)),
        ],
    );
}

/// Only by hand can cash be less than what is held; then the fill that would bring it below zero is seen.
#[test]
#[should_panic(expected = "no fill brings cash below zero")]
fn no_fill_brings_cash_below_zero() {
    let mut desk = opened(100_000);
    let buy = Entry::order(1, 0, Kind::BuyOpen, 2, 500);
    book(&mut desk, &[(buy, Ok(()), (0, 100_000, None))]);
    desk.account.cash -= 1;
    let _ = desk.step(&Entry::fill(1, 2, 500));
}

#[test]
fn before_the_opening_they_are_out_of_place() {
    let mut setting_up = Book::new();
    for entry in [ask(1), ask(0), Entry::Pay, Entry::Drop] {
        assert_eq!(setting_up.step(&entry), Err(5));
    }
    assert_eq!(setting_up, Book::new());
}

#[test]
fn records_of_four_bytes() {
    for (entry, record) in [(Entry::Pay, [4, 0, 9, 0]), (Entry::Drop, [4, 0, 10, 0])] {
        assert_eq!(written(slice::from_ref(&entry)).unwrap(), record);
        assert_eq!(write(&entry, &mut [0; 3]), Err(17));
        for size in 0..4 {
            assert_eq!(read(&record[..size], 0), Err(1));
        }
        for length in [0, 3, 5, 8, 12] {
            let wrong = [length, 0, record[2], 0, 0, 0, 0, 0, 0, 0, 0, 0];
            assert_eq!(read(&wrong, 0), Err(3));
        }
        assert_eq!(read(&record, 0), Ok((entry, 4)));
    }
    for kind in 11..=15 {
        assert_eq!(read(&[4, 0, kind, 0], 0), Err(2));
    }
}

//! Paying out in two steps: what is asked for waits, and is held until it is paid or dropped.

use super::{cancel, day_end, deposit, opened, told, withdraw, Row, Telling};
use plain::entry::Entry::{self, Drop, Pay};
use plain::terms::{Kind, TRANSFER};

pub fn books() -> Vec<Telling> {
    let books = [
        (
            "a request before an order on the same money",
            before_order(),
        ),
        (
            "a request behind an order on the same money",
            behind_order(),
        ),
        ("a request of all, then a cancel, then paid", all_of_it()),
        ("a day end between asking and paying", over_a_day_end()),
        ("a second request", second_request()),
        ("paid and dropped with nothing waiting", nothing_waiting()),
        ("a fill that leaves just what waits", beside_a_fill()),
        ("paid below zero", below_zero(Pay, -200_214)),
        ("dropped below zero", below_zero(Drop, -214)),
    ];
    let on_the_worked_account = |(name, rows): (&str, Vec<Row>)| {
        let rows = [opened(), rows].concat();
        told(name, &rows)
    };
    books.map(on_the_worked_account).into()
}

/// A contract's margin is 250,000.
fn sell(number: u32, quantity: u32) -> Entry {
    Entry::order(number, 0, Kind::SellOpen, quantity, 500)
}

/// A price of 1 is 100 fen.
fn buy(number: u32, quantity: u32, price: u32) -> Entry {
    Entry::order(number, 0, Kind::BuyOpen, quantity, price)
}

fn before_order() -> Vec<Row> {
    vec![
        (withdraw(100_001), 0, 499_999),
        (sell(1, 2), 14, 499_999),
        (Drop, 0, 600_000),
        (withdraw(100_000), 0, 500_000),
        (sell(1, 2), 0, 0),
        (Pay, 0, 0),
    ]
}

fn behind_order() -> Vec<Row> {
    vec![
        (sell(1, 2), 0, 100_000),
        (withdraw(100_001), 14, 100_000),
        (withdraw(100_000), 0, 0),
        (buy(2, 1, 1), 14, 0),
        (Pay, 0, 0),
        (buy(2, 1, 1), 14, 0),
        (cancel(1), 0, 500_000),
    ]
}

fn all_of_it() -> Vec<Row> {
    vec![
        (sell(1, 1), 0, 350_000),
        (withdraw(350_000), 0, 0),
        (cancel(1), 0, 250_000),
        (withdraw(1), 20, 250_000),
        (Pay, 0, 250_000),
        (withdraw(250_001), 14, 250_000),
        (withdraw(250_000), 0, 0),
        (Pay, 0, 0),
        (withdraw(1), 14, 0),
    ]
}

/// The order's hold goes with the day, what waits does not.
fn over_a_day_end() -> Vec<Row> {
    let day_end = || day_end(&[500], &[25_000]);
    vec![
        (withdraw(200_000), 0, 400_000),
        (buy(1, 1, 500), 0, 350_000),
        (day_end(), 0, 400_000),
        (withdraw(1), 20, 400_000),
        (Pay, 0, 400_000),
        (Pay, 19, 400_000),
        (withdraw(400_001), 14, 400_000),
        (withdraw(400_000), 0, 0),
        (day_end(), 0, 0),
        (day_end(), 0, 0),
        (Drop, 0, 400_000),
    ]
}

/// 4, then 20, then 14.
fn second_request() -> Vec<Row> {
    let most = *TRANSFER.end();
    let beside = |available, refusal| {
        [
            (withdraw(0), 4, available),
            (withdraw(1), refusal, available),
            (withdraw(most), refusal, available),
            (withdraw(most + 1), 4, available),
        ]
    };
    let mut rows = vec![(withdraw(600_000), 0, 0)];
    rows.extend(beside(0, 20));
    rows.push((Pay, 0, 0));
    rows.extend(beside(0, 14));
    rows.push((deposit(most), 0, most as i64));
    rows.push((withdraw(most), 0, 0));
    rows.extend(beside(0, 20));
    rows.push((deposit(7), 0, 7));
    rows.extend(beside(7, 20));
    rows.push((Drop, 0, most as i64 + 7));
    rows
}

/// A refused request leaves nothing that waits.
fn nothing_waiting() -> Vec<Row> {
    vec![
        (Pay, 19, 600_000),
        (Drop, 19, 600_000),
        (withdraw(600_001), 14, 600_000),
        (Pay, 19, 600_000),
        (withdraw(1), 0, 599_999),
        (Drop, 0, 600_000),
        (Drop, 19, 600_000),
        (Pay, 19, 600_000),
        (withdraw(2), 0, 599_998),
        (Pay, 0, 599_998),
        (Drop, 19, 599_998),
        (Pay, 19, 599_998),
    ]
}

fn beside_a_fill() -> Vec<Row> {
    vec![
        (withdraw(100_000), 0, 500_000),
        (buy(1, 10, 500), 0, 0),
        (Entry::fill(1, 10, 500), 0, 0),
        (Pay, 0, 0),
        (deposit(1), 0, 1),
        (withdraw(1), 0, 0),
    ]
}

/// Two short calls at a margin of 10,000 x 350,107 / 10,000 each, against 700,000 of which 200,000 wait.
fn below_zero(entry: Entry, after: i64) -> Vec<Row> {
    vec![
        (sell(1, 2), 0, 100_000),
        (Entry::fill(1, 2, 500), 0, 200_000),
        (withdraw(200_000), 0, 0),
        (day_end(&[3_501], &[1]), 0, -200_214),
        (withdraw(1), 20, -200_214),
        (buy(2, 1, 1), 14, -200_214),
        (entry, 0, after),
        (withdraw(1), 14, after),
        (Pay, 19, after),
        (Drop, 19, after),
        (deposit(-after as u64), 0, 0),
        (withdraw(1), 14, 0),
        (deposit(1), 0, 1),
        (withdraw(1), 0, 0),
    ]
}

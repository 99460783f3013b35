//! Records in and out of their place, the numbers that rows take, full tables, openings.

use super::{call, call_a, cancel, day_end, deposit, fund, lock, opening, put, stock, withdraw};
use super::{opened, told, worked_rows, Row, Telling};
use plain::entry::Entry;
use plain::terms::{Class, Contract, Kind, Right, Underlying, OPENING_CASH};

pub fn books() -> Vec<Telling> {
    let most = *OPENING_CASH.end();
    let mut books = vec![
        misplaced("with no underlying", 0, [days(), openings()].concat()),
        misplaced("with an underlying", 1, [days(), openings()].concat()),
        misplaced("with a contract", 2, [days(), underlyings()].concat()),
        contract_with_no_underlying(),
        ranges(),
        next_underlying(),
        next_underlying_but_one(),
        next_contract(),
        full_tables(),
        opening_with_no_contract(),
        second_opening(),
        opened_with_the_most(most),
        opened_with_more(most),
    ];
    let set_up = [underlyings(), contracts(), openings()].concat();
    for (stage, before) in [("open", 3), ("an order resting", 4), ("a day ended", 10)] {
        books.push(misplaced(stage, before, set_up.clone()));
    }
    books
}

/// Kinds 1 to 10, each with values in range and, where it has fields, with values that would be 4.
fn days() -> Vec<Entry> {
    let unlock = |underlying, units| Entry::Unlock { underlying, units };
    vec![
        deposit(1),
        deposit(0),
        withdraw(1),
        withdraw(0),
        lock(0, 100),
        lock(8, 0),
        unlock(0, 100),
        unlock(8, 0),
        Entry::order(1, 0, Kind::BuyOpen, 1, 1),
        Entry::order(0, 64, Kind::CoveredOpen, 101, 0),
        Entry::fill(1, 1, 1),
        Entry::fill(0, 0, 0),
        cancel(1),
        day_end(&[300], &[25_500]),
        day_end(&[u32::MAX; 64], &[0; 8]),
        Entry::Pay,
        Entry::Drop,
    ]
}

fn underlyings() -> Vec<Entry> {
    vec![fund(25_000), fund(0)]
}

fn contracts() -> Vec<Entry> {
    vec![call_a(0), call_a(8)]
}

fn openings() -> Vec<Entry> {
    vec![opening(600_000), opening(u64::MAX)]
}

/// Records that are 5 where they stand in the worked book, which goes on behind them as if they were not there.
fn misplaced(stage: &str, before: usize, entries: Vec<Entry>) -> Telling {
    let mut rows = worked_rows();
    let available = rows[..before].last().map_or(0, |row| row.2);
    let strays = entries.into_iter().map(|entry| (entry, 5, available));
    let strays: Vec<Row> = strays.collect();
    rows.splice(before..before, strays);
    told(&format!("out of place: {stage}"), &rows)
}

fn contract_with_no_underlying() -> Telling {
    let mut rows = worked_rows();
    rows.insert(0, (call_a(0), 4, 0));
    told("a contract with no underlying", &rows)
}

/// Values at the ends of their ranges, and one past them. The day end has the counts of what was accepted.
fn ranges() -> Telling {
    let row = |close, limits| Entry::Underlying(Underlying::new(Class::Stock, close, limits));
    told(
        "values at the ends of their ranges and past them",
        &[
            (row(1, [0; 3]), 0, 0),
            (row(10_000_000, [10_000; 3]), 0, 0),
            (row(0, [0; 3]), 4, 0),
            (row(10_000_001, [0; 3]), 4, 0),
            (row(1, [10_001, 0, 0]), 4, 0),
            (row(1, [0, 10_001, 0]), 4, 0),
            (row(1, [0, 0, 10_001]), 4, 0),
            (put(1, [1, 100, 0]), 0, 0),
            (call(0, [10_000_000, 100_000, 10_000_000]), 0, 0),
            (call(2, [1, 100, 0]), 4, 0),
            (call(0, [0, 100, 0]), 4, 0),
            (call(0, [10_000_001, 100, 0]), 4, 0),
            (call(0, [1, 0, 0]), 4, 0),
            (call(0, [1, 99, 0]), 4, 0),
            (call(0, [1, 150, 0]), 4, 0),
            (call(0, [1, 100_001, 0]), 4, 0),
            (call(0, [1, 100_100, 0]), 4, 0),
            (call(0, [1, 100, 10_000_001]), 4, 0),
            (opening(0), 0, 0),
            (day_end(&[0, 10_000_000], &[1, 10_000_000]), 0, 0),
        ],
    )
}

/// Number 0 is the stock: a contract there has the margin of case f, and would have 850,000 on a fund.
fn next_underlying() -> Telling {
    told(
        "a refused underlying takes no number",
        &[
            (fund(0), 4, 0),
            (stock(100_000), 0, 0),
            (call(1, [100_000, 5_000, 5_000]), 4, 0),
            (call(0, [100_000, 5_000, 5_000]), 0, 0),
            (opening(2_000_000), 0, 2_000_000),
            (Entry::order(1, 0, Kind::SellOpen, 1, 1), 0, 700_000),
            (lock(1, 1), 4, 700_000),
            (lock(0, 1), 0, 700_000),
        ],
    )
}

/// Number 1 is the fund: the margins are those of cases f and a.
fn next_underlying_but_one() -> Telling {
    told(
        "a refused second underlying takes no number",
        &[
            (stock(100_000), 0, 0),
            (stock(0), 4, 0),
            (fund(25_000), 0, 0),
            (call_a(2), 4, 0),
            (call_a(1), 0, 0),
            (call(0, [100_000, 5_000, 5_000]), 0, 0),
            (opening(2_000_000), 0, 2_000_000),
            (Entry::order(1, 0, Kind::SellOpen, 1, 1), 0, 1_750_000),
            (Entry::order(2, 1, Kind::SellOpen, 1, 1), 0, 450_000),
        ],
    )
}

/// Number 0 is the put of case d, number 1 the call of case a, and there is no number 2.
fn next_contract() -> Telling {
    told(
        "a refused contract takes no number",
        &[
            (fund(25_000), 0, 0),
            (call(0, [26_000, 10_050, 500]), 4, 0),
            (put(0, [24_000, 10_000, 400]), 0, 0),
            (call(0, [26_000, 10_000, 10_000_001]), 4, 0),
            (call_a(0), 0, 0),
            (opening(600_000), 0, 600_000),
            (Entry::order(1, 0, Kind::SellOpen, 1, 1), 0, 360_000),
            (Entry::order(2, 1, Kind::SellOpen, 1, 1), 0, 110_000),
            (Entry::order(3, 2, Kind::SellOpen, 1, 1), 4, 110_000),
            (day_end(&[400], &[25_000]), 4, 110_000),
            (day_end(&[400, 500], &[25_000]), 0, 600_000),
        ],
    )
}

/// A premium of one fen is held on the last contract; there is none behind it, and no underlying behind the last.
fn full_tables() -> Telling {
    let last = |underlying| Entry::Contract(Contract::new(underlying, Right::Put, [1, 100, 0]));
    let mut rows = vec![(fund(25_000), 0, 0); 8];
    rows.extend([(fund(25_000), 4, 0), (last(8), 4, 0)]);
    rows.extend(vec![(last(7), 0, 0); 64]);
    rows.extend([
        (last(7), 4, 0),
        (fund(25_000), 5, 0),
        (opening(1_000), 0, 1_000),
        (Entry::order(1, 63, Kind::BuyOpen, 1, 1), 0, 999),
        (Entry::order(2, 64, Kind::BuyOpen, 1, 1), 4, 999),
        (lock(7, 1), 0, 999),
        (lock(8, 1), 4, 999),
        (day_end(&[0; 63], &[1; 8]), 4, 999),
        (day_end(&[0; 64], &[1; 7]), 4, 999),
        (day_end(&[0; 64], &[1; 8]), 0, 1_000),
    ]);
    told("8 underlyings and a 9th, 64 contracts and a 65th", &rows)
}

fn opening_with_no_contract() -> Telling {
    told(
        "an opening with no contract",
        &[
            (opening(600_000), 5, 0),
            (fund(25_000), 0, 0),
            (opening(600_000), 5, 0),
            (fund(30_000), 0, 0),
            (call_a(0), 0, 0),
            (opening(600_000), 0, 600_000),
        ],
    )
}

fn second_opening() -> Telling {
    let mut rows = opened();
    rows.extend([
        (opening(700_000), 5, 600_000),
        (opening(u64::MAX), 5, 600_000),
        (deposit(1), 0, 600_001),
    ]);
    told("a second opening", &rows)
}

fn opened_with_the_most(most: u64) -> Telling {
    let available = most as i64;
    told(
        "an opening with 10^15",
        &[
            (fund(25_000), 0, 0),
            (call_a(0), 0, 0),
            (opening(most), 0, available),
            (deposit(1), 15, available),
            (withdraw(1), 0, available - 1),
            (deposit(1), 15, available - 1),
            (Entry::Pay, 0, available - 1),
            (deposit(1), 0, available),
        ],
    )
}

fn opened_with_more(most: u64) -> Telling {
    told(
        "an opening with more than 10^15",
        &[
            (fund(25_000), 0, 0),
            (call_a(0), 0, 0),
            (opening(most + 1), 4, 0),
            (deposit(1), 5, 0),
            (call_a(0), 0, 0),
            (opening(u64::MAX), 4, 0),
            (opening(0), 0, 0),
            (Entry::order(1, 1, Kind::SellOpen, 1, 1), 14, 0),
        ],
    )
}

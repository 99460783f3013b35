//! The books of `examples/`.

use crate::telling::full;
use plain::entry::Entry;
use plain::record::written;
use plain::terms::{Class, Contract, Kind, Right, Underlying};
use plain::worked;

/// Each by its file's name.
pub fn books() -> [(&'static str, Vec<u8>); 4] {
    [
        ("day.book", day()),
        ("refusals.book", refusals()),
        ("payout.book", bytes(&asked_and_paid())),
        ("full.book", full().bytes),
    ]
}

fn day() -> Vec<u8> {
    bytes(&worked::entries())
}

/// The last record, a cancel, has lost its last two bytes.
fn refusals() -> Vec<u8> {
    let mut bytes = bytes(&refused_now_and_then());
    bytes.truncate(bytes.len() - 2);
    bytes
}

fn bytes(entries: &[Entry]) -> Vec<u8> {
    written(entries).expect("day ends here are in range")
}

fn refused_now_and_then() -> Vec<Entry> {
    let fund = |close| Entry::Underlying(Underlying::new(Class::Fund, close, [5, 10, 8]));
    let call = |unit| Entry::Contract(Contract::new(0, Right::Call, [26_000, unit, 500]));
    vec![
        fund(0),
        fund(25_000),
        Entry::Opening { cash: 600_000 },
        call(10_050),
        call(10_000),
        Entry::Deposit { amount: 1_000 },
        Entry::Opening { cash: 600_000 },
        Entry::order(1, 0, Kind::BuyOpen, 6, 500),
        Entry::order(1, 0, Kind::SellOpen, 3, 500),
        Entry::order(1, 0, Kind::SellOpen, 2, 500),
        Entry::order(1, 0, Kind::SellOpen, 1, 500),
        Entry::fill(1, 3, 510),
        Entry::fill(1, 2, 490),
        Entry::fill(1, 2, 510),
        Entry::Cancel { number: 1 },
        Entry::order(2, 0, Kind::CoveredOpen, 1, 500),
        Entry::DayEnd {
            settlements: vec![4_000],
            closes: vec![30_000],
        },
        Entry::Withdraw { amount: 1 },
        Entry::order(2, 0, Kind::BuyClose, 1, 1),
        Entry::Deposit { amount: 1_000_000 },
        Entry::order(2, 0, Kind::BuyClose, 1, 1_000),
        Entry::Cancel { number: 2 },
    ]
}

/// What waits is held over an order, a day end and a margin that leaps, until it is paid; the next one is dropped.
fn asked_and_paid() -> Vec<Entry> {
    let ask = |amount| Entry::Withdraw { amount };
    let day_end = |settlement| Entry::DayEnd {
        settlements: vec![settlement],
        closes: vec![25_000],
    };
    vec![
        Entry::Underlying(Underlying::new(Class::Fund, 25_000, [20, 50, 100])),
        Entry::Contract(Contract::new(0, Right::Call, [26_000, 10_000, 500])),
        Entry::Pay,
        Entry::Opening { cash: 600_000 },
        Entry::Pay,
        ask(100_000),
        Entry::order(1, 0, Kind::SellOpen, 2, 500),
        ask(1),
        ask(0),
        Entry::fill(1, 1, 520),
        Entry::Cancel { number: 1 },
        day_end(4_000),
        Entry::Pay,
        ask(1),
        day_end(500),
        ask(302_001),
        ask(302_000),
        Entry::order(2, 0, Kind::BuyClose, 1, 1),
        Entry::Drop,
        Entry::Drop,
    ]
}

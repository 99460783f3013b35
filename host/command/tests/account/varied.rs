//! A book whose figures differ from each other, so that no two can change places unseen: every kind of order rests, one position has all
//! three counts, a payout waits, and covered premium has come in.

use crate::expected::told;
use crate::second::{walk, Met};
use plain::entry::Entry;
use plain::record::written;
use plain::terms::{Class, Contract, Kind, Right, Underlying};

fn tables() -> Vec<Entry> {
    let call = |on, figures| Entry::Contract(Contract::new(on, Right::Call, figures));
    let put = |on, figures| Entry::Contract(Contract::new(on, Right::Put, figures));
    vec![
        Entry::Underlying(Underlying::new(Class::Fund, 25_000, [20, 50, 100])),
        Entry::Underlying(Underlying::new(Class::Stock, 100_000, [30, 60, 90])),
        call(0, [26_000, 10_000, 500]),
        put(1, [100_000, 5_000, 4_800]),
        call(1, [100_000, 5_000, 5_000]),
        Entry::Opening { cash: 123_456_789 },
    ]
}

fn first_day() -> Vec<Entry> {
    let (underlying, units) = (1, 15_000);
    vec![
        Entry::Lock { underlying, units },
        Entry::order(1, 0, Kind::BuyOpen, 7, 480),
        Entry::fill(1, 7, 470),
        Entry::order(2, 1, Kind::SellOpen, 4, 5_000),
        Entry::fill(2, 4, 5_000),
        Entry::order(3, 2, Kind::CoveredOpen, 3, 5_000),
        Entry::fill(3, 3, 5_000),
        Entry::DayEnd {
            settlements: vec![510, 4_700, 5_100],
            closes: vec![25_100, 100_100],
        },
    ]
}

/// The order that is cancelled gives its place to the last one, so that places and numbers have another order.
fn second_day() -> Vec<Entry> {
    let lock = |underlying, units| Entry::Lock { underlying, units };
    vec![
        lock(0, 90_000),
        lock(1, 40_000),
        Entry::order(9, 0, Kind::SellClose, 1, 900),
        Entry::order(10, 0, Kind::BuyOpen, 2, 510),
        Entry::order(11, 0, Kind::SellClose, 5, 600),
        Entry::order(12, 2, Kind::SellOpen, 3, 5_150),
        Entry::fill(12, 1, 5_160),
        Entry::order(13, 1, Kind::BuyClose, 3, 4_900),
        Entry::order(14, 2, Kind::CoveredOpen, 6, 5_200),
        Entry::fill(14, 2, 5_300),
        Entry::order(15, 2, Kind::CoveredClose, 1, 5_050),
        Entry::order(16, 2, Kind::BuyOpen, 2, 5_250),
        Entry::fill(16, 2, 5_240),
        Entry::Cancel { number: 9 },
        Entry::order(17, 0, Kind::CoveredOpen, 1, 700),
        Entry::Withdraw { amount: 7_654_321 },
    ]
}

#[test]
fn no_two_figures_change_places() {
    let entries = [tables(), first_day(), second_day()].concat();
    let bytes = written(&entries).unwrap();
    let mut numbers = vec![1; entries.len()];
    let mut sums = vec![0; entries.len()];
    native::desk::run_book(&bytes, &mut numbers, &mut sums);
    assert_eq!(numbers, vec![0; entries.len()], "all are accepted");
    walk(&bytes, &mut Met::default());
    told("varied", &bytes, entries.len());
}

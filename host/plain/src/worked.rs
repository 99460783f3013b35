//! The worked book of "Figures to meet", and the lines that document 01 prints for it.

use crate::entry::Entry;
use crate::terms::{Class, Contract, Kind, Right, Underlying};

pub fn entries() -> Vec<Entry> {
    vec![
        Entry::Underlying(Underlying::new(Class::Fund, 25_000, [20, 50, 100])),
        Entry::Contract(Contract::new(0, Right::Call, [26_000, 10_000, 500])),
        Entry::Opening { cash: 600_000 },
        Entry::order(1, 0, Kind::SellOpen, 2, 500),
        Entry::fill(1, 1, 520),
        Entry::order(2, 0, Kind::BuyClose, 2, 600),
        Entry::order(2, 0, Kind::BuyClose, 1, 600),
        Entry::fill(2, 1, 580),
        Entry::Cancel { number: 1 },
        Entry::DayEnd {
            settlements: vec![300],
            closes: vec![25_500],
        },
    ]
}

pub const LINES: &str = "\
1 0 0
2 0 0
3 0 600000
4 0 100000
5 0 152000
6 9 152000
7 0 92000
8 0 344000
9 0 594000
10 0 594000
";

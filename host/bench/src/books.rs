//! The three books that are timed, each just under 60,000 bytes. They are made by chance from a fixed seed, and `plain` says of each
//! record whether it would be accepted: few that are refused stay.

use plain::account::Desk;
use plain::book::Book;
use plain::entry::{Entry, Order};
use plain::record::written;
use plain::terms::{Class, Contract, Kind, Right, Underlying};
use trials::chance::Chance;

/// No book is longer.
pub const MOST_BYTES: usize = 60_000;
const SEED: u64 = 107;
/// So many refused records of a hundred stay in a book.
const REFUSED_STAY: u64 = 2;

/// What an account is like, and how often it sends what.
pub struct Profile {
    pub name: &'static str,
    underlyings: u16,
    contracts: u16,
    /// So many orders rest, more or less.
    resting: usize,
    /// Deposit, payout, lock, unlock, order, fill, cancel, day end.
    weights: [u64; 8],
}

pub const PROFILES: [Profile; 3] = [
    Profile {
        name: "market maker",
        underlyings: 8,
        contracts: 64,
        resting: 31,
        weights: [1, 0, 10, 4, 500, 250, 250, 0],
    },
    Profile {
        name: "client",
        underlyings: 2,
        contracts: 6,
        resting: 4,
        weights: [60, 90, 60, 30, 340, 300, 80, 8],
    },
    Profile {
        name: "day ends",
        underlyings: 8,
        contracts: 64,
        resting: 8,
        weights: [10, 10, 40, 10, 400, 250, 80, 160],
    },
];

/// A book's bytes: the set-up with its opening, and the entries.
pub struct Made {
    pub set_up: Vec<u8>,
    pub entries: Vec<u8>,
}

impl Made {
    pub fn whole(&self) -> Vec<u8> {
        [&self.set_up[..], &self.entries].concat()
    }
}

/// Tables on which every contract in turn is on the next underlying, calls and puts mixed, with the widest limits.
pub fn set_up(underlyings: u16, contracts: u16, cash: u64) -> Vec<Entry> {
    let underlying = |u: u16| {
        let class = if u % 2 == 0 {
            Class::Fund
        } else {
            Class::Stock
        };
        Entry::Underlying(Underlying::new(class, close(u), [10_000; 3]))
    };
    let contract = |c: u16| {
        let (row, on) = (c / underlyings, c % underlyings);
        let right = if row % 3 == 2 {
            Right::Put
        } else {
            Right::Call
        };
        let strike = close(on) + 500 * u32::from(row) - 1_500;
        let unit = [10_000, 5_000, 1_000][usize::from(on) % 3];
        Entry::Contract(Contract::new(on, right, [strike, unit, settlement(c)]))
    };
    let opening = [Entry::Opening { cash }];
    let rows = (0..underlyings).map(underlying);
    rows.chain((0..contracts).map(contract))
        .chain(opening)
        .collect()
}

fn close(underlying: u16) -> u32 {
    25_000 + 3_000 * u32::from(underlying)
}

fn settlement(contract: u16) -> u32 {
    400 + 10 * u32::from(contract)
}

pub fn bytes_of(entries: &[Entry]) -> Vec<u8> {
    written(entries).expect("every entry can be written")
}

/// The book after entries that are all accepted.
pub fn after(mut book: Book, entries: &[Entry]) -> Book {
    for entry in entries {
        let verdict = book.step(entry);
        assert_eq!(verdict, Ok(()), "{entry:?}");
    }
    book
}

pub fn made(profile: &Profile) -> Made {
    let set_up = set_up(profile.underlyings, profile.contracts, 50_000_000_000);
    let mut book = after(Book::new(), &set_up);
    let set_up = bytes_of(&set_up);
    let mut chance = Chance::new(SEED, 0);
    let mut entries = Vec::new();
    loop {
        let (entry, after) = next(&book, profile, &mut chance);
        let record = bytes_of(&[entry]);
        if MOST_BYTES <= set_up.len() + entries.len() + record.len() {
            return Made { set_up, entries };
        }
        entries.extend(record);
        book = after;
    }
}

/// An entry that is accepted, or now and then one that is not, and the book after it.
fn next(book: &Book, profile: &Profile, chance: &mut Chance) -> (Entry, Book) {
    let desk = open(book);
    loop {
        let entry = candidate(desk, profile, chance);
        let mut after = book.clone();
        if after.step(&entry).is_ok() || chance.percent(REFUSED_STAY) {
            return (entry, after);
        }
    }
}

pub fn open(book: &Book) -> &Desk {
    match book {
        Book::Open(desk) => desk,
        Book::SettingUp(_) => unreachable!("the set-up ends with an opening"),
    }
}

fn candidate(desk: &Desk, profile: &Profile, chance: &mut Chance) -> Entry {
    let resting: Vec<Order> = desk.account.resting().copied().collect();
    let mut weights = profile.weights;
    // Up to so many, and now and then one more.
    weights[4] = if resting.len() < profile.resting {
        3 * weights[4]
    } else {
        weights[4] / 8
    };
    if resting.is_empty() {
        weights[5..7].fill(0);
    }
    let underlying = chance.between(0, i64::from(profile.underlyings) - 1) as u16;
    let units = 1_000 * chance.between(1, 100) as u32;
    match chance.weighted(&weights) {
        0 => Entry::Deposit {
            amount: chance.between(1, 10_000_000) as u64,
        },
        1 if desk.account.waiting.is_none() => Entry::Withdraw {
            amount: chance.between(1, 10_000_000) as u64,
        },
        1 if chance.percent(70) => Entry::Pay,
        1 => Entry::Drop,
        2 => Entry::Lock { underlying, units },
        3 => Entry::Unlock { underlying, units },
        4 => order(desk, profile, chance),
        5 => fill(&chance.pick(&resting), chance),
        6 => Entry::Cancel {
            number: chance.pick(&resting).number,
        },
        _ => day_end(profile, chance),
    }
}

fn order(desk: &Desk, profile: &Profile, chance: &mut Chance) -> Entry {
    let contract = chance.between(0, i64::from(profile.contracts) - 1) as u16;
    let kind = Kind::ALL[chance.weighted(&[30, 20, 25, 15, 6, 4])];
    let quantity = chance.between(1, 10) as u32;
    let price = settlement(contract) + chance.between(0, 40) as u32;
    Entry::order(desk.account.last + 1, contract, kind, quantity, price)
}

/// The whole order, or a part of it, at its own price or one that is better for it.
fn fill(order: &Order, chance: &mut Chance) -> Entry {
    let part = chance.between(1, i64::from(order.quantity)) as u32;
    let quantity = chance.pick(&[part, order.quantity]);
    let better = chance.between(0, 10) as u32;
    let price = if order.kind.buys() {
        order.price - better
    } else {
        order.price + better
    };
    Entry::fill(order.number, quantity, price)
}

fn day_end(profile: &Profile, chance: &mut Chance) -> Entry {
    let mut near = |figure: u32| figure - 100 + chance.between(0, 200) as u32;
    Entry::DayEnd {
        settlements: (0..profile.contracts)
            .map(|c| near(settlement(c)))
            .collect(),
        closes: (0..profile.underlyings).map(|u| near(close(u))).collect(),
    }
}

//! What one order costs as the account grows: lists of the same records, on books with more contracts or more resting orders.

use crate::books::{after, bytes_of, open, set_up};
use crate::timing::Task;
use plain::book::Book;
use plain::entry::Entry;
use plain::terms::Kind;

/// How an order is measured. All are buy opens, whose row of checks is the longest.
#[derive(Clone, Copy, Debug, PartialEq, Eq)]
pub enum Measure {
    /// It meets all its checks and is refused at the last: a decision alone.
    Refused,
    /// It is accepted, and a cancel takes it away again.
    Cancelled,
    /// It is accepted and filled whole.
    Filled,
}

impl Measure {
    pub const ALL: [Measure; 3] = [Measure::Refused, Measure::Cancelled, Measure::Filled];

    pub fn name(self) -> &'static str {
        match self {
            Measure::Refused => "order refused with 14",
            Measure::Cancelled => "order and its cancel",
            Measure::Filled => "order and its whole fill",
        }
    }

    pub fn records(self) -> usize {
        match self {
            Measure::Refused => 1,
            Measure::Cancelled | Measure::Filled => 2,
        }
    }

    fn verdict(self) -> u8 {
        match self {
            Measure::Refused => 14,
            Measure::Cancelled | Measure::Filled => 0,
        }
    }
}

pub const CONTRACTS: [u16; 7] = [1, 2, 4, 8, 16, 32, 64];
/// With one more all places would be taken.
pub const RESTING: [u16; 8] = [0, 1, 2, 4, 8, 16, 24, 31];

const PRICE: u32 = 500;
/// So many times over in a list, each on the next contract.
const TIMES: u32 = 1_000;

pub fn task(measure: Measure, contracts: u16, resting: u16) -> Result<Task, String> {
    let before = before(measure, contracts, resting);
    let last = open(&after(Book::new(), &before)).account.last;
    let list: Vec<Entry> = (0..TIMES)
        .flat_map(|time| {
            let contract = time as u16 % contracts;
            asked(measure, last + 1 + time, contract)
        })
        .collect();
    let name = format!(
        "{}, {contracts} contracts, {resting} resting",
        measure.name()
    );
    let task = Task::new(&name, &bytes_of(&before), bytes_of(&list))?;
    let expected = vec![measure.verdict(); measure.records() * TIMES as usize];
    if task.answers.numbers == expected {
        Ok(task)
    } else {
        Err(format!("{name}: not every record has the expected verdict"))
    }
}

fn asked(measure: Measure, number: u32, contract: u16) -> Vec<Entry> {
    let order = buy_open(number, contract);
    match measure {
        Measure::Refused => vec![order],
        Measure::Cancelled => vec![order, Entry::Cancel { number }],
        Measure::Filled => vec![order, Entry::fill(number, 1, PRICE)],
    }
}

fn buy_open(number: u32, contract: u16) -> Entry {
    Entry::order(number, contract, Kind::BuyOpen, 1, PRICE)
}

/// Something is held of every contract, and the resting orders are spread over them.
fn before(measure: Measure, contracts: u16, resting: u16) -> Vec<Entry> {
    let mut entries = set_up(contracts.min(8), contracts, 1_000_000_000);
    let held = u32::from(contracts);
    for (number, contract) in (1..=held).zip(0..) {
        entries.extend(asked(Measure::Filled, number, contract));
    }
    for (number, place) in (held + 1..).zip(0..resting) {
        entries.push(buy_open(number, place % contracts));
    }
    if measure == Measure::Refused {
        // All that is available waits to be paid out, so that no order can have it.
        let amount = open(&after(Book::new(), &entries)).available() as u64;
        entries.push(Entry::Withdraw { amount });
    }
    entries
}

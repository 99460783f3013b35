//! Accounts with the largest numbers: one that records lead to, and one that has every number of a row at its largest.

use crate::after;
use crate::forms::all_forms_hold;
use native::set_up::{Book, Stage};
use native::terms::{Class, Contracts, Position, Right, Units};
use plain::entry::Entry;
use plain::record::written;
use plain::terms::{Class as PlainClass, Contract, Kind, Right as PlainRight, Underlying};
use ravundesk::account::{table, view};

const MOST_MONEY: u64 = 1_000_000_000_000_000;
const MOST_PRICE: u32 = 10_000_000;
const MOST_UNIT: u32 = 100_000;

/// Sold while margins are small, for 1,000 fen each, which brings cash to its ceiling; then the day ends at the highest figures. The margin
/// of 80,000 calls leaves what 32 buys of 100 at the highest price hold, to the fen.
fn entries() -> Vec<Entry> {
    let stock = Underlying::new(PlainClass::Stock, 1, [10_000; 3]);
    let call = |c: u16| Contract::new(c % 8, PlainRight::Call, [MOST_PRICE, MOST_UNIT, 0]);
    let mut entries = vec![Entry::Underlying(stock); 8];
    entries.extend((0..64).map(|c| Entry::Contract(call(c))));
    let cash = MOST_MONEY - 80_000 * 1_000;
    entries.push(Entry::Opening { cash });
    entries.extend((1..=800).flat_map(sold));
    entries.push(Entry::DayEnd {
        settlements: vec![MOST_PRICE; 64],
        closes: vec![MOST_PRICE; 8],
    });
    let units = 1_000_000_000;
    let lock = |underlying| Entry::Lock { underlying, units };
    entries.extend((0..16).map(|i| lock(i % 8)));
    let numbers = u32::MAX - 31..=u32::MAX;
    entries.extend(numbers.map(|n| Entry::order(n, 0, Kind::BuyClose, 100, MOST_PRICE)));
    entries
}

/// All on the first underlying are of one contract, so that its count is 10,000; on the others every contract has some.
fn sold(number: u32) -> [Entry; 2] {
    let (on, hundred) = (number % 8, number / 8);
    let row = if on == 0 { 0 } else { hundred % 8 };
    let contract = (on + 8 * row) as u16;
    [
        Entry::order(number, contract, Kind::SellOpen, 100, 1),
        Entry::fill(number, 100, 1),
    ]
}

#[test]
fn records_lead_there() {
    let entries = entries();
    let run = after(&written(&entries).unwrap(), entries.len());
    assert_eq!(run.answered, entries.len());
    let view = view(&run.book);
    all_forms_hold(&view);
    let account = view.account.as_ref().unwrap();
    assert_eq!(account.money.cash, MOST_MONEY);
    assert_eq!(account.money.margin, 80_000 * 12_100_000_000);
    assert_eq!(account.money.holds, 32_000_000_000_000);
    assert_eq!(account.money.available, 0);
    assert_eq!(account.orders.len(), 32);
    assert_eq!(account.positions.len(), 57);
    assert_eq!(account.positions[0].margin, 121_000_000_000_000);
    let table = table(&view);
    for told in ["10000 of 10000", " 2000000000\n", " 4294967295 "] {
        assert!(table.contains(told), "{told:?} in\n{table}");
    }
}

/// More than any account can have at once: 10,000 of each count in each of 64 contracts.
fn past_all() -> Book {
    let mut book = Book::new();
    book.stage = Stage::Entries;
    (book.tables.m, book.tables.n) = (8, 64);
    for (u, row) in book.tables.underlyings.iter_mut().enumerate() {
        row.class = [Class::Stock, Class::Fund][u % 2];
        row.close = MOST_PRICE;
        (row.rights, row.total, row.daily) = (10_000, 10_000, 10_000);
    }
    for (c, row) in book.tables.contracts.iter_mut().enumerate() {
        row.underlying = c as u16 % 8;
        row.right = [Right::Call, Right::Put][c / 8 % 2];
        (row.strike, row.unit, row.settlement) = (MOST_PRICE, MOST_UNIT, MOST_PRICE);
    }
    let most = Contracts(10_000);
    book.account.positions = [Position {
        long: most,
        short: most,
        covered: most,
    }; 64];
    for holding in &mut book.account.holdings {
        (holding.locked, holding.bought) = (Units(2_000_000_000), most);
    }
    for running in &mut book.account.running {
        (running.long, running.total) = (most, most);
    }
    book
}

fn ordered(mut book: Book) -> Book {
    for (i, order) in book.account.orders.iter_mut().enumerate() {
        order.number = u32::MAX - i as u32;
        order.contract = 63 - 8 * (i as u16 % 8);
        order.kind = i as u16 % 6 + 1;
        (order.left, order.price) = (Contracts(100), MOST_PRICE);
    }
    book.account.last = u32::MAX;
    book
}

#[test]
fn every_number_at_its_largest() {
    let mut book = ordered(past_all());
    let sheet = &mut book.account.sheet;
    (sheet.cash, sheet.premium, sheet.holds) = (MOST_MONEY, MOST_MONEY, MOST_MONEY);
    sheet.margin = 64 * 10_000 * 20_000_000_000;
    book.account.waiting = MOST_MONEY;
    let view = view(&book);
    all_forms_hold(&view);
    let table = table(&view);
    let widest = table.lines().map(str::len).max();
    assert_eq!(widest, Some(100), "{table}");
    assert!(table.contains("  -128000000000000.00\n"), "{table}");
}

/// The tables before the opening.
#[test]
fn full_tables_of_large_numbers() {
    let mut book = past_all();
    book.stage = Stage::Contracts;
    all_forms_hold(&view(&book));
}

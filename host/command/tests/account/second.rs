//! The view held to the second working, which makes every sum anew, after the records of telling and of random books.

use crate::forms::all_forms_hold;
use native::desk::run_on;
use plain::account::Desk;
use plain::book::Book;
use plain::entry::Order as Resting;
use plain::record::read;
use plain::rules::margin_of_one;
use plain::terms::{Class, Kind, Right};
use ravundesk::account::{view, Account, Contract, Money, Order, Position};
use ravundesk::account::{Standing, Underlying, View};
use std::collections::BTreeSet;
use trials::{booking, telling};

#[test]
fn telling_books() {
    let mut met = Met::default();
    for told in telling::books() {
        walk(&told.bytes, &mut met);
    }
    assert!(5_000 < met.views, "{} views", met.views);
}

#[test]
fn random_books() {
    let mut met = Met::default();
    for number in 1..=150 {
        walk(&booking::book(5, number), &mut met);
    }
    assert!(10_000 < met.views, "{} views", met.views);
    // A payout, covered premium, less than nothing available, each count of a position, and units of which some are spare.
    assert_eq!(met.kinds.len(), 6);
    assert!(met.told.iter().all(|&count| 10 < count), "{:?}", met.told);
}

/// What the views had to tell.
#[derive(Default)]
pub struct Met {
    views: usize,
    kinds: BTreeSet<&'static str>,
    told: [usize; 7],
}

impl Met {
    fn meet(&mut self, view: &View) {
        self.views += 1;
        if let Some(account) = &view.account {
            self.meet_account(account);
        }
        let mut standings = view.underlyings.iter().filter_map(|u| u.standing.as_ref());
        let partly = |standing: &Standing| 0 < standing.spare && standing.spare < standing.locked;
        self.told[6] += usize::from(standings.any(partly));
    }

    fn meet_account(&mut self, account: &Account) {
        self.kinds
            .extend(account.orders.iter().map(|order| order.kind));
        let (money, mut held) = (&account.money, account.positions.iter());
        let met = [
            0 < money.payout,
            0 < money.covered_premium,
            money.available < 0,
            held.clone().any(|held| 0 < held.long),
            held.clone().any(|held| 0 < held.short),
            held.any(|held| 0 < held.covered),
        ];
        for (count, met) in self.told.iter_mut().zip(met) {
            *count += usize::from(met);
        }
    }
}

/// Both workings go on record by record; the views are compared after each of the first, and then after each tenth.
pub fn walk(bytes: &[u8], met: &mut Met) {
    let (mut proved, mut plain) = (native::set_up::Book::new(), Book::new());
    let (mut place, mut records) = (0, 0);
    while let Ok((entry, length)) = read(bytes, place) {
        let verdict = plain.step(&entry).err().unwrap_or(0);
        let mut number = [0];
        proved = run_on(proved, bytes, place, &mut number, &mut [0]).book;
        assert_eq!(number, [verdict]);
        place += length;
        records += 1;
        if records <= 60 || records % 10 == 0 {
            met.meet(&compared(&proved, &plain));
        }
    }
    met.meet(&compared(&proved, &plain));
}

fn compared(proved: &native::set_up::Book, plain: &Book) -> View {
    let view = view(proved);
    assert_eq!(view, second(plain, &view));
    view.account.iter().for_each(adds_up);
    all_forms_hold(&view);
    view
}

fn adds_up(account: &Account) {
    let money = &account.money;
    let margins = account.positions.iter().map(|position| position.margin);
    let holds = account.orders.iter().map(|order| order.hold);
    assert_eq!(money.margin, margins.sum());
    assert_eq!(money.holds, holds.sum::<u64>() + money.payout);
    let less = i128::from(money.holds) + i128::from(money.margin);
    let available = i128::from(money.cash) - less;
    assert_eq!(i128::from(money.available), available);
}

/// The view as the second working would have it. What it waits for is told by the stage, and is not worked out again here.
fn second(book: &Book, first: &View) -> View {
    let tables = book.tables();
    let desk = match book {
        Book::SettingUp(_) => None,
        Book::Open(desk) => Some(&**desk),
    };
    let stage = match desk {
        Some(_) => "entries",
        None if tables.contracts.is_empty() => "underlyings",
        None => "contracts",
    };
    View {
        stage,
        waits_for: first.waits_for,
        underlyings: (0..tables.underlyings.len())
            .map(|u| underlying(book, desk, u))
            .collect(),
        contracts: (0..tables.contracts.len())
            .map(|c| contract(book, c))
            .collect(),
        account: desk.map(|desk| account(book, desk)),
    }
}

fn underlying(book: &Book, desk: Option<&Desk>, u: usize) -> Underlying {
    let row = &book.tables().underlyings[u];
    let number = u as u16;
    let used = |limit: u16, room: i64| (i64::from(limit) - room) as u32;
    Underlying {
        number,
        class: match row.class {
            Class::Stock => "stock",
            Class::Fund => "fund",
        },
        close: row.close,
        rights: row.rights,
        total: row.total,
        daily: row.daily,
        standing: desk.map(|desk| Standing {
            rights: used(row.rights, desk.rights_room(number)),
            total: used(row.total, desk.total_room(number)),
            daily: used(row.daily, desk.daily_room(number)),
            locked: desk.account.holdings[u].locked as u64,
            spare: desk.spare(number) as u64,
        }),
    }
}

fn contract(book: &Book, c: usize) -> Contract {
    let row = &book.tables().contracts[c];
    Contract {
        number: c as u16,
        right: match row.right {
            Right::Call => "call",
            Right::Put => "put",
        },
        underlying: row.underlying,
        strike: row.strike,
        unit: row.unit,
        settlement: row.settlement,
        margin_of_one: margin_of_one(row, book.tables().underlying_of(row)) as u64,
    }
}

fn account(book: &Book, desk: &Desk) -> Account {
    let mut orders: Vec<Order> = desk
        .account
        .resting()
        .map(|resting| order(book, desk, resting))
        .collect();
    orders.sort_by_key(|order| order.number);
    Account {
        money: Money {
            cash: desk.account.cash as u64,
            covered_premium: desk.account.covered_premium as u64,
            holds: desk.holds() as u64,
            payout: desk.account.waiting.unwrap_or(0) as u64,
            margin: desk.margin() as u64,
            available: desk.available(),
        },
        positions: positions(book, desk),
        orders,
        last_order: desk.account.last,
    }
}

fn positions(book: &Book, desk: &Desk) -> Vec<Position> {
    let held = desk.account.positions.iter().enumerate();
    let rows = held.map(|(c, held)| Position {
        contract: contract(book, c),
        long: held.long as u32,
        short: held.short as u32,
        covered: held.covered as u32,
        margin: held.short as u64 * contract(book, c).margin_of_one,
    });
    rows.filter(|row| row.long + row.short + row.covered != 0)
        .collect()
}

fn order(book: &Book, desk: &Desk, resting: &Resting) -> Order {
    let contract = contract(book, resting.contract.into());
    let (kind, units) = match resting.kind {
        Kind::BuyOpen => ("buy-open", 0),
        Kind::SellClose => ("sell-close", 0),
        Kind::SellOpen => ("sell-open", 0),
        Kind::BuyClose => ("buy-close", 0),
        Kind::CoveredOpen => ("covered-open", contract.unit),
        Kind::CoveredClose => ("covered-close", 0),
    };
    Order {
        number: resting.number,
        kind,
        contract,
        left: resting.quantity,
        price: resting.price,
        hold: desk.hold(resting) as u64,
        reserved: u64::from(resting.quantity) * u64::from(units),
    }
}

//! All that is told of a book, as plain numbers and words. Prices are in 0.0001 yuan, money in fen. What is said of money and units is
//! taken from the proved source or asked of it.

use crate::records::table::{word_of, CLASSES, ORDER_KINDS, RIGHTS};
use native::account::{Account as Kept, Resting, Tables};
use native::money::{available, hold_one, margin_one};
use native::resting::kind_of;
use native::set_up::{Book, Stage};
use native::terms::OrderKind;

#[derive(Clone, Debug, PartialEq, Eq)]
pub struct View {
    pub stage: &'static str,
    pub waits_for: &'static str,
    pub underlyings: Vec<Underlying>,
    pub contracts: Vec<Contract>,
    /// None before the opening.
    pub account: Option<Account>,
}

/// Rights, total and daily are the limits here; what counts against them is in its standing.
#[derive(Clone, Debug, PartialEq, Eq)]
pub struct Underlying {
    pub number: u16,
    pub class: &'static str,
    pub close: u32,
    pub rights: u16,
    pub total: u16,
    pub daily: u16,
    /// None before the opening.
    pub standing: Option<Standing>,
}

/// What the account has of an underlying: the three counts that are limited, in contracts, and its units.
#[derive(Clone, Debug, PartialEq, Eq)]
pub struct Standing {
    pub rights: u32,
    pub total: u32,
    pub daily: u32,
    pub locked: u64,
    pub spare: u64,
}

#[derive(Clone, Copy, Debug, PartialEq, Eq)]
pub struct Contract {
    pub number: u16,
    pub right: &'static str,
    pub underlying: u16,
    pub strike: u32,
    pub unit: u32,
    pub settlement: u32,
    pub margin_of_one: u64,
}

#[derive(Clone, Debug, PartialEq, Eq)]
pub struct Account {
    pub money: Money,
    /// By contract; one with no long, short or covered has no row.
    pub positions: Vec<Position>,
    /// By number, and not by place: a place is used again, a number never.
    pub orders: Vec<Order>,
    /// 0 where none was accepted yet.
    pub last_order: u32,
}

#[derive(Clone, Debug, PartialEq, Eq)]
pub struct Money {
    pub cash: u64,
    pub covered_premium: u64,
    pub holds: u64,
    /// Part of the holds: asked for, and neither paid nor dropped yet.
    pub payout: u64,
    pub margin: u64,
    pub available: i64,
}

#[derive(Clone, Debug, PartialEq, Eq)]
pub struct Position {
    pub contract: Contract,
    pub long: u32,
    pub short: u32,
    pub covered: u32,
    pub margin: u64,
}

#[derive(Clone, Debug, PartialEq, Eq)]
pub struct Order {
    pub number: u32,
    pub kind: &'static str,
    pub contract: Contract,
    pub left: u32,
    pub price: u32,
    pub hold: u64,
    /// Units, by a covered open.
    pub reserved: u64,
}

pub fn view(book: &Book) -> View {
    let tables = &book.tables;
    let open = matches!(book.stage, Stage::Entries);
    let kept = open.then_some(&book.account);
    View {
        stage: stage(book.stage),
        waits_for: waits_for(book.stage, tables),
        underlyings: (0..tables.m).map(|u| underlying(tables, kept, u)).collect(),
        contracts: (0..tables.n).map(|c| contract(tables, c)).collect(),
        account: kept.map(|kept| account(tables, kept)),
    }
}

fn stage(stage: Stage) -> &'static str {
    match stage {
        Stage::Underlyings => "underlyings",
        Stage::Contracts => "contracts",
        Stage::Entries => "entries",
    }
}

/// What could be accepted next: a table that is full takes no more rows, and a contract needs an underlying.
fn waits_for(stage: Stage, tables: &Tables) -> &'static str {
    match stage {
        Stage::Underlyings if tables.m == 0 => "an underlying",
        Stage::Underlyings if tables.m == native::terms::UNDERLYINGS => "a contract",
        Stage::Underlyings => "an underlying or a contract",
        Stage::Contracts if tables.n == native::terms::CONTRACTS => "the opening",
        Stage::Contracts => "a contract or the opening",
        Stage::Entries => "entries",
    }
}

fn underlying(tables: &Tables, kept: Option<&Kept>, u: usize) -> Underlying {
    let row = tables.underlyings[u];
    Underlying {
        number: u as u16,
        class: word_of(CLASSES, row.class.into()),
        close: row.close,
        rights: row.rights,
        total: row.total,
        daily: row.daily,
        standing: kept.map(|kept| standing(kept, u)),
    }
}

/// From the totals that the account keeps, as an order's facts are.
fn standing(kept: &Kept, u: usize) -> Standing {
    let (holding, running) = (kept.holdings[u], kept.running[u]);
    Standing {
        rights: running.long.0 + running.buys.0,
        total: running.total.0,
        daily: holding.bought.0,
        locked: holding.locked.0,
        spare: holding.locked.0 - running.taken.0,
    }
}

fn contract(tables: &Tables, c: usize) -> Contract {
    let row = tables.contracts[c];
    Contract {
        number: c as u16,
        right: word_of(RIGHTS, row.right.into()),
        underlying: row.underlying,
        strike: row.strike,
        unit: row.unit,
        settlement: row.settlement,
        margin_of_one: margin_one(row, tables.underlyings[usize::from(row.underlying)]),
    }
}

fn account(tables: &Tables, kept: &Kept) -> Account {
    let resting = kept.orders.iter().filter(|order| order.number != 0);
    let mut orders: Vec<Order> = resting.map(|resting| order(tables, resting)).collect();
    orders.sort_by_key(|order| order.number);
    Account {
        money: money(kept),
        positions: (0..tables.n)
            .filter_map(|c| position(tables, kept, c))
            .collect(),
        orders,
        last_order: kept.last,
    }
}

fn money(kept: &Kept) -> Money {
    Money {
        cash: kept.sheet.cash,
        covered_premium: kept.sheet.premium,
        holds: kept.sheet.holds,
        payout: kept.waiting,
        margin: kept.sheet.margin,
        available: available(kept.sheet),
    }
}

fn position(tables: &Tables, kept: &Kept, c: usize) -> Option<Position> {
    let held = kept.positions[c];
    let (long, short, covered) = (held.long.0, held.short.0, held.covered.0);
    if (long, short, covered) == (0, 0, 0) {
        return None;
    }
    let contract = contract(tables, c);
    Some(Position {
        contract,
        long,
        short,
        covered,
        margin: u64::from(short) * contract.margin_of_one,
    })
}

fn order(tables: &Tables, resting: &Resting) -> Order {
    let c = usize::from(resting.contract);
    let row = tables.contracts[c];
    let kind = kind_of(*resting);
    let on = tables.underlyings[usize::from(row.underlying)];
    Order {
        number: resting.number,
        kind: word_of(ORDER_KINDS, kind.into()),
        contract: contract(tables, c),
        left: resting.left.0,
        price: resting.price,
        hold: u64::from(resting.left.0) * hold_one(kind, row, on, resting.price),
        reserved: match kind {
            OrderKind::CoveredOpen => resting.left.units(row.unit).0,
            _ => 0,
        },
    }
}

//! What a refused record was judged by: the figures that the proved source compares, read off the same functions.

mod outside;
mod unread;

use crate::decimal::{counted, price, yuan};
use crate::feed::Piece;
use crate::records::line::values;
use crate::records::table::{row, Row};
use native::account::{Facts, Named, Seen, Sheet};
use native::entries::{Entry, Fill, Order};
use native::gathering::{gather, see};
use native::money::{available, hold_one, premium_one};
use native::reading::Answer;
use native::resting::{find, kind_of};
use native::set_up::{Book, Stage};
use native::terms::Measure;

/// In words, for a record that the book before it refuses with this number. A refused record leaves the book as it was.
pub fn figures(book: &Book, piece: &Piece, refusal: u8) -> String {
    let entry = match piece.reading.answer {
        Answer::Found { entry, .. } => entry,
        Answer::Refused { .. } => return unread::figures(&piece.bytes, refusal),
    };
    let row = row(u16::from(entry.kind())).expect("every kind has its row");
    match refusal {
        4 => outside::figures(book, row, &values(row, &piece.bytes), entry),
        5 => place(book, row),
        _ => judged(book, entry, refusal),
    }
}

/// Where such a record stands, and where the book is.
fn place(book: &Book, row: &Row) -> String {
    let (m, n) = (book.tables.m as u64, book.tables.n as u64);
    let where_it_stands = match row.kind {
        16 => "comes before the first contract",
        17 => "comes before the opening",
        18 => "comes once, behind the contracts",
        _ => "comes behind the opening",
    };
    let stage = match book.stage {
        Stage::Entries => "is open".to_string(),
        _ => {
            let (m, n) = (counted(m, "underlying"), counted(n, "contract"));
            format!("has {m} and {n} and is not open")
        }
    };
    format!("{} {where_it_stands}; the book {stage}", row.first_word())
}

fn judged(book: &Book, entry: Entry, refusal: u8) -> String {
    let seen = see(&book.tables, &book.account, entry);
    match entry {
        Entry::Order(order) => ordered(&seen, order, refusal),
        Entry::Fill(Fill { number, .. }) | Entry::Cancel { number } if refusal == 7 => {
            format!("number {number}, {}", resting(book))
        }
        Entry::Fill(fill) => find(seen).map_or(String::new(), |named| filled(&named, fill, refusal)),
        Entry::Deposit(amount) => ceiling(seen.sheet, "deposit", amount, None),
        Entry::Withdraw(amount) if refusal == 20 => {
            let waiting = yuan(seen.waiting);
            format!("waiting {waiting}, asked {}", yuan(amount))
        }
        Entry::Withdraw(amount) => format!("asked {}", short(seen.sheet, amount, None)),
        Entry::Pay | Entry::Drop => format!("waiting {}", yuan(seen.waiting)),
        Entry::Lock { units, .. } => locked(&seen, units),
        Entry::Unlock { units, .. } => {
            let spare = seen.holding.locked.0 - seen.running.taken.0;
            format!("asked {units}, {}", spare_short(u64::from(units), spare))
        }
        _ => String::new(),
    }
}

fn ordered(seen: &Seen, order: Order, refusal: u8) -> String {
    let facts = gather(*seen, order);
    let limits = facts.limits;
    let asked = order.quantity;
    match refusal {
        6 => format!("number {}, last accepted {}", order.number, facts.last),
        8 => format!("{} rest", Measure::Resting.range().1),
        9 => {
            let (held, closes) = (facts.position.0, facts.closing.0);
            format!("asked {asked}, held {held}, resting closes {closes}")
        }
        10 => limit(
            asked,
            "long and resting buy-opens",
            facts.rights.0,
            limits.rights,
        ),
        11 => limit(asked, "held and resting opens", facts.total.0, limits.total),
        12 => limit(
            asked,
            "bought open today",
            facts.holding.bought.0,
            limits.daily,
        ),
        13 => covered(seen, &facts, order),
        14 => {
            let one = hold_one(order.kind, seen.contract, limits, order.price);
            format!("hold {}", short(seen.sheet, facts.hold, Some((asked, one))))
        }
        _ => String::new(),
    }
}

fn limit(asked: u32, what: &str, counted: u32, limit: u16) -> String {
    let over = counted + asked - u32::from(limit);
    format!("asked {asked}, {what} {counted}, limit {limit}, over by {over}")
}

fn covered(seen: &Seen, facts: &Facts, order: Order) -> String {
    let (needed, quantity, unit) = (facts.needed.0, order.quantity, seen.contract.unit);
    let short = spare_short(needed, facts.spare.0);
    format!("needed {needed} ({quantity} x {unit}), {short}")
}

fn spare_short(needed: u64, spare: u64) -> String {
    format!("spare {spare}, short by {}", needed - spare)
}

/// A sum beside what is available. Where it is for several contracts, what it is for one.
fn short(sheet: Sheet, sum: u64, each: Option<(u32, u64)>) -> String {
    let available = available(sheet);
    let short = i128::from(sum) - i128::from(available);
    let (sum, each) = (yuan(sum), times(each));
    let (available, short) = (yuan(available), yuan(short));
    format!("{sum}{each}, available {available}, short by {short}")
}

fn times(each: Option<(u32, u64)>) -> String {
    each.map_or(String::new(), |(count, one)| {
        format!(" ({count} x {})", yuan(one))
    })
}

/// Money that would come in, beside what cash and covered premium may be together.
fn ceiling(sheet: Sheet, what: &str, sum: u64, each: Option<(u32, u64)>) -> String {
    let most = Measure::Money.range().1;
    let over =
        i128::from(sheet.cash) + i128::from(sheet.premium) + i128::from(sum) - i128::from(most);
    let (cash, premium) = (yuan(sheet.cash), yuan(sheet.premium));
    let (sum, each, most, over) = (yuan(sum), times(each), yuan(most), yuan(over));
    format!("cash {cash}, covered premium {premium}, {what} {sum}{each}, ceiling {most}, over by {over}")
}

fn locked(seen: &Seen, units: u32) -> String {
    let locked = seen.holding.locked.0;
    let most = Measure::LockedUnits.range().1;
    let over = locked + u64::from(units) - most;
    format!("asked {units}, locked {locked}, ceiling {most}, over by {over}")
}

fn filled(named: &Named, fill: Fill, refusal: u8) -> String {
    let order = named.order;
    let left = order.left.0;
    if refusal == 15 {
        let one = premium_one(fill.price, named.unit);
        let sum = u64::from(fill.quantity) * one;
        return ceiling(named.sheet, "received", sum, Some((fill.quantity, one)));
    }
    if left < fill.quantity {
        return format!("asked {}, left {left}", fill.quantity);
    }
    let (side, bound) = if kind_of(order).buys() {
        ("buys", "below")
    } else {
        ("sells", "above")
    };
    let (own, asked) = (price(order.price), price(fill.price));
    format!("price {asked}, the order {side} at {own} or {bound}")
}

/// The numbers that rest, few enough to be read.
fn resting(book: &Book) -> String {
    let orders = book.account.orders.iter();
    let mut numbers: Vec<u32> = orders
        .map(|order| order.number)
        .filter(|&n| n != 0)
        .collect();
    numbers.sort_unstable();
    let told: Vec<String> = numbers.iter().take(8).map(u32::to_string).collect();
    match numbers.len() {
        0 => "none rests".to_string(),
        count if count == told.len() => format!("resting {}", told.join(" ")),
        count => format!("resting {} .. ({count})", told.join(" ")),
    }
}

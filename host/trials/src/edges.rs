//! The lines of `edges`: entries booked one after the other, and after each the verdict and the account.

use crate::{day_end, tables, Words};
use plain::account::Desk;
use plain::entry::{Entry, Fill, Order};
use plain::terms::{Class, Contract, Kind, Right, Underlying};
use std::fmt::Write;

pub struct Edges {
    pub desk: Desk,
}

impl Edges {
    /// Where no line has opened an account yet, the small tables and no cash.
    pub fn new() -> Edges {
        let desk = Desk::open(&tables::small(), 0).expect("no cash is in range");
        Edges { desk }
    }

    pub fn answer(&mut self, words: &Words) -> Option<String> {
        let outcome = match words.first() {
            "open" => self.open(words)?,
            _ => self.desk.step(&entry(words)?),
        };
        Some(shown(outcome.err().unwrap_or(0), &self.desk))
    }

    /// A refused opening changes nothing, the tables neither.
    fn open(&mut self, words: &Words) -> Option<Result<(), u8>> {
        let tables = match words.text(2) {
            Some("1") => tables::full(),
            _ => tables::small(),
        };
        let opened = Desk::open(&tables, words.number(1)?);
        Some(opened.map(|desk| self.desk = desk))
    }
}

impl Default for Edges {
    fn default() -> Edges {
        Edges::new()
    }
}

pub(crate) fn entry(words: &Words) -> Option<Entry> {
    Some(match words.first() {
        "deposit" => Entry::Deposit {
            amount: words.number(1)?,
        },
        "withdraw" => Entry::Withdraw {
            amount: words.number(1)?,
        },
        "lock" => Entry::Lock {
            underlying: words.number(1)?,
            units: words.number(2)?,
        },
        "unlock" => Entry::Unlock {
            underlying: words.number(1)?,
            units: words.number(2)?,
        },
        "order" => Entry::Order(Order {
            number: words.number(1)?,
            contract: words.number(2)?,
            kind: Kind::from_code(words.number(3)?)?,
            quantity: words.number(4)?,
            price: words.number(5)?,
        }),
        "fill" => Entry::Fill(Fill {
            number: words.number(1)?,
            quantity: words.number(2)?,
            price: words.number(3)?,
        }),
        "cancel" => Entry::Cancel {
            number: words.number(1)?,
        },
        "end" => day_end(words.number(1)?, words.number(2)?, |i| words.number(3 + i)),
        "pay" => Entry::Pay,
        "drop" => Entry::Drop,
        "record" => set_up(words.number(1)?)?,
        _ => return None,
    })
}

/// A record of set-up by its kind; on an open account its values do not matter.
fn set_up(kind: u16) -> Option<Entry> {
    Some(match kind {
        16 => Entry::Underlying(Underlying::new(Class::Fund, 1, [0; 3])),
        17 => Entry::Contract(Contract::new(0, Right::Call, [1, 100, 0])),
        18 => Entry::Opening { cash: 0 },
        _ => return None,
    })
}

/// The verdict, the money, the last number; then what waits to be paid out, and each contract, underlying and place that is not empty.
fn shown(verdict: u8, desk: &Desk) -> String {
    let account = &desk.account;
    let (holds, margin) = (desk.holds(), desk.margin());
    let available = account.cash - holds - margin;
    let (cash, covered_premium, last) = (account.cash, account.covered_premium, account.last);
    let mut text =
        format!("{verdict} {available} {cash} {covered_premium} {holds} {margin} {last}");
    show_rows(&mut text, desk).expect("a string takes all that is written");
    text
}

fn show_rows(text: &mut String, desk: &Desk) -> std::fmt::Result {
    if let Some(amount) = desk.account.waiting {
        write!(text, " w {amount}")?;
    }
    for (contract, held) in desk.account.positions.iter().enumerate() {
        let (long, short, covered) = (held.long, held.short, held.covered);
        if (long, short, covered) != (0, 0, 0) {
            write!(text, " p {contract} {long} {short} {covered}")?;
        }
    }
    for (underlying, holding) in desk.account.holdings.iter().enumerate() {
        let (locked, bought) = (holding.locked, holding.bought);
        if (locked, bought) != (0, 0) {
            write!(text, " u {underlying} {locked} {bought}")?;
        }
    }
    for (place, order) in desk.account.orders.iter().enumerate() {
        if let Some(o) = order {
            let (number, contract, kind) = (o.number, o.contract, o.kind as u16);
            let (left, price) = (o.quantity, o.price);
            write!(text, " o {place} {number} {contract} {kind} {left} {price}")?;
        }
    }
    Ok(())
}

//! The arithmetic of the exchange: margin and premium of one contract, and netting.

use crate::account::Position;
use crate::require;
use crate::terms::{unit_allowed, within, Class, Contract, Right, Underlying, PRICE};

/// The margin of one contract in fen, or 4 where a value is outside its range.
pub fn margin(contract: &Contract, underlying: &Underlying) -> Result<i64, u8> {
    require(contract.allowed() && underlying.allowed(), 4)?;
    Ok(margin_of_one(contract, underlying))
}

/// Document 000, articles 14, 15 and 18 to 20, for figures in range.
pub fn margin_of_one(contract: &Contract, underlying: &Underlying) -> i64 {
    let settlement = i64::from(contract.settlement);
    let close = i64::from(underlying.close);
    let strike = i64::from(contract.strike);
    let (rate, floor) = match (underlying.class, contract.right) {
        (Class::Stock, Right::Call) => (21, 10),
        (Class::Stock, Right::Put) => (19, 10),
        (Class::Fund, _) => (12, 7),
    };
    // In hundredths of a price; the difference may fall below zero, and then the floor stands.
    let amount = match contract.right {
        Right::Call => {
            let out = (strike - close).max(0);
            100 * settlement + (rate * close - 100 * out).max(floor * close)
        }
        Right::Put => {
            let out = (close - strike).max(0);
            let uncapped = 100 * settlement + (rate * close - 100 * out).max(floor * strike);
            uncapped.min(100 * strike)
        }
    };
    // Halves up, and for one contract: a count multiplies what is rounded.
    (i64::from(contract.unit) * amount + 5_000) / 10_000
}

/// The premium of one contract in fen, or 4 where a value is outside its range.
pub fn premium(price: u32, unit: u32) -> Result<i64, u8> {
    require(within(price, PRICE) && unit_allowed(unit), 4)?;
    Ok(premium_of_one(price, unit))
}

/// Exact, since a unit is a multiple of 100.
pub fn premium_of_one(price: u32, unit: u32) -> i64 {
    i64::from(price) * i64::from(unit) / 100
}

/// Long against short first, then what is left of long against covered (document 002, question 20).
pub fn net(held: Position) -> Position {
    let against_short = held.long.min(held.short);
    let long = held.long - against_short;
    let against_covered = long.min(held.covered);
    Position {
        long: long - against_covered,
        short: held.short - against_short,
        covered: held.covered - against_covered,
    }
}

//! The words of document 01: class, right, kind of order, the rows of the tables, and the ranges ("Numbers").

use std::ops::RangeInclusive;

pub const UNDERLYINGS: RangeInclusive<u64> = 1..=8;
pub const CONTRACTS: RangeInclusive<u64> = 1..=64;
pub const PLACES: usize = 32;
/// Prior close, strike, order price and fill price.
pub const PRICE: RangeInclusive<u64> = 1..=10_000_000;
/// Zero is a price here.
pub const SETTLEMENT: RangeInclusive<u64> = 0..=10_000_000;
pub const UNIT: RangeInclusive<u64> = 100..=100_000;
pub const QUANTITY: RangeInclusive<u64> = 1..=100;
pub const LIMIT: RangeInclusive<u64> = 0..=10_000;
/// A deposit, or a payout that is asked for.
pub const TRANSFER: RangeInclusive<u64> = 1..=10_000_000_000_000;
pub const OPENING_CASH: RangeInclusive<u64> = 0..=1_000_000_000_000_000;
/// Units locked or unlocked at once.
pub const UNITS_AT_ONCE: RangeInclusive<u64> = 1..=1_000_000_000;
/// Cash plus covered premium.
pub const MONEY_CEILING: i64 = 1_000_000_000_000_000;
/// Locked units of one underlying.
pub const LOCKED_CEILING: i64 = 2_000_000_000;

pub fn within(value: impl Into<u64>, range: RangeInclusive<u64>) -> bool {
    range.contains(&value.into())
}

/// A multiple of 100, so that a premium is exact.
pub fn unit_allowed(unit: impl Into<u64>) -> bool {
    let unit = unit.into();
    within(unit, UNIT) && unit % 100 == 0
}

#[derive(Clone, Copy, Debug, PartialEq, Eq)]
pub enum Class {
    Stock = 1,
    Fund,
}

impl Class {
    pub fn from_code(code: u16) -> Option<Class> {
        [Class::Stock, Class::Fund]
            .into_iter()
            .find(|&class| class as u16 == code)
    }
}

#[derive(Clone, Copy, Debug, PartialEq, Eq)]
pub enum Right {
    Call = 1,
    Put,
}

impl Right {
    pub fn from_code(code: u16) -> Option<Right> {
        [Right::Call, Right::Put]
            .into_iter()
            .find(|&right| right as u16 == code)
    }
}

#[derive(Clone, Copy, Debug, PartialEq, Eq)]
pub enum Kind {
    BuyOpen = 1,
    SellClose,
    SellOpen,
    BuyClose,
    CoveredOpen,
    CoveredClose,
}

impl Kind {
    pub const ALL: [Kind; 6] = [
        Kind::BuyOpen,
        Kind::SellClose,
        Kind::SellOpen,
        Kind::BuyClose,
        Kind::CoveredOpen,
        Kind::CoveredClose,
    ];

    pub fn from_code(code: u16) -> Option<Kind> {
        Kind::ALL.into_iter().find(|&kind| kind as u16 == code)
    }

    pub fn opens(self) -> bool {
        matches!(self, Kind::BuyOpen | Kind::SellOpen | Kind::CoveredOpen)
    }

    pub fn buys(self) -> bool {
        matches!(self, Kind::BuyOpen | Kind::BuyClose | Kind::CoveredClose)
    }

    pub fn covered(self) -> bool {
        matches!(self, Kind::CoveredOpen | Kind::CoveredClose)
    }

    /// Buys hold premium, a sell open holds margin; the others hold no money.
    pub fn holds_money(self) -> bool {
        self.buys() || self == Kind::SellOpen
    }
}

#[derive(Clone, Debug, PartialEq, Eq)]
pub struct Underlying {
    pub class: Class,
    pub close: u32,
    pub rights: u16,
    pub total: u16,
    pub daily: u16,
}

impl Underlying {
    pub fn new(class: Class, close: u32, [rights, total, daily]: [u16; 3]) -> Underlying {
        Underlying {
            class,
            close,
            rights,
            total,
            daily,
        }
    }

    pub fn allowed(&self) -> bool {
        let limits = [self.rights, self.total, self.daily];
        within(self.close, PRICE) && limits.iter().all(|&limit| within(limit, LIMIT))
    }
}

#[derive(Clone, Debug, PartialEq, Eq)]
pub struct Contract {
    pub underlying: u16,
    pub right: Right,
    pub strike: u32,
    pub unit: u32,
    pub settlement: u32,
}

impl Contract {
    pub fn new(underlying: u16, right: Right, [strike, unit, settlement]: [u32; 3]) -> Contract {
        Contract {
            underlying,
            right,
            strike,
            unit,
            settlement,
        }
    }

    /// Whether its own figures are in range; that its underlying exists is the tables' matter.
    pub fn allowed(&self) -> bool {
        within(self.strike, PRICE) && unit_allowed(self.unit) && within(self.settlement, SETTLEMENT)
    }
}

/// A count is how many rows there are: what someone keeps behind its rows is no part of the tables.
#[derive(Clone, Debug, Default, PartialEq, Eq)]
pub struct Tables {
    pub underlyings: Vec<Underlying>,
    pub contracts: Vec<Contract>,
}

impl Tables {
    /// Whether counts and rows are in range, and every contract is on one of the underlyings. Tables that are being filled may have
    /// no row yet.
    pub fn allowed(&self) -> bool {
        let (underlyings, contracts) = (self.underlyings.len(), self.contracts.len());
        let listed = |contract: &Contract| usize::from(contract.underlying) < underlyings;
        underlyings as u64 <= *UNDERLYINGS.end()
            && contracts as u64 <= *CONTRACTS.end()
            && self.underlyings.iter().all(Underlying::allowed)
            && self
                .contracts
                .iter()
                .all(|row| row.allowed() && listed(row))
    }

    pub fn underlying_of(&self, contract: &Contract) -> &Underlying {
        &self.underlyings[usize::from(contract.underlying)]
    }
}

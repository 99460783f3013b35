//! The ranges of document 01, "Numbers", and the refusals.

use std::ops::RangeInclusive;

pub const UNDERLYINGS: usize = 8;
pub const CONTRACTS: usize = 64;
pub const PLACES: usize = 32;

pub const PRICE: RangeInclusive<u32> = 1..=10_000_000;
/// Zero is a price here.
pub const SETTLEMENT: RangeInclusive<u32> = 0..=10_000_000;
pub const UNIT: RangeInclusive<u32> = 100..=100_000;
/// Units of a contract are so many of these.
pub const UNIT_STEP: u32 = 100;
pub const QUANTITY: RangeInclusive<u32> = 1..=100;
pub const LIMIT: RangeInclusive<u16> = 0..=10_000;
pub const TRANSFER: RangeInclusive<u64> = 1..=10_000_000_000_000;
pub const OPENING_CASH: RangeInclusive<u64> = 0..=1_000_000_000_000_000;
pub const UNITS_AT_ONCE: RangeInclusive<u32> = 1..=1_000_000_000;
/// Cash plus covered premium.
pub const MONEY_CEILING: i64 = 1_000_000_000_000_000;
/// Locked units of one underlying.
pub const LOCKED_CEILING: u64 = 2_000_000_000;

/// Why a record is refused, by the paper's number; 17 is for writing, and 18 is unused.
#[derive(Clone, Copy)]
pub enum Refusal {
    CutShort = 1,
    UnknownKind,
    Misshapen,
    OutOfRange,
    OutOfPlace,
    StaleNumber,
    NoSuchOrder,
    OrdersFull,
    PositionTooSmall,
    RightsPassed,
    TotalPassed,
    DailyPassed,
    SpareTooFew,
    AvailablePassed,
    CeilingPassed,
    FillBarred,
    NothingWaiting = 19,
    AlreadyWaiting,
}

pub type Verdict = Result<(), Refusal>;

#[inline(always)]
pub fn require(met: bool, refusal: Refusal) -> Verdict {
    if met {
        Ok(())
    } else {
        Err(refusal)
    }
}

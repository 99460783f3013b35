//! Expiry day (document 02): whether a request for exercise is good, and which accounts the exercised contracts are assigned to.

use crate::account::Position;
use crate::require;
use crate::rules::net;
use crate::terms::{unit_allowed, within, Right, PRICE};
use std::cmp::Reverse;
use std::ops::RangeInclusive;

/// Contracts that a request asks for.
pub const COUNT: RangeInclusive<u64> = 1..=10_000;
pub const ACCOUNTS: RangeInclusive<u64> = 0..=256;
/// Short plus covered of one account.
pub const NET_TOTAL: RangeInclusive<u64> = 0..=10_000;

#[derive(Clone, Copy, Debug, PartialEq, Eq)]
pub struct Request {
    pub right: Right,
    pub strike: u32,
    pub unit: u32,
    /// Before netting, or after it: what is netted stays as it is when netted again.
    pub held: Position,
    pub count: u32,
    /// Fen for a call, units of the underlying for a put.
    pub offered: u64,
}

impl Request {
    fn allowed(&self) -> bool {
        within(self.count, COUNT) && within(self.strike, PRICE) && unit_allowed(self.unit)
    }

    /// A price is in hundredths of a fen: the offer is brought to them, and nothing is rounded.
    fn means_reach(&self) -> bool {
        let units = u128::from(self.unit) * u128::from(self.count);
        let offered = u128::from(self.offered);
        match self.right {
            Right::Call => u128::from(self.strike) * units <= 100 * offered,
            Right::Put => units <= offered,
        }
    }
}

pub fn exercise(request: &Request) -> Result<(), u8> {
    require(request.allowed(), 4)?;
    require(i64::from(request.count) <= net(request.held).long, 22)?;
    require(request.means_reach(), 23)
}

/// What an account has sold and may have to deliver on.
#[derive(Clone, Copy, Debug, Default, PartialEq, Eq)]
pub struct Obligation {
    pub short: u32,
    pub covered: u32,
}

impl Obligation {
    /// Wider than its parts, whose sum may pass 32 bits.
    pub fn total(&self) -> u64 {
        u64::from(self.short) + u64::from(self.covered)
    }

    /// Covered contracts are assigned first (document 002, question 23).
    fn divided(&self, share: u64) -> Assigned {
        let covered = share.min(self.covered.into());
        Assigned {
            covered,
            uncovered: share - covered,
        }
    }
}

#[derive(Clone, Copy, Debug, PartialEq, Eq)]
pub struct Assigned {
    pub covered: u64,
    pub uncovered: u64,
}

/// What each account is assigned, in the order of the accounts.
pub fn assign(exercised: u32, accounts: &[Obligation]) -> Result<Vec<Assigned>, u8> {
    let exercised = u64::from(exercised);
    let totals: Vec<u64> = accounts.iter().map(Obligation::total).collect();
    require(exercised <= totals.iter().sum(), 4)?;
    require(within(accounts.len() as u64, ACCOUNTS), 4)?;
    require(totals.iter().all(|&total| within(total, NET_TOTAL)), 4)?;
    let shares = shares(exercised, &totals).into_iter();
    let parts = accounts.iter().zip(shares);
    Ok(parts
        .map(|(account, share)| account.divided(share))
        .collect())
}

/// The whole parts, and one more for those that come first by their fraction.
fn shares(exercised: u64, totals: &[u64]) -> Vec<u64> {
    // Where nobody has sold anything, nothing is exercised, and any divisor leaves nothing.
    let all = totals.iter().sum::<u64>().max(1);
    let mut shares: Vec<u64> = totals.iter().map(|s| exercised * s / all).collect();
    let left = exercised - shares.iter().sum::<u64>();
    let mut order: Vec<usize> = (0..totals.len()).collect();
    // Equal fractions stay as they were: the lower number first (house), where the clearing house draws lots.
    order.sort_by_key(|&account| Reverse(exercised * totals[account] % all));
    for account in order.into_iter().take(left as usize) {
        shares[account] += 1;
    }
    shares
}

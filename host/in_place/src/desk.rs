//! The account on its tables.

use crate::limits::{CONTRACTS, UNDERLYINGS};
use crate::resting::Places;
use crate::rows::{Contract, Underlying};

/// Available is kept in place of holds and margin: every one of the three sums is asked for in it alone.
#[derive(Clone, Copy, Debug)]
pub struct Desk {
    pub available: i64,
    pub cash: i64,
    /// Received today for covered opening, not yet usable.
    pub premium: i64,
    /// The payout that was asked for, 0 where none was.
    pub waiting: i64,
    pub last: u32,
    /// So many underlyings and contracts there are.
    pub m: usize,
    pub n: usize,
    pub places: Places,
    pub underlyings: [Underlying; UNDERLYINGS],
    pub contracts: [Contract; CONTRACTS],
}

impl Desk {
    pub fn new() -> Desk {
        Desk {
            available: 0,
            cash: 0,
            premium: 0,
            waiting: 0,
            last: 0,
            m: 0,
            n: 0,
            places: Places::new(),
            underlyings: [Underlying::default(); UNDERLYINGS],
            contracts: [Contract::default(); CONTRACTS],
        }
    }
}

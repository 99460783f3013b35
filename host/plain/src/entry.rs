//! The entries of a book. Fields are as wide as the record has them; values are judged when an entry is booked.

use crate::terms::{Contract, Kind, Underlying};

#[derive(Clone, Debug, PartialEq, Eq)]
pub enum Entry {
    Deposit {
        amount: u64,
    },
    /// Asks for a payout: the amount waits until it is paid or dropped.
    Withdraw {
        amount: u64,
    },
    Lock {
        underlying: u16,
        units: u32,
    },
    Unlock {
        underlying: u16,
        units: u32,
    },
    Order(Order),
    Fill(Fill),
    Cancel {
        number: u32,
    },
    /// The record's n and m are how many figures there are.
    DayEnd {
        settlements: Vec<u32>,
        closes: Vec<u32>,
    },
    /// What waits is paid out.
    Pay,
    /// What waits is asked for no more.
    Drop,
    Underlying(Underlying),
    Contract(Contract),
    Opening {
        cash: u64,
    },
}

impl Entry {
    pub fn order(number: u32, contract: u16, kind: Kind, quantity: u32, price: u32) -> Entry {
        Entry::Order(Order {
            number,
            contract,
            kind,
            quantity,
            price,
        })
    }

    pub fn fill(number: u32, quantity: u32, price: u32) -> Entry {
        Entry::Fill(Fill {
            number,
            quantity,
            price,
        })
    }
}

/// As an order rests, its quantity is what is left of it.
#[derive(Clone, Copy, Debug, PartialEq, Eq)]
pub struct Order {
    pub number: u32,
    pub contract: u16,
    pub kind: Kind,
    pub quantity: u32,
    pub price: u32,
}

#[derive(Clone, Copy, Debug, PartialEq, Eq)]
pub struct Fill {
    pub number: u32,
    pub quantity: u32,
    pub price: u32,
}

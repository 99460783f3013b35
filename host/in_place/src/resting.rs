//! The places where orders rest.

use crate::limits::PLACES;

#[derive(Clone, Copy, Debug, PartialEq, Eq)]
pub enum Kind {
    BuyOpen = 1,
    SellClose,
    SellOpen,
    BuyClose,
    CoveredOpen,
    CoveredClose,
}

impl Kind {
    #[inline(always)]
    pub fn from_code(code: u16) -> Option<Kind> {
        Some(match code {
            1 => Kind::BuyOpen,
            2 => Kind::SellClose,
            3 => Kind::SellOpen,
            4 => Kind::BuyClose,
            5 => Kind::CoveredOpen,
            6 => Kind::CoveredClose,
            _ => return None,
        })
    }

    /// The count of a contract that it moves: 0 long, 1 short, 2 covered.
    #[inline(always)]
    pub fn side(self) -> usize {
        (self as usize - 1) / 2
    }

    #[inline(always)]
    pub fn buys(self) -> bool {
        matches!(self, Kind::BuyOpen | Kind::BuyClose | Kind::CoveredClose)
    }
}

#[derive(Clone, Copy, Debug)]
pub struct Resting {
    /// What one contract of it holds: its premium, its margin, or nothing.
    pub hold: i64,
    pub price: u32,
    pub left: u32,
    pub contract: u8,
    pub kind: Kind,
}

/// Numbers stand apart, so that all of them can be compared at once.
#[derive(Clone, Copy, Debug)]
pub struct Places {
    numbers: [u32; PLACES],
    orders: [Resting; PLACES],
    /// A bit for each place that is free.
    free: u32,
    /// By the last bits of its number, where an order may rest: numbers rise, so that those that rest together seldom share these bits.
    hints: [u8; HINTS],
}

const HINTS: usize = 64;

impl Places {
    pub const fn new() -> Places {
        let nothing = Resting {
            hold: 0,
            price: 0,
            left: 0,
            contract: 0,
            kind: Kind::BuyOpen,
        };
        Places {
            numbers: [0; PLACES],
            orders: [nothing; PLACES],
            free: u32::MAX,
            hints: [0; HINTS],
        }
    }

    #[inline(always)]
    pub fn full(&self) -> bool {
        self.free == 0
    }

    /// The lowest free place is taken; there is one.
    #[inline(always)]
    pub fn rest(&mut self, number: u32, order: Resting) {
        let place = self.free.trailing_zeros() as usize % PLACES;
        self.free &= self.free - 1;
        self.numbers[place] = number;
        self.hints[number as usize % HINTS] = place as u8;
        self.orders[place] = order;
    }

    /// The place of the order with this number. A place that is free keeps the last number that was there.
    #[inline(always)]
    pub fn find(&self, number: u32) -> Option<usize> {
        let hint = usize::from(self.hints[number as usize % HINTS]) % PLACES;
        if self.numbers[hint] == number && self.free >> hint & 1 == 0 {
            return Some(hint);
        }
        self.search(number)
    }

    #[cold]
    fn search(&self, number: u32) -> Option<usize> {
        let mut hits = 0;
        for (place, &resting) in self.numbers.iter().enumerate() {
            hits |= u32::from(resting == number) << place;
        }
        hits &= !self.free;
        if hits == 0 {
            None
        } else {
            Some(hits.trailing_zeros() as usize)
        }
    }

    #[inline(always)]
    pub fn at(&self, place: usize) -> &Resting {
        &self.orders[place % PLACES]
    }

    /// So much is left of the order; with nothing left its place is free. Whether it is can't be foreseen, so nothing branches on it.
    #[inline(always)]
    pub fn reduce(&mut self, place: usize, left: u32) {
        self.orders[place % PLACES].left = left;
        self.free |= u32::from(left == 0) << (place % PLACES);
    }

    pub fn clear(&mut self) {
        self.free = u32::MAX;
    }
}

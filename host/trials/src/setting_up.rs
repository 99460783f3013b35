//! Random set-up: rows at the ends of their ranges and past them, records out of their place, openings too early and too rich.

use crate::booking::Booking;
use crate::making::{opening_cash, MOST_PRICE};
use plain::book::Book;
use plain::entry::Entry;
use plain::terms::{Class, Contract, Right, Underlying};

impl Booking {
    /// Underlyings, contracts, the opening; strays are most likely where one gives way to the next. A few books are never opened.
    pub(crate) fn set_up(&mut self) {
        for row in 0..self.chance.pick(&[1, 1, 2, 2, 3, 8, 9]) {
            self.stray(if row == 0 { 35 } else { 10 });
            let row = self.underlying();
            self.put(&Entry::Underlying(row));
        }
        for row in 0..self.chance.pick(&[1, 2, 3, 5, 12, 64, 65]) {
            self.stray(if row == 0 { 35 } else { 10 });
            let row = self.contract();
            self.put(&Entry::Contract(row));
        }
        self.stray(35);
        while matches!(self.book, Book::SettingUp(_)) && self.chance.percent(95) {
            let opening = self.opening();
            self.put(&opening);
        }
    }

    /// With some chance a record that is most likely refused; the next row then takes the number that this one did not.
    fn stray(&mut self, share: u64) {
        if !self.chance.percent(share) {
            return;
        }
        let early = self.book.tables().contracts.is_empty();
        let opening = if early { 20 } else { 2 };
        let entry = match self.chance.weighted(&[30, 30, 3, 3, 25, opening]) {
            0 => Entry::Underlying(self.spoiled_underlying()),
            1 => Entry::Contract(self.spoiled_contract()),
            2 => Entry::Underlying(self.underlying()),
            3 => Entry::Contract(self.contract()),
            4 => self.entry(),
            _ => self.opening(),
        };
        self.put(&entry);
    }

    fn opening(&mut self) -> Entry {
        Entry::Opening {
            cash: opening_cash(&mut self.chance) as u64,
        }
    }

    fn underlying(&mut self) -> Underlying {
        let close = match self.chance.weighted(&[70, 20, 5, 5]) {
            0 => self.chance.between(1_000, 100_000) as u32,
            1 => self.chance.between(1, 100) as u32,
            2 => 1,
            _ => MOST_PRICE,
        };
        let limits = [5, 20, 50, 100, 1_000, 10_000, 10_000, 0];
        let limits = [(); 3].map(|()| self.chance.pick(&limits));
        let class = self.chance.pick(&[Class::Stock, Class::Fund]);
        Underlying::new(class, close, limits)
    }

    fn spoiled_underlying(&mut self) -> Underlying {
        let mut row = self.underlying();
        let limit = self.chance.pick(&[10_001, 65_535]);
        match self.chance.between(0, 3) {
            0 => row.close = self.chance.pick(&[0, MOST_PRICE + 1, u32::MAX]),
            1 => row.rights = limit,
            2 => row.total = limit,
            _ => row.daily = limit,
        }
        row
    }

    /// On one of the underlyings, or on number 0 where there is none.
    fn contract(&mut self) -> Contract {
        let underlyings = self.book.tables().underlyings.len() as i64;
        let underlying = self.chance.between(0, underlyings - 1) as u16;
        let row = self.book.tables().underlyings.get(usize::from(underlying));
        let close = i64::from(row.map_or(25_000, |row| row.close));
        let near = close * self.chance.between(50, 150) / 100;
        let strike = match self.chance.weighted(&[80, 10, 5, 5]) {
            0 => near,
            1 => close,
            2 => 1,
            _ => MOST_PRICE.into(),
        };
        let most = MOST_PRICE.into();
        let settlement = match self.chance.weighted(&[70, 20, 10]) {
            0 => self.chance.between(0, close / 5),
            1 => 0,
            _ => self.chance.pick(&[1, most]),
        };
        let unit = self
            .chance
            .pick(&[100, 100, 1_000, 5_000, 10_000, 10_000, 100_000]);
        let right = self.chance.pick(&[Right::Call, Right::Call, Right::Put]);
        let strike = strike.clamp(1, most) as u32;
        Contract::new(underlying, right, [strike, unit, settlement as u32])
    }

    fn spoiled_contract(&mut self) -> Contract {
        let mut row = self.contract();
        let next = self.book.tables().underlyings.len() as u16;
        let past = self.chance.pick(&[MOST_PRICE + 1, u32::MAX]);
        let units = [0, 50, 99, 150, 10_001, 99_999, 100_001, 100_100, u32::MAX];
        match self.chance.between(0, 3) {
            0 => row.underlying = self.chance.pick(&[next, next, next + 1, 8, 65_535]),
            1 => row.strike = self.chance.pick(&[0, past]),
            2 => row.unit = self.chance.pick(&units),
            _ => row.settlement = past,
        }
        row
    }
}

//! One row for each underlying and each contract: what the tables say of it, and what the account has of it.

use crate::limits::UNIT_STEP;

/// Rooms are what the limits still leave, spare what is locked and neither covers nor is reserved.
#[derive(Clone, Copy, Debug, Default)]
pub struct Underlying {
    pub stock: bool,
    pub close: u32,
    pub limits: Limits,
    pub room: Limits,
    pub locked: u64,
    pub spare: u64,
}

#[derive(Clone, Copy, Debug, Default)]
pub struct Limits {
    pub rights: u32,
    pub total: u32,
    pub daily: u32,
}

/// Of long, short and covered each: `held`, and `closable`, which is that less resting closes.
#[derive(Clone, Copy, Debug, Default)]
pub struct Contract {
    /// The unit in hundreds, so that a premium is exact and needs no division.
    pub lot: u32,
    pub underlying: u8,
    pub put: bool,
    /// The percentages r and f of its margin.
    pub rate: u8,
    pub floor: u8,
    pub held: [u32; 3],
    pub closable: [u32; 3],
    /// Of one contract, at the figures in force; unknown until it is asked for.
    margin: Option<i64>,
    pub strike: u32,
    pub settlement: u32,
}

impl Contract {
    /// On an underlying that is a stock or a fund; a unit is a multiple of 100.
    pub fn new(underlying: u8, stock: bool, put: bool, figures: [u32; 3]) -> Contract {
        let [strike, unit, settlement] = figures;
        let (rate, floor) = match (stock, put) {
            (true, false) => (21, 10),
            (true, true) => (19, 10),
            (false, _) => (12, 7),
        };
        Contract {
            lot: unit / UNIT_STEP,
            underlying,
            put,
            rate,
            floor,
            strike,
            settlement,
            ..Contract::default()
        }
    }

    #[inline(always)]
    pub fn premium(&self, price: u32) -> i64 {
        i64::from(price) * i64::from(self.lot)
    }

    #[inline(always)]
    pub fn open(&mut self, side: usize, quantity: u32) {
        self.held[side] += quantity;
        self.closable[side] += quantity;
    }

    /// The order that closes has been taken off what is closable before.
    #[inline(always)]
    pub fn close(&mut self, side: usize, quantity: u32, room: &mut Limits) {
        self.held[side] -= quantity;
        room.total += quantity;
    }

    #[inline(always)]
    pub fn units(&self, count: u32) -> u64 {
        u64::from(count) * u64::from(self.lot * UNIT_STEP)
    }

    /// Worked out once a day, and only if something is sold short.
    #[inline(always)]
    pub fn margin(&mut self, close: u32) -> i64 {
        match self.margin {
            Some(margin) => margin,
            None => {
                let margin = self.work_margin(close);
                self.margin = Some(margin);
                margin
            }
        }
    }

    #[inline(always)]
    pub fn settle(&mut self, settlement: u32) {
        self.settlement = settlement;
        self.margin = None;
    }

    /// Document 000, articles 14, 15 and 18 to 20, at the underlying's close.
    fn work_margin(&self, close: u32) -> i64 {
        let [settlement, close, strike] = [self.settlement, close, self.strike].map(i64::from);
        let [rate, floor] = [self.rate, self.floor].map(i64::from);
        // The difference may fall below zero, and then the floor stands.
        let amount = if self.put {
            let out = (close - strike).max(0);
            let uncapped = 100 * settlement + (rate * close - 100 * out).max(floor * strike);
            uncapped.min(100 * strike)
        } else {
            let out = (strike - close).max(0);
            100 * settlement + (rate * close - 100 * out).max(floor * close)
        };
        // Halves up, and for one contract: a count multiplies what is rounded. The amount is positive, and unsigned division is quicker.
        ((u64::from(self.lot) * amount as u64 + 50) / 100) as i64
    }

    /// Long against short first, then what is left of long against covered. No order rests any more, so all that is left can be closed.
    pub fn net(&mut self) {
        let [long, short, covered] = self.held;
        let off_short = long.min(short);
        let off_covered = (long - off_short).min(covered);
        self.held = [
            long - off_short - off_covered,
            short - off_short,
            covered - off_covered,
        ];
        self.closable = self.held;
    }
}

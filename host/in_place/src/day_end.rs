//! The day end, the one entry that goes through all rows.

use crate::bytes::{fours, Figures};
use crate::desk::Desk;
use crate::limits::{require, Refusal, Verdict, PRICE, SETTLEMENT};

impl Desk {
    pub fn day_end(&mut self, figures: &Figures) -> Verdict {
        let counts = (figures.settlements.len() / 4, figures.closes.len() / 4);
        require(counts == (self.n, self.m), Refusal::OutOfRange)?;
        // No early end, so that several figures are compared at once.
        let settlements =
            fours(figures.settlements).fold(true, |all, figure| all & SETTLEMENT.contains(&figure));
        let closes = fours(figures.closes).fold(true, |all, figure| all & PRICE.contains(&figure));
        require(settlements && closes, Refusal::OutOfRange)?;
        self.places.clear();
        self.cash += std::mem::take(&mut self.premium);
        let margin = self.work_afresh(figures);
        self.available = self.cash - self.waiting - margin;
        Ok(())
    }

    /// New figures, positions netted, rooms and units after them; the margin is the answer.
    fn work_afresh(&mut self, figures: &Figures) -> i64 {
        let underlyings = &mut self.underlyings[..self.m];
        for (row, close) in underlyings.iter_mut().zip(fours(figures.closes)) {
            row.close = close;
            row.room = row.limits;
            // What covers stays locked, the rest is released (document 002, question 13).
            row.locked = 0;
            row.spare = 0;
        }
        let mut margin = 0;
        let contracts = self.contracts[..self.n].iter_mut();
        for (row, settlement) in contracts.zip(fours(figures.settlements)) {
            let underlying = &mut self.underlyings[usize::from(row.underlying)];
            row.settle(settlement);
            row.net();
            let [long, short, covered] = row.held;
            underlying.room.rights -= long;
            underlying.room.total -= long + short + covered;
            underlying.locked += row.units(covered);
            if short != 0 {
                margin += i64::from(short) * row.margin(underlying.close);
            }
        }
        margin
    }
}

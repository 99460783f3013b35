//! Money in and out, and units locked and released.

use crate::desk::Desk;
use crate::limits::{require, Refusal, Verdict};
use crate::limits::{LOCKED_CEILING, MONEY_CEILING, TRANSFER, UNITS_AT_ONCE};
use crate::rows::Underlying;

impl Desk {
    pub fn deposit(&mut self, amount: u64) -> Verdict {
        require(TRANSFER.contains(&amount), Refusal::OutOfRange)?;
        self.below_ceiling(amount as i64)?;
        self.cash += amount as i64;
        self.available += amount as i64;
        Ok(())
    }

    /// Cash plus covered premium, with so much more.
    #[inline(always)]
    pub fn below_ceiling(&self, more: i64) -> Verdict {
        let sum = self.cash + self.premium + more;
        require(sum <= MONEY_CEILING, Refusal::CeilingPassed)
    }

    /// What is asked for is held until it is paid or dropped.
    pub fn withdraw(&mut self, amount: u64) -> Verdict {
        require(TRANSFER.contains(&amount), Refusal::OutOfRange)?;
        require(self.waiting == 0, Refusal::AlreadyWaiting)?;
        let amount = amount as i64;
        require(amount <= self.available, Refusal::AvailablePassed)?;
        self.waiting = amount;
        self.available -= amount;
        Ok(())
    }

    /// The hold goes with the cash, so available stays.
    pub fn pay(&mut self) -> Verdict {
        self.cash -= self.waited()?;
        Ok(())
    }

    pub fn drop(&mut self) -> Verdict {
        self.available += self.waited()?;
        Ok(())
    }

    fn waited(&mut self) -> Result<i64, Refusal> {
        require(self.waiting != 0, Refusal::NothingWaiting)?;
        Ok(std::mem::take(&mut self.waiting))
    }

    pub fn lock(&mut self, underlying: u16, units: u32) -> Verdict {
        let row = self.units_on(underlying, units)?;
        let units = u64::from(units);
        require(row.locked + units <= LOCKED_CEILING, Refusal::CeilingPassed)?;
        row.locked += units;
        row.spare += units;
        Ok(())
    }

    pub fn unlock(&mut self, underlying: u16, units: u32) -> Verdict {
        let row = self.units_on(underlying, units)?;
        let units = u64::from(units);
        require(units <= row.spare, Refusal::SpareTooFew)?;
        row.locked -= units;
        row.spare -= units;
        Ok(())
    }

    fn units_on(&mut self, underlying: u16, units: u32) -> Result<&mut Underlying, Refusal> {
        require(UNITS_AT_ONCE.contains(&units), Refusal::OutOfRange)?;
        let rows = &mut self.underlyings[..self.m];
        rows.get_mut(usize::from(underlying))
            .ok_or(Refusal::OutOfRange)
    }
}

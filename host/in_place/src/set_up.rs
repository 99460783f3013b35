//! The records of the set-up: underlyings, contracts, and the opening.

use crate::bytes::{four, two};
use crate::limits::{require, Refusal, Verdict, CONTRACTS, UNDERLYINGS};
use crate::limits::{LIMIT, OPENING_CASH, PRICE, SETTLEMENT, UNIT, UNIT_STEP};
use crate::rows::{Contract, Limits, Underlying};
use crate::run::{Book, Stage};

impl Book {
    pub(crate) fn underlying(&mut self, record: &[u8; 16]) -> Verdict {
        let class = two(record, 4);
        require((1..=2).contains(&class), Refusal::Misshapen)?;
        require(self.stage == Stage::Underlyings, Refusal::OutOfPlace)?;
        let close = four(record, 6);
        let limits = [10, 12, 14].map(|at| two(record, at));
        let allowed = PRICE.contains(&close) && limits.iter().all(|limit| LIMIT.contains(limit));
        let desk = &mut self.desk;
        require(allowed && desk.m < UNDERLYINGS, Refusal::OutOfRange)?;
        let [rights, total, daily] = limits.map(u32::from);
        let limits = Limits {
            rights,
            total,
            daily,
        };
        desk.underlyings[desk.m] = Underlying {
            stock: class == 1,
            close,
            limits,
            room: limits,
            ..Underlying::default()
        };
        desk.m += 1;
        Ok(())
    }

    pub(crate) fn contract(&mut self, record: &[u8; 20]) -> Verdict {
        let (underlying, right) = (two(record, 4), two(record, 6));
        require((1..=2).contains(&right), Refusal::Misshapen)?;
        require(self.stage != Stage::Entries, Refusal::OutOfPlace)?;
        let [strike, unit, settlement] = [8, 12, 16].map(|at| four(record, at));
        let unit_allowed = UNIT.contains(&unit) && unit % UNIT_STEP == 0;
        let allowed = PRICE.contains(&strike) && unit_allowed && SETTLEMENT.contains(&settlement);
        let desk = &mut self.desk;
        require(allowed && desk.n < CONTRACTS, Refusal::OutOfRange)?;
        let rows = &desk.underlyings[..desk.m];
        let row = rows.get(usize::from(underlying));
        let row = row.ok_or(Refusal::OutOfRange)?;
        let figures = [strike, unit, settlement];
        desk.contracts[desk.n] = Contract::new(underlying as u8, row.stock, right == 2, figures);
        desk.n += 1;
        self.stage = Stage::Contracts;
        Ok(())
    }

    pub(crate) fn opening(&mut self, cash: u64) -> Verdict {
        require(self.stage == Stage::Contracts, Refusal::OutOfPlace)?;
        require(OPENING_CASH.contains(&cash), Refusal::OutOfRange)?;
        self.desk.cash = cash as i64;
        self.desk.available = cash as i64;
        self.stage = Stage::Entries;
        Ok(())
    }
}

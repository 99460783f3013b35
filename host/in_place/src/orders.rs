//! An order: its checks in the order of document 01's table, each against a number that is kept.

use crate::bytes::{four, two};
use crate::desk::Desk;
use crate::limits::{require, Refusal, Verdict, PRICE, QUANTITY};
use crate::resting::{Kind, Resting};
use crate::rows::{Contract, Underlying};

pub struct Order {
    number: u32,
    contract: u16,
    kind: Kind,
    quantity: u32,
    price: u32,
}

impl Order {
    #[inline(always)]
    pub fn read(record: &[u8; 20]) -> Result<Order, Refusal> {
        Ok(Order {
            number: four(record, 4),
            contract: two(record, 8),
            kind: Kind::from_code(two(record, 10)).ok_or(Refusal::Misshapen)?,
            quantity: four(record, 12),
            price: four(record, 16),
        })
    }

    /// Columns 9 to 14, and what they leave of the rooms. What one contract holds is the answer.
    #[inline(always)]
    fn take(
        &self,
        contract: &mut Contract,
        underlying: &mut Underlying,
        available: i64,
    ) -> Result<i64, Refusal> {
        let quantity = self.quantity;
        let room = &mut underlying.room;
        match self.kind {
            Kind::BuyOpen => {
                require(quantity <= room.rights, Refusal::RightsPassed)?;
                require(quantity <= room.total, Refusal::TotalPassed)?;
                require(quantity <= room.daily, Refusal::DailyPassed)?;
                let hold = self.hold(contract.premium(self.price), available)?;
                room.rights -= quantity;
                room.total -= quantity;
                room.daily -= quantity;
                Ok(hold)
            }
            Kind::SellOpen => {
                require(quantity <= room.total, Refusal::TotalPassed)?;
                let hold = self.hold(contract.margin(underlying.close), available)?;
                room.total -= quantity;
                Ok(hold)
            }
            Kind::CoveredOpen => {
                require(quantity <= room.total, Refusal::TotalPassed)?;
                let units = contract.units(quantity);
                require(units <= underlying.spare, Refusal::SpareTooFew)?;
                room.total -= quantity;
                underlying.spare -= units;
                Ok(0)
            }
            Kind::SellClose | Kind::BuyClose | Kind::CoveredClose => {
                self.close(contract, available)
            }
        }
    }

    #[inline(always)]
    fn close(&self, contract: &mut Contract, available: i64) -> Result<i64, Refusal> {
        let premium = contract.premium(self.price);
        let closable = &mut contract.closable[self.kind.side()];
        require(self.quantity <= *closable, Refusal::PositionTooSmall)?;
        let hold = if self.kind.buys() {
            self.hold(premium, available)?
        } else {
            0
        };
        *closable -= self.quantity;
        Ok(hold)
    }

    /// Also a hold of 0 is refused against an available sum below zero.
    #[inline(always)]
    fn hold(&self, one: i64, available: i64) -> Result<i64, Refusal> {
        let within = i64::from(self.quantity) * one <= available;
        require(within, Refusal::AvailablePassed)?;
        Ok(one)
    }
}

impl Desk {
    #[inline(always)]
    pub fn order(&mut self, order: &Order) -> Verdict {
        let rows = &mut self.contracts[..self.n];
        let contract = rows.get_mut(usize::from(order.contract));
        let contract = contract.ok_or(Refusal::OutOfRange)?;
        let allowed = QUANTITY.contains(&order.quantity) && PRICE.contains(&order.price);
        // Covered is for calls only.
        let covered_put = contract.put && order.kind.side() == 2;
        require(allowed && !covered_put, Refusal::OutOfRange)?;
        require(self.last < order.number, Refusal::StaleNumber)?;
        require(!self.places.full(), Refusal::OrdersFull)?;
        let underlying = &mut self.underlyings[usize::from(contract.underlying)];
        let hold = order.take(contract, underlying, self.available)?;
        self.available -= i64::from(order.quantity) * hold;
        self.last = order.number;
        let rested = Resting {
            hold,
            price: order.price,
            left: order.quantity,
            contract: order.contract as u8,
            kind: order.kind,
        };
        self.places.rest(order.number, rested);
        Ok(())
    }
}

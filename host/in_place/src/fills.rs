//! Fills and cancels of resting orders.

use crate::bytes::four;
use crate::desk::Desk;
use crate::limits::{require, Refusal, Verdict, PRICE, QUANTITY};
use crate::resting::{Kind, Resting};

pub struct Fill {
    number: u32,
    quantity: u32,
    price: u32,
}

impl Fill {
    #[inline(always)]
    pub fn read(record: &[u8; 16]) -> Fill {
        Fill {
            number: four(record, 4),
            quantity: four(record, 8),
            price: four(record, 12),
        }
    }
}

impl Desk {
    #[inline(always)]
    pub fn fill(&mut self, fill: &Fill) -> Verdict {
        let allowed = QUANTITY.contains(&fill.quantity) && PRICE.contains(&fill.price);
        require(allowed, Refusal::OutOfRange)?;
        let place = self.places.find(fill.number).ok_or(Refusal::NoSuchOrder)?;
        let order = *self.places.at(place);
        // A buy may not fill above its price nor a sell below it.
        let buys = order.kind.buys();
        let barred = if buys {
            order.price < fill.price
        } else {
            fill.price < order.price
        };
        let meets = fill.quantity <= order.left && !barred;
        require(meets, Refusal::FillBarred)?;
        let premium = self.contracts[usize::from(order.contract)].premium(fill.price);
        let money = i64::from(fill.quantity) * premium;
        if !buys {
            self.below_ceiling(money)?;
        }
        self.settle(&order, fill.quantity, money);
        self.places.reduce(place, order.left - fill.quantity);
        Ok(())
    }

    /// An open that is filled still counts against the rooms, and its reserved units now cover; a close that is filled gives room back.
    #[inline(always)]
    fn settle(&mut self, order: &Resting, quantity: u32, money: i64) {
        let contract = &mut self.contracts[usize::from(order.contract)];
        let underlying = &mut self.underlyings[usize::from(contract.underlying)];
        let freed = i64::from(quantity) * order.hold;
        let side = order.kind.side();
        match order.kind {
            Kind::BuyOpen => {
                contract.open(side, quantity);
                self.pay_premium(money, freed);
            }
            Kind::SellClose => {
                contract.close(side, quantity, &mut underlying.room);
                underlying.room.rights += quantity;
                self.receive(money);
            }
            // What was held for the margin is the margin now.
            Kind::SellOpen => {
                contract.open(side, quantity);
                self.receive(money);
            }
            Kind::BuyClose => {
                contract.close(side, quantity, &mut underlying.room);
                let margin = i64::from(quantity) * contract.margin(underlying.close);
                self.pay_premium(money, freed + margin);
            }
            // What a covered open receives can't be used today (document 000, article 11).
            Kind::CoveredOpen => {
                contract.open(side, quantity);
                self.premium += money;
            }
            Kind::CoveredClose => {
                contract.close(side, quantity, &mut underlying.room);
                underlying.spare += contract.units(quantity);
                self.pay_premium(money, freed);
            }
        }
    }

    #[inline(always)]
    fn pay_premium(&mut self, money: i64, freed: i64) {
        self.cash -= money;
        self.available += freed - money;
    }

    #[inline(always)]
    fn receive(&mut self, money: i64) {
        self.cash += money;
        self.available += money;
    }

    #[inline(always)]
    pub fn cancel(&mut self, number: u32) -> Verdict {
        let place = self.places.find(number).ok_or(Refusal::NoSuchOrder)?;
        let order = *self.places.at(place);
        let contract = &mut self.contracts[usize::from(order.contract)];
        let underlying = &mut self.underlyings[usize::from(contract.underlying)];
        let room = &mut underlying.room;
        match order.kind {
            Kind::BuyOpen => {
                room.rights += order.left;
                room.total += order.left;
                room.daily += order.left;
            }
            Kind::SellOpen => room.total += order.left,
            Kind::CoveredOpen => {
                room.total += order.left;
                underlying.spare += contract.units(order.left);
            }
            Kind::SellClose | Kind::BuyClose | Kind::CoveredClose => {
                contract.closable[order.kind.side()] += order.left;
            }
        }
        self.available += i64::from(order.left) * order.hold;
        self.places.reduce(place, 0);
        Ok(())
    }
}

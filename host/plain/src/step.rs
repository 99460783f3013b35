//! One entry booked on an open account: every check stands before the first change, so a refusal leaves the account equal.

use crate::account::Desk;
use crate::entry::{Entry, Fill, Order};
use crate::require;
use crate::rules::{net, premium_of_one};
use crate::terms::{within, Kind, Right, PLACES};
use crate::terms::{PRICE, QUANTITY, SETTLEMENT, TRANSFER, UNITS_AT_ONCE};

impl Desk {
    pub fn step(&mut self, entry: &Entry) -> Result<(), u8> {
        match entry {
            Entry::Deposit { amount } => self.deposit(*amount),
            Entry::Withdraw { amount } => self.withdraw(*amount),
            Entry::Lock { underlying, units } => self.lock(*underlying, *units),
            Entry::Unlock { underlying, units } => self.unlock(*underlying, *units),
            Entry::Order(order) => self.order(order),
            Entry::Fill(fill) => self.fill(fill),
            Entry::Cancel { number } => self.cancel(*number),
            Entry::DayEnd {
                settlements,
                closes,
            } => self.day_end(settlements, closes),
            Entry::Pay => self.pay(),
            Entry::Drop => self.waited().map(|_| ()),
            Entry::Underlying(_) | Entry::Contract(_) | Entry::Opening { .. } => Err(5),
        }
    }

    fn deposit(&mut self, amount: u64) -> Result<(), u8> {
        require(within(amount, TRANSFER), 4)?;
        require(amount as i64 <= self.account.money_room(), 15)?;
        self.account.cash += amount as i64;
        Ok(())
    }

    /// The bank takes minutes to pay: cash stays, and the amount is held until then, so that no order can use it.
    fn withdraw(&mut self, amount: u64) -> Result<(), u8> {
        require(within(amount, TRANSFER), 4)?;
        require(self.account.waiting.is_none(), 20)?;
        require(amount as i64 <= self.available(), 14)?;
        self.account.waiting = Some(amount as i64);
        Ok(())
    }

    /// What waits, which is held no more from here on.
    fn waited(&mut self) -> Result<i64, u8> {
        self.account.waiting.take().ok_or(19)
    }

    fn pay(&mut self) -> Result<(), u8> {
        // What was accepted was available, a fill pays at most its share of the hold, and a day end takes no cash.
        assert!(self.holds() <= self.account.cash, "holds never pass cash");
        self.account.cash -= self.waited()?;
        Ok(())
    }

    fn units_allowed(&self, underlying: u16, units: u32) -> bool {
        usize::from(underlying) < self.tables.underlyings.len() && within(units, UNITS_AT_ONCE)
    }

    fn lock(&mut self, underlying: u16, units: u32) -> Result<(), u8> {
        require(self.units_allowed(underlying, units), 4)?;
        require(i64::from(units) <= self.lock_room(underlying), 15)?;
        self.account.holdings[usize::from(underlying)].locked += i64::from(units);
        Ok(())
    }

    fn unlock(&mut self, underlying: u16, units: u32) -> Result<(), u8> {
        require(self.units_allowed(underlying, units), 4)?;
        require(i64::from(units) <= self.spare(underlying), 13)?;
        self.account.holdings[usize::from(underlying)].locked -= i64::from(units);
        Ok(())
    }

    fn order(&mut self, order: &Order) -> Result<(), u8> {
        require(self.order_allowed(order), 4)?;
        require(self.account.last < order.number, 6)?;
        let place = self.account.lowest_free_place().ok_or(8)?;
        self.check_counts(order)?;
        if order.kind.holds_money() {
            // Also for a hold of 0: against an available sum below zero it is refused.
            require(self.hold(order) <= self.available(), 14)?;
        }
        if order.kind == Kind::BuyOpen {
            let underlying = usize::from(self.contract(order).underlying);
            self.account.holdings[underlying].bought += i64::from(order.quantity);
        }
        self.account.orders[place] = Some(*order);
        self.account.last = order.number;
        Ok(())
    }

    fn order_allowed(&self, order: &Order) -> bool {
        let contract = self.tables.contracts.get(usize::from(order.contract));
        let listed = contract.map_or(false, |contract| {
            contract.right == Right::Call || !order.kind.covered()
        });
        listed && within(order.quantity, QUANTITY) && within(order.price, PRICE)
    }

    /// Columns 9 to 13 of the table of checks.
    fn check_counts(&self, order: &Order) -> Result<(), u8> {
        let contract = self.contract(order);
        let underlying = contract.underlying;
        let quantity = i64::from(order.quantity);
        if !order.kind.opens() {
            require(quantity <= self.closable(order.contract, order.kind), 9)?;
        }
        if order.kind == Kind::BuyOpen {
            require(quantity <= self.rights_room(underlying), 10)?;
        }
        if order.kind.opens() {
            require(quantity <= self.total_room(underlying), 11)?;
        }
        if order.kind == Kind::BuyOpen {
            require(quantity <= self.daily_room(underlying), 12)?;
        }
        if order.kind == Kind::CoveredOpen {
            let units = quantity * i64::from(contract.unit);
            require(units <= self.spare(underlying), 13)?;
        }
        Ok(())
    }

    fn fill(&mut self, fill: &Fill) -> Result<(), u8> {
        require(within(fill.quantity, QUANTITY), 4)?;
        require(within(fill.price, PRICE), 4)?;
        let (place, order) = self.account.find(fill.number).ok_or(7)?;
        require(fill.quantity <= order.quantity, 16)?;
        require(!barred(&order, fill.price), 16)?;
        let unit = self.contract(&order).unit;
        let money = i64::from(fill.quantity) * premium_of_one(fill.price, unit);
        if order.kind.buys() {
            // 18 before #112. Its order held as much for it, and what is held never passes cash.
            assert!(money <= self.account.cash, "no fill brings cash below zero");
        } else {
            require(money <= self.account.money_room(), 15)?;
        }
        self.settle(order.kind, money);
        self.move_position(&order, i64::from(fill.quantity));
        let left = order.quantity - fill.quantity;
        let rest = Order {
            quantity: left,
            ..order
        };
        self.account.orders[place] = if left == 0 { None } else { Some(rest) };
        Ok(())
    }

    /// What a covered open receives can't be used today (document 000, article 11).
    fn settle(&mut self, kind: Kind, money: i64) {
        if kind.buys() {
            self.account.cash -= money;
        } else if kind == Kind::CoveredOpen {
            self.account.covered_premium += money;
        } else {
            self.account.cash += money;
        }
    }

    fn move_position(&mut self, order: &Order, quantity: i64) {
        let position = &mut self.account.positions[usize::from(order.contract)];
        let moved = if order.kind.opens() {
            quantity
        } else {
            -quantity
        };
        *position.side(order.kind) += moved;
    }

    fn cancel(&mut self, number: u32) -> Result<(), u8> {
        let (place, order) = self.account.find(number).ok_or(7)?;
        if order.kind == Kind::BuyOpen {
            let underlying = usize::from(self.contract(&order).underlying);
            self.account.holdings[underlying].bought -= i64::from(order.quantity);
        }
        self.account.orders[place] = None;
        Ok(())
    }

    /// In the order of "Day end"; the last accepted number is kept, and so is what waits to be paid out.
    fn day_end(&mut self, settlements: &[u32], closes: &[u32]) -> Result<(), u8> {
        require(settlements.len() == self.tables.contracts.len(), 4)?;
        require(closes.len() == self.tables.underlyings.len(), 4)?;
        require(settlements.iter().all(|&s| within(s, SETTLEMENT)), 4)?;
        require(closes.iter().all(|&close| within(close, PRICE)), 4)?;
        self.account.orders = [None; PLACES];
        for position in &mut self.account.positions {
            *position = net(*position);
        }
        for (contract, settlement) in self.tables.contracts.iter_mut().zip(settlements) {
            contract.settlement = *settlement;
        }
        for (underlying, close) in self.tables.underlyings.iter_mut().zip(closes) {
            underlying.close = *close;
        }
        self.account.cash += self.account.covered_premium;
        self.account.covered_premium = 0;
        for underlying in 0..closes.len() {
            let cover = self.cover(underlying as u16);
            let holding = &mut self.account.holdings[underlying];
            holding.bought = 0;
            // The rest is released (document 002, question 13).
            holding.locked = cover;
        }
        Ok(())
    }
}

/// A buy may not fill above its price nor a sell below it.
fn barred(order: &Order, price: u32) -> bool {
    if order.kind.buys() {
        order.price < price
    } else {
        price < order.price
    }
}

//! The account beside its tables, and every sum that document 01 makes over the two.

use crate::entry::Order;
use crate::require;
use crate::rules::{margin_of_one, premium_of_one};
use crate::terms::{within, Contract, Kind, Tables, LOCKED_CEILING, MONEY_CEILING};
use crate::terms::{OPENING_CASH, PLACES};

/// Signed, so that a difference that falls short is seen and not wrapped.
#[derive(Clone, Copy, Debug, Default, PartialEq, Eq)]
pub struct Position {
    pub long: i64,
    pub short: i64,
    pub covered: i64,
}

impl Position {
    /// The count that an order of this kind moves.
    pub fn side(&mut self, kind: Kind) -> &mut i64 {
        match kind {
            Kind::BuyOpen | Kind::SellClose => &mut self.long,
            Kind::SellOpen | Kind::BuyClose => &mut self.short,
            Kind::CoveredOpen | Kind::CoveredClose => &mut self.covered,
        }
    }
}

/// What the account has of one underlying: locked units, and contracts bought to open today.
#[derive(Clone, Copy, Debug, Default, PartialEq, Eq)]
pub struct Holding {
    pub locked: i64,
    pub bought: i64,
}

/// No sum stands here but cash, covered premium and the amount that waits to be paid out: holds, margin and available are worked out
/// when asked for.
#[derive(Clone, Debug, PartialEq, Eq)]
pub struct Account {
    pub positions: Vec<Position>,
    pub holdings: Vec<Holding>,
    pub cash: i64,
    pub covered_premium: i64,
    /// Asked for, and neither paid nor dropped yet.
    pub waiting: Option<i64>,
    pub orders: [Option<Order>; PLACES],
    pub last: u32,
}

impl Account {
    pub fn resting(&self) -> impl Iterator<Item = &Order> {
        self.orders.iter().flatten()
    }

    /// The place of a resting order and the order, by its number.
    pub fn find(&self, number: u32) -> Option<(usize, Order)> {
        let numbered = |order: &Option<Order>| order.filter(|order| order.number == number);
        self.orders
            .iter()
            .enumerate()
            .find_map(|(place, order)| numbered(order).map(|order| (place, order)))
    }

    pub fn lowest_free_place(&self) -> Option<usize> {
        self.orders.iter().position(Option::is_none)
    }

    /// What may still come in below the ceiling of cash plus covered premium.
    pub fn money_room(&self) -> i64 {
        MONEY_CEILING - self.cash - self.covered_premium
    }
}

#[derive(Clone, Debug, PartialEq, Eq)]
pub struct Desk {
    pub tables: Tables,
    pub account: Account,
}

impl Desk {
    /// An opening: with no contract it is out of its place, and then every value is to be in its range.
    pub fn open(tables: &Tables, cash: u64) -> Result<Desk, u8> {
        require(!tables.contracts.is_empty(), 5)?;
        require(tables.allowed() && within(cash, OPENING_CASH), 4)?;
        Ok(Desk {
            tables: tables.clone(),
            account: Account {
                positions: vec![Position::default(); tables.contracts.len()],
                holdings: vec![Holding::default(); tables.underlyings.len()],
                cash: cash as i64,
                covered_premium: 0,
                waiting: None,
                orders: [None; PLACES],
                last: 0,
            },
        })
    }

    pub fn contract(&self, order: &Order) -> &Contract {
        &self.tables.contracts[usize::from(order.contract)]
    }

    fn margin_of(&self, contract: &Contract) -> i64 {
        margin_of_one(contract, self.tables.underlying_of(contract))
    }

    /// Buys hold premium at the order's own price, a sell open holds margin.
    pub fn hold_of_one(&self, order: &Order) -> i64 {
        let contract = self.contract(order);
        match order.kind {
            Kind::BuyOpen | Kind::BuyClose | Kind::CoveredClose => {
                premium_of_one(order.price, contract.unit)
            }
            Kind::SellOpen => self.margin_of(contract),
            Kind::SellClose | Kind::CoveredOpen => 0,
        }
    }

    pub fn hold(&self, order: &Order) -> i64 {
        i64::from(order.quantity) * self.hold_of_one(order)
    }

    /// What resting orders hold, and what waits to be paid out.
    pub fn holds(&self) -> i64 {
        let orders: i64 = self.account.resting().map(|order| self.hold(order)).sum();
        orders + self.account.waiting.unwrap_or(0)
    }

    pub fn margin(&self) -> i64 {
        let contracts = self.tables.contracts.iter();
        contracts
            .zip(&self.account.positions)
            .map(|(contract, held)| held.short * self.margin_of(contract))
            .sum()
    }

    /// Below zero it may be, after a day end.
    pub fn available(&self) -> i64 {
        self.account.cash - self.holds() - self.margin()
    }

    /// The underlying's contracts, each with what is held of it.
    fn held(&self, underlying: u16) -> impl Iterator<Item = (&Contract, &Position)> {
        let contracts = self.tables.contracts.iter();
        contracts
            .zip(&self.account.positions)
            .filter(move |(contract, _)| contract.underlying == underlying)
    }

    fn resting_on(&self, underlying: u16) -> impl Iterator<Item = &Order> {
        self.account
            .resting()
            .filter(move |order| self.contract(order).underlying == underlying)
    }

    /// Rights: long plus resting buy opens (document 001, chapter five).
    pub fn rights_room(&self, underlying: u16) -> i64 {
        let long: i64 = self.held(underlying).map(|(_, held)| held.long).sum();
        let resting = quantities(self.resting_on(underlying), |kind| kind == Kind::BuyOpen);
        i64::from(self.tables.underlyings[usize::from(underlying)].rights) - long - resting
    }

    /// Total: all that is held plus resting opens of all three kinds.
    pub fn total_room(&self, underlying: u16) -> i64 {
        let held = self.held(underlying);
        let held: i64 = held.map(|(_, h)| h.long + h.short + h.covered).sum();
        let resting = quantities(self.resting_on(underlying), Kind::opens);
        i64::from(self.tables.underlyings[usize::from(underlying)].total) - held - resting
    }

    /// Daily: buy opens accepted today; closes never give room back.
    pub fn daily_room(&self, underlying: u16) -> i64 {
        let underlying = usize::from(underlying);
        let limit = i64::from(self.tables.underlyings[underlying].daily);
        limit - self.account.holdings[underlying].bought
    }

    /// The position of a contract, less resting closes of that kind on it.
    pub fn closable(&self, contract: u16, close: Kind) -> i64 {
        let mut held = self.account.positions[usize::from(contract)];
        let on_it = |order: &&Order| order.contract == contract;
        let resting = quantities(self.account.resting().filter(on_it), |kind| kind == close);
        *held.side(close) - resting
    }

    /// Units that stand behind covered contracts.
    pub fn cover(&self, underlying: u16) -> i64 {
        self.held(underlying)
            .map(|(contract, held)| held.covered * i64::from(contract.unit))
            .sum()
    }

    /// Units reserved by resting covered opens.
    fn reserved(&self, underlying: u16) -> i64 {
        self.resting_on(underlying)
            .filter(|order| order.kind == Kind::CoveredOpen)
            .map(|order| i64::from(order.quantity) * i64::from(self.contract(order).unit))
            .sum()
    }

    pub fn spare(&self, underlying: u16) -> i64 {
        let locked = self.account.holdings[usize::from(underlying)].locked;
        locked - self.cover(underlying) - self.reserved(underlying)
    }

    pub fn lock_room(&self, underlying: u16) -> i64 {
        LOCKED_CEILING - self.account.holdings[usize::from(underlying)].locked
    }
}

fn quantities<'a>(orders: impl Iterator<Item = &'a Order>, of: impl Fn(Kind) -> bool) -> i64 {
    orders
        .filter(|order| of(order.kind))
        .map(|order| i64::from(order.quantity))
        .sum()
}

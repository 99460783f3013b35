//! Random orders, fills and cancels near the edges.

use crate::making::{Maker, Mood, MOST_PRICE, MOST_TRANSFER};
use plain::account::Desk;
use plain::entry::Order;
use plain::rules::premium_of_one;
use plain::terms::{Kind, Right};

fn line(order: &Order) -> String {
    let (number, contract, kind) = (order.number, order.contract, order.kind as u16);
    format!(
        "order {number} {contract} {kind} {} {}",
        order.quantity, order.price
    )
}

/// A wish that may be below zero or far too much, as a field of four bytes.
fn field(wish: i64) -> u32 {
    wish.clamp(0, u32::MAX.into()) as u32
}

impl Maker {
    pub(crate) fn order(&mut self, desk: &Desk) -> String {
        if self.chance.percent(4) {
            return self.stray_order(desk);
        }
        if desk.available() <= 0 && self.chance.percent(30) {
            return self.free_order(desk);
        }
        let number = self.order_number(desk);
        let contract = self.contract(desk);
        let wish = Order {
            number,
            contract,
            kind: self.kind(desk, contract),
            quantity: 1,
            price: self.order_price(desk, contract),
        };
        let quantity = self.quantity(desk, &wish);
        let order = Order { quantity, ..wish };
        match order.kind {
            Kind::CoveredOpen if self.chance.percent(40) => self.locked_for(desk, order),
            _ if order.kind.holds_money() && self.takes_all() => self.paid_for(desk, order),
            _ => line(&order),
        }
    }

    fn takes_all(&mut self) -> bool {
        let often = if self.spends() { 60 } else { 6 };
        self.chance.percent(often)
    }

    /// Every field at random, so that several checks fail at once.
    fn stray_order(&mut self, desk: &Desk) -> String {
        let last = desk.account.last;
        let contracts = desk.tables.contracts.len() as u16;
        let any = self.contract(desk);
        line(&Order {
            number: self.chance.pick(&[0, last, last.saturating_add(1)]),
            contract: self.chance.pick(&[any, any, any, contracts, 64, 65_535]),
            kind: self.any_kind(),
            quantity: self.chance.pick(&[0, 1, 99, 100, 100, 101, u32::MAX]),
            price: self
                .chance
                .pick(&[0, 1, 500, MOST_PRICE, MOST_PRICE + 1, u32::MAX]),
        })
    }

    /// A sell open with the smallest hold there is: where less than nothing is available, even a hold of 0 is too much.
    fn free_order(&mut self, desk: &Desk) -> String {
        let sell = |contract| Order {
            number: desk.account.last.saturating_add(1),
            contract,
            kind: Kind::SellOpen,
            quantity: 1,
            price: 1,
        };
        let sells = (0..desk.tables.contracts.len() as u16).map(sell);
        let least = sells.min_by_key(|order| desk.hold(order));
        line(&least.expect("tables have a contract"))
    }

    fn order_number(&mut self, desk: &Desk) -> u32 {
        let last = desk.account.last;
        match self.chance.weighted(&[940, 20, 40, self.reopens.into()]) {
            0 => last.saturating_add(1),
            1 => last.saturating_add(self.chance.between(1, 300) as u32),
            2 => self.used_number(desk),
            _ => {
                // Nothing is above the most there is, so an opening follows soon.
                let after = [self.stray_order(desk), self.opening()];
                self.ahead.extend(after);
                u32::MAX
            }
        }
    }

    /// 0, the last, one before it, a resting one, or one that is gone.
    fn used_number(&mut self, desk: &Desk) -> u32 {
        let last = desk.account.last;
        let resting = self.resting(desk).map_or(0, |order| order.number);
        let any = self.chance.between(0, last.into()) as u32;
        self.chance
            .pick(&[0, last, last.saturating_sub(1), resting, any])
    }

    fn kind(&mut self, desk: &Desk, contract: u16) -> Kind {
        if let Mood::Crowd = self.mood {
            return self
                .chance
                .pick(&[Kind::BuyOpen, Kind::BuyOpen, Kind::SellOpen]);
        }
        let call = desk.tables.contracts[usize::from(contract)].right == Right::Call;
        let held = |kind| 0 < desk.closable(contract, kind);
        let spends = self.spends();
        let shut = |kind: Kind| (spends && kind == Kind::SellOpen) || (!call && kind.covered());
        let likely = |kind: &Kind| !shut(*kind) && (kind.opens() || held(*kind));
        let mut likely: Vec<Kind> = Kind::ALL.into_iter().filter(likely).collect();
        if likely.contains(&Kind::CoveredClose) {
            likely.push(Kind::CoveredClose);
        }
        if self.chance.percent(93) {
            self.chance.pick(&likely)
        } else {
            self.any_kind()
        }
    }

    fn any_kind(&mut self) -> Kind {
        match self.chance.pick(&Kind::ALL) {
            Kind::SellOpen if self.spends() => Kind::BuyOpen,
            kind => kind,
        }
    }

    fn order_price(&mut self, desk: &Desk, contract: u16) -> u32 {
        let settlement = desk.tables.contracts[usize::from(contract)].settlement;
        match self.chance.weighted(&[50, 28, 10, 5, 2]) {
            0 => settlement.clamp(1, 1_000) + self.chance.between(0, 3) as u32,
            1 => self.chance.between(1, 30) as u32,
            2 => 1,
            3 => self
                .chance
                .pick(&[MOST_PRICE, MOST_PRICE, MOST_PRICE - 1, 1_000_000]),
            _ => self.chance.pick(&[0, MOST_PRICE + 1]),
        }
    }

    /// How much of it each of the checks would let through.
    fn rooms(&self, desk: &Desk, order: &Order) -> Vec<i64> {
        let contract = desk.contract(order);
        let underlying = contract.underlying;
        let mut rooms = vec![100];
        if order.kind.opens() {
            rooms.push(desk.total_room(underlying));
        } else {
            rooms.push(desk.closable(order.contract, order.kind));
        }
        if order.kind == Kind::BuyOpen {
            rooms.push(desk.rights_room(underlying));
            rooms.push(desk.daily_room(underlying));
        }
        if order.kind == Kind::CoveredOpen {
            rooms.push(desk.spare(underlying) / i64::from(contract.unit));
        }
        let hold = desk.hold_of_one(order);
        if order.kind.holds_money() && 0 < hold {
            rooms.push(desk.available() / hold);
        }
        rooms
    }

    fn quantity(&mut self, desk: &Desk, order: &Order) -> u32 {
        let rooms = self.rooms(desk, order);
        let most = rooms.iter().copied().min().unwrap_or(0);
        let crowd = matches!(self.mood, Mood::Crowd);
        let wish = match self.chance.weighted(&[60, 10, 8, 7, 5, 3]) {
            _ if crowd && self.chance.percent(90) => 1,
            0 => self.chance.between(1, (most / 4).max(most.min(3))),
            1 => most.max(1),
            2 => most.max(0) + 1,
            3 => self.chance.pick(&rooms) + self.chance.between(0, 1),
            4 => self.chance.between(1, 100),
            _ => self.chance.pick(&[0, 100, 101]),
        };
        field(wish)
    }

    /// A transfer goes before the order, so that its hold is all that is available, or one fen more. What waits already is paid first,
    /// which leaves as much available.
    fn paid_for(&mut self, desk: &Desk, order: Order) -> String {
        let gap = desk.available() - desk.hold(&order);
        let off = self.chance.between(0, 1);
        let transfer = if 0 < gap {
            format!("withdraw {}", (gap + off).min(MOST_TRANSFER))
        } else {
            format!("deposit {}", (-gap - off).clamp(1, MOST_TRANSFER))
        };
        if 0 < gap && desk.account.waiting.is_some() {
            self.ahead.extend([transfer, line(&order)]);
            return "pay".to_string();
        }
        self.ahead.push_back(line(&order));
        transfer
    }

    /// Units are locked before the order, so that it takes all that are spare, or one more.
    fn locked_for(&mut self, desk: &Desk, order: Order) -> String {
        let contract = desk.contract(&order);
        let quantity = self.chance.between(1, 6) as u32;
        let missing =
            i64::from(quantity) * i64::from(contract.unit) - desk.spare(contract.underlying);
        let off = self.chance.pick(&[0, 0, 1]);
        self.ahead.push_back(line(&Order { quantity, ..order }));
        format!(
            "lock {} {}",
            contract.underlying,
            field((missing - off).max(1))
        )
    }

    fn resting(&mut self, desk: &Desk) -> Option<Order> {
        let resting: Vec<Order> = desk.account.resting().copied().collect();
        if resting.is_empty() {
            None
        } else {
            Some(self.chance.pick(&resting))
        }
    }

    pub(crate) fn cancel(&mut self, desk: &Desk) -> String {
        let number = match self.resting(desk) {
            Some(order) if self.chance.percent(88) => order.number,
            _ => self.stray_number(desk),
        };
        format!("cancel {number}")
    }

    /// A number that most likely names no resting order.
    fn stray_number(&mut self, desk: &Desk) -> u32 {
        let last = desk.account.last;
        let used = self.used_number(desk);
        self.chance
            .pick(&[used, used, last.saturating_add(1), u32::MAX])
    }

    pub(crate) fn fill(&mut self, desk: &Desk) -> String {
        let order = match self.resting(desk) {
            Some(order) if self.chance.percent(96) => order,
            Some(_) => return self.stray_fill(desk),
            // Where nothing rests a fill would say little.
            None if self.chance.percent(90) => return self.order(desk),
            None => return self.stray_fill(desk),
        };
        let left = i64::from(order.quantity);
        let quantity = match self.chance.weighted(&[40, 45, 7, 2, 1]) {
            0 => left,
            1 => self.chance.between(1, left),
            2 => left + 1,
            3 => self.chance.pick(&[0, 101]),
            _ => 100,
        };
        let price = self.fill_price(&order);
        let fill = format!("fill {} {quantity} {price}", order.number);
        if !order.kind.buys() && self.chance.percent(30) {
            return self.filled_to_ceiling(desk, &order, quantity, price, fill);
        }
        fill
    }

    fn stray_fill(&mut self, desk: &Desk) -> String {
        let number = self.stray_number(desk);
        let quantity = self.chance.pick(&[0, 1, 1, 1, 2, 100, 101, u32::MAX]);
        let price = self
            .chance
            .pick(&[0, 1, 500, 500, 500, MOST_PRICE, MOST_PRICE + 1]);
        format!("fill {number} {quantity} {price}")
    }

    /// The order's own, one off it on each side, far off it on the good side, and the ends of the range.
    fn fill_price(&mut self, order: &Order) -> u32 {
        let own = i64::from(order.price);
        let better = if order.kind.buys() { -1 } else { 1 };
        let far = if order.kind.buys() { own / 2 } else { own * 2 };
        let wish = match self.chance.weighted(&[40, 25, 7, 20, 4, 2]) {
            0 => own,
            1 => own + better,
            2 => own - better,
            3 => far,
            4 => self.chance.pick(&[1, MOST_PRICE.into()]),
            _ => return self.chance.pick(&[0, MOST_PRICE + 1]),
        };
        field(wish.clamp(1, MOST_PRICE.into()))
    }

    /// A deposit goes before the fill, where one can, so that it meets the ceiling of money, or passes it by a fen.
    fn filled_to_ceiling(
        &mut self,
        desk: &Desk,
        order: &Order,
        quantity: i64,
        price: u32,
        fill: String,
    ) -> String {
        let received = quantity * premium_of_one(price, desk.contract(order).unit);
        let room = desk.account.money_room() - received;
        if !(1..MOST_TRANSFER).contains(&room) {
            return fill;
        }
        self.ahead.push_back(fill);
        format!("deposit {}", room + self.chance.between(0, 1))
    }
}

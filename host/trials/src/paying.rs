//! Random deposits and payouts near the edges.

use crate::making::{Maker, MOST_TRANSFER};
use plain::account::Desk;

impl Maker {
    pub(crate) fn deposit(&mut self, desk: &Desk) -> i64 {
        let missing = -desk.available();
        if 0 < missing && self.chance.percent(60) {
            let amount = missing + self.chance.pick(&[-5, -1, 0, 0, 1, 5_000_000]);
            return amount.clamp(1, MOST_TRANSFER);
        }
        let room = desk.account.money_room();
        match self.chance.weighted(&[10, 10, 30, 20, 2, 2, 3]) {
            0 if room <= MOST_TRANSFER => room,
            1 if room <= MOST_TRANSFER => room + 1,
            0..=2 => self.chance.between(1, 3_000_000),
            3 => self.chance.between(1, MOST_TRANSFER),
            4 => 0,
            5 => MOST_TRANSFER,
            _ => self
                .chance
                .pick(&[MOST_TRANSFER + 1, 999_999_999_999_999_999]),
        }
    }

    fn withdrawal(&mut self, desk: &Desk) -> i64 {
        let available = desk.available();
        match self.chance.weighted(&[10, 15, 60, 5, 2, 2, 3]) {
            0 => available.max(1),
            1 => (available + 1).max(1),
            2 => self.chance.between(1, available / 3),
            3 => 1,
            4 => 0,
            5 => MOST_TRANSFER,
            _ => self
                .chance
                .pick(&[MOST_TRANSFER + 1, 999_999_999_999_999_999]),
        }
    }

    /// A request, now and then beside one that waits; or what waits is paid or dropped, now and then where nothing does.
    pub(crate) fn payout(&mut self, desk: &Desk) -> String {
        let asks = if desk.account.waiting.is_none() {
            85
        } else {
            30
        };
        if self.chance.percent(asks) {
            return format!("withdraw {}", self.withdrawal(desk));
        }
        self.chance.pick(&["pay", "drop"]).to_string()
    }
}

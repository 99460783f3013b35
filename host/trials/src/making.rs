//! Random lines near the edges: each looks at the account and picks what meets a rule exactly, or passes it by one.

use crate::chance::Chance;
use crate::tables;
use plain::account::Desk;
use plain::terms::{Tables, MONEY_CEILING};
use std::collections::VecDeque;

pub(crate) const MOST_TRANSFER: i64 = 10_000_000_000_000;
pub(crate) const MOST_PRICE: u32 = 10_000_000;
const MOST_UNITS: i64 = 1_000_000_000;

#[derive(Clone, Copy)]
pub(crate) enum Mood {
    Mixed,
    Brisk,
    /// All places for orders get taken.
    Crowd,
    /// From the opening on nothing is sold short, so that no margin is asked, and most holds take all that is available.
    Spend,
}

pub struct Maker {
    pub(crate) chance: Chance,
    pub(crate) mood: Mood,
    /// Most orders are on these contracts, so that long, short and covered of one contract meet.
    focus: Vec<u16>,
    /// Lines that were decided on together with one already given.
    pub(crate) ahead: VecDeque<String>,
    /// Tables as they are at an opening: the figures of a day end are near theirs.
    known: Vec<Tables>,
    /// Whether an opening line makes a new account.
    pub(crate) reopens: bool,
}

impl Maker {
    /// Lines for `edges`: the first is an opening, and more of them follow.
    pub fn new(seed: u64, batch: u64) -> Maker {
        let known = vec![tables::small(), tables::full()];
        let mut maker = Maker::knowing(known, Chance::new(seed, batch));
        maker.reopens = true;
        let first = maker.opening();
        maker.ahead.push_back(first);
        maker
    }

    /// Lines for one account, opened on these tables.
    pub fn on(tables: &Tables, chance: Chance) -> Maker {
        Maker::knowing(vec![tables.clone()], chance)
    }

    fn knowing(known: Vec<Tables>, mut chance: Chance) -> Maker {
        Maker {
            mood: first_mood(&mut chance),
            chance,
            focus: Vec::new(),
            ahead: VecDeque::new(),
            known,
            reopens: false,
        }
    }

    pub fn line(&mut self, desk: &Desk) -> String {
        if let Some(line) = self.ahead.pop_front() {
            return line;
        }
        if !self.spends() && self.chance.percent(1) {
            self.mood = self.chance.pick(&[Mood::Mixed, Mood::Brisk, Mood::Crowd]);
        }
        // With nothing left most orders would fail alike.
        if desk.available() <= 0 && self.chance.percent(10) {
            return format!("deposit {}", self.deposit(desk));
        }
        // open, record, day end, deposit, payout, lock, unlock, cancel, fill, order
        let weights = match self.mood {
            Mood::Mixed => [4, 8, 25, 40, 75, 45, 45, 60, 290, 440],
            Mood::Brisk => [3, 8, 45, 40, 45, 45, 25, 30, 420, 360],
            Mood::Crowd => [2, 8, 2, 20, 20, 10, 5, 60, 40, 800],
            Mood::Spend => [2, 8, 10, 20, 60, 60, 20, 40, 420, 360],
        };
        match self.chance.weighted(&weights) {
            0 => self.opening(),
            1 => format!("record {}", self.chance.between(16, 18)),
            2 => self.day_end(desk),
            3 => format!("deposit {}", self.deposit(desk)),
            4 => self.payout(desk),
            5 => self.lock(desk),
            6 => self.unlock(desk),
            7 => self.cancel(desk),
            8 => self.fill(desk),
            _ => self.order(desk),
        }
    }

    pub(crate) fn opening(&mut self) -> String {
        self.focus.clear();
        self.mood = first_mood(&mut self.chance);
        let cash = opening_cash(&mut self.chance);
        let tables = self.chance.pick(&["", "", " 0", " 1", " 1"]);
        format!("open {cash}{tables}")
    }

    pub(crate) fn spends(&self) -> bool {
        matches!(self.mood, Mood::Spend)
    }

    /// A contract of the tables, mostly one of the few in focus.
    pub(crate) fn contract(&mut self, desk: &Desk) -> u16 {
        let count = desk.tables.contracts.len() as i64;
        if self.focus.is_empty() || self.chance.percent(20) {
            let contract = self.chance.between(0, count - 1) as u16;
            if self.focus.len() < 3 {
                self.focus.push(contract);
            }
            return contract;
        }
        // A refused opening leaves other tables than it asked for.
        self.chance.pick(&self.focus).min(count as u16 - 1)
    }

    /// An underlying, now and then one that is not in the tables.
    fn underlying(&mut self, desk: &Desk) -> (u16, bool) {
        let count = desk.tables.underlyings.len() as u16;
        if self.chance.percent(3) {
            return (self.chance.pick(&[count, 8, 65_535]), false);
        }
        let contract = self.contract(desk);
        let underlying = desk.tables.contracts[usize::from(contract)].underlying;
        (underlying, true)
    }

    fn lock(&mut self, desk: &Desk) -> String {
        let (underlying, listed) = self.underlying(desk);
        let room = if listed {
            desk.lock_room(underlying)
        } else {
            0
        };
        let units = match self.chance.weighted(&[15, 18, 50, 6, 2, 2]) {
            0 if room <= MOST_UNITS => room,
            1 if room <= MOST_UNITS => room + 1,
            0 | 1 => MOST_UNITS,
            2 => 100 * self.chance.between(1, 3_000),
            3 => self.chance.between(1, 1_000_000),
            4 => 0,
            _ => self.chance.pick(&[MOST_UNITS + 1, 4_294_967_295]),
        };
        format!("lock {underlying} {units}")
    }

    fn unlock(&mut self, desk: &Desk) -> String {
        let (mut underlying, listed) = self.underlying(desk);
        let mut spare = if listed { desk.spare(underlying) } else { 0 };
        if listed && spare == 0 && self.chance.percent(80) {
            let all = 0..desk.tables.underlyings.len() as u16;
            let most = all.max_by_key(|&u| desk.spare(u));
            underlying = most.unwrap_or(0);
            spare = desk.spare(underlying);
        }
        let units = match self.chance.weighted(&[10, 15, 60, 3, 2, 2]) {
            0 => spare.clamp(1, MOST_UNITS),
            1 => (spare + 1).min(MOST_UNITS),
            2 => self.chance.between(1, spare.min(MOST_UNITS) / 2),
            3 => MOST_UNITS,
            4 => 0,
            _ => self.chance.pick(&[MOST_UNITS + 1, 4_294_967_295]),
        };
        format!("unlock {underlying} {units}")
    }

    fn day_end(&mut self, desk: &Desk) -> String {
        let counts = |tables: &Tables| (tables.contracts.len(), tables.underlyings.len());
        let own = |known: &Tables| counts(known) == counts(&desk.tables);
        let own = self.known.iter().position(own).unwrap_or(0);
        let other = usize::from(self.chance.percent(3));
        let base = self.known[(own + other) % self.known.len()].clone();
        let (n, m) = counts(&base);
        let mut figures = self.figures(&base);
        let (n, m) = self.spoiled(n, m, &mut figures);
        let figures: String = figures.iter().map(|figure| format!(" {figure}")).collect();
        format!("end {n} {m}{figures}")
    }

    /// Now and then a day end has a count too many or too few, with figures to fit it or without, or a figure at the end of its range.
    fn spoiled(&mut self, n: usize, m: usize, figures: &mut Vec<u32>) -> (usize, usize) {
        let contract = self.chance.between(0, n as i64 - 1) as usize;
        let underlying = n + self.chance.between(0, m as i64 - 1) as usize;
        match self.chance.weighted(&[85, 1, 1, 1, 1, 1, 1, 1, 4, 4, 2]) {
            1 => {
                figures.push(1);
                return (n, m + 1);
            }
            2 => {
                figures.pop();
                return (n, m - 1);
            }
            3 => {
                figures.insert(contract, 1);
                return (n + 1, m);
            }
            4 => {
                figures.remove(contract);
                return (n - 1, m);
            }
            5 => return (m, n),
            6 => return (self.chance.pick(&[0, 64, 65, 256, 65_535]), m),
            7 => return (n, self.chance.pick(&[0, 8, 9, 256, 65_535])),
            8 => figures[contract] = self.chance.pick(&[0, MOST_PRICE, MOST_PRICE + 1, u32::MAX]),
            9 => figures[underlying] = self.chance.pick(&[0, 1, MOST_PRICE, MOST_PRICE + 1]),
            10 => figures.truncate(contract),
            _ => (),
        }
        (n, m)
    }

    /// Settlements and then closes: near those at the opening, or such that margins leap, all but vanish, or do either.
    fn figures(&mut self, base: &Tables) -> Vec<u32> {
        let weather = self.chance.weighted(&[50, 25, 15, 10]);
        let settlements = base
            .contracts
            .iter()
            .map(|contract| (contract.settlement, 0));
        let closes = base
            .underlyings
            .iter()
            .map(|underlying| (underlying.close, 1));
        let figure = |(own, least)| match weather {
            0 => own - own / 10 + self.chance.between(0, i64::from(own / 5 + 2)) as u32,
            1 if self.chance.percent(50) => own,
            1 => self
                .chance
                .pick(&[2 * own, 20 * own, own / 2, 1_000_000, MOST_PRICE]),
            2 => self.chance.pick(&[least, least, 1, own]),
            _ => self.chance.pick(&[least, least, least, MOST_PRICE]),
        };
        settlements.chain(closes).map(figure).collect()
    }
}

fn first_mood(chance: &mut Chance) -> Mood {
    chance.pick(&[Mood::Mixed, Mood::Mixed, Mood::Mixed, Mood::Spend])
}

/// Up to the most that an opening may have, and past it.
pub(crate) fn opening_cash(chance: &mut Chance) -> i64 {
    let below_ceiling = MONEY_CEILING - chance.between(1, 20_000_000_000);
    match chance.weighted(&[4, 20, 40, 10, 18, 4, 4, 1]) {
        0 => chance.between(0, 1),
        1 => chance.between(1, 2_000_000),
        2 => chance.between(1_000_000, 100_000_000),
        3 => chance.between(1, MOST_TRANSFER),
        4 => below_ceiling,
        5 => MONEY_CEILING,
        6 => MONEY_CEILING + 1,
        _ => 999_999_999_999_999_999,
    }
}

//! Random assignments: equal totals that tie, unequal ones, the most accounts and one more, totals just too large, and exercised contracts
//! near none and near all.

use crate::chance::Chance;
use plain::expiry::Obligation;

const MOST: i64 = 10_000;
const WIDEST: i64 = 4_294_967_295;

/// Exercised contracts, and the accounts.
pub(crate) fn assignment(chance: &mut Chance) -> (u32, Vec<Obligation>) {
    let number = match chance.weighted(&[3, 8, 45, 28, 4, 7, 5]) {
        0 => 0,
        1 => 1,
        2 => chance.between(2, 8),
        3 => chance.between(9, 40),
        4 => chance.between(41, 255),
        5 => 256,
        _ => 257,
    };
    let mut accounts = accounts(chance, number);
    if chance.percent(5) && 0 < number {
        let place = chance.between(0, number - 1) as usize;
        accounts[place] = too_much(chance);
    }
    let all: u64 = accounts.iter().map(Obligation::total).sum();
    (exercised(chance, all as i64, number), accounts)
}

/// All of them share a few totals, or each has its own.
fn accounts(chance: &mut Chance, number: i64) -> Vec<Obligation> {
    let most = chance.pick(&[0, 1, 3, 20, 2_500, MOST, MOST, MOST]);
    let few: Vec<i64> = (0..chance.between(1, 3))
        .map(|_| chance.between(most / 2, most))
        .collect();
    let shared = chance.percent(50);
    let full = chance.percent(5);
    let total = |chance: &mut Chance| match (full, shared) {
        (true, _) => MOST,
        (_, true) => chance.pick(&few),
        _ => chance.between(0, most),
    };
    (0..number)
        .map(|_| {
            let total = total(chance);
            divided(chance, total as u32)
        })
        .collect()
}

fn divided(chance: &mut Chance, total: u32) -> Obligation {
    let some = chance.between(0, total.into()) as u32;
    let covered = chance.pick(&[0, total, some, some]);
    Obligation {
        short: total - covered,
        covered,
    }
}

/// One contract more than is allowed, or a sum that 32 bits would keep as a small one.
fn too_much(chance: &mut Chance) -> Obligation {
    if chance.percent(60) {
        return divided(chance, MOST as u32 + 1);
    }
    let rest = chance.between(1, WIDEST);
    let small = chance.between(0, 20);
    Obligation {
        short: (WIDEST + 1 - rest) as u32,
        covered: (rest + small).min(WIDEST) as u32,
    }
}

fn exercised(chance: &mut Chance, all: i64, number: i64) -> u32 {
    let count = match chance.weighted(&[50, 10, 10, 10, 7, 7, 5, 1]) {
        0 => chance.between(0, all),
        1 => all,
        2 => all - 1,
        3 => chance.between(0, number.min(all)),
        4 => all + 1,
        5 => 0,
        6 => all / 2,
        _ => WIDEST,
    };
    count.clamp(0, WIDEST) as u32
}

//! Random requests for exercise: each figure at the edge of its range, what is held just enough or one too few, and so what is offered.

use crate::chance::Chance;
use plain::account::Position;
use plain::expiry::Request;
use plain::terms::Right;

const WIDEST: u32 = 4_294_967_295;
/// A hundred times as much passes 64 bits by 84.
const COMES_ROUND: u64 = 184_467_440_737_095_517;

pub(crate) fn request(chance: &mut Chance) -> Request {
    let count = count(chance);
    let mut request = Request {
        right: chance.pick(&[Right::Call, Right::Put]),
        strike: strike(chance),
        unit: unit(chance),
        held: held(chance, count),
        count,
        offered: 0,
    };
    request.offered = offered(chance, &request);
    request
}

/// One of those outside now and then: each refusal is to leave enough for the next.
fn outside(chance: &mut Chance) -> bool {
    chance.percent(5)
}

fn count(chance: &mut Chance) -> u32 {
    if outside(chance) {
        return chance.pick(&[0, 10_001, WIDEST]);
    }
    let small = chance.between(1, 20) as u32;
    let any = chance.between(1, 10_000) as u32;
    chance.pick(&[1, 10_000, small, small, small, any])
}

fn strike(chance: &mut Chance) -> u32 {
    if outside(chance) {
        return chance.pick(&[0, 10_000_001, WIDEST]);
    }
    // Mostly no whole fen
    let usual = chance.between(20_000, 30_000) as u32;
    let any = chance.between(1, 10_000_000) as u32;
    chance.pick(&[1, 10_000_000, usual, usual, any])
}

fn unit(chance: &mut Chance) -> u32 {
    if outside(chance) {
        let uneven = 100 * chance.between(1, 999) + chance.between(1, 99);
        return chance.pick(&[0, 99, 100_001, 100_100, WIDEST, uneven as u32]);
    }
    let any = 100 * chance.between(1, 1_000) as u32;
    chance.pick(&[100, 10_000, 10_000, 100_000, any])
}

/// Long that is near the count after netting. Where 32 bits do not hold it, there is less.
fn held(chance: &mut Chance, count: u32) -> Position {
    let count = i64::from(count);
    let target = match chance.weighted(&[20, 35, 15, 20, 10]) {
        0 => count - 1,
        1 => count,
        2 => count + 1,
        3 => chance.between(count, 20_000),
        _ => chance.between(0, count),
    };
    let (short, covered) = (other_side(chance), other_side(chance));
    let long = (target + short + covered).clamp(0, WIDEST.into());
    Position {
        long,
        short,
        covered,
    }
}

fn other_side(chance: &mut Chance) -> i64 {
    match chance.weighted(&[50, 30, 15, 5]) {
        0 => 0,
        1 => chance.between(1, 9),
        2 => chance.between(1, 10_000),
        _ => chance.pick(&[1 << 31, i64::from(WIDEST) - 3, WIDEST.into()]),
    }
}

fn offered(chance: &mut Chance, request: &Request) -> u64 {
    let needed = u64::try_from(needed(request)).unwrap_or(u64::MAX);
    match chance.weighted(&[25, 30, 15, 10, 5, 5, 5, 5]) {
        0 => needed.saturating_sub(1),
        1 => needed,
        2 => needed.saturating_add(1),
        3 => needed / 2,
        4 => 0,
        5 => needed.saturating_add(1 << 32),
        6 => COMES_ROUND,
        _ => u64::MAX,
    }
}

/// The least that is enough, in fen or units.
fn needed(request: &Request) -> u128 {
    let units = u128::from(request.unit) * u128::from(request.count);
    match request.right {
        Right::Call => (u128::from(request.strike) * units + 99) / 100,
        Right::Put => units,
    }
}

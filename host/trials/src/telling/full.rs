//! A book with all that one can hold: 8 underlyings, 64 contracts, 32 resting orders, and two day ends.

use super::{call_a, cancel, day_end, lock, opening, told, Row, Telling};
use plain::entry::Entry;
use plain::terms::{Class, Kind, Underlying};

const CASH: i64 = 1_000_000_000;

/// What 1 contract costs at a price of 500, and case a's margin, which each of the 64 calls has.
const PREMIUM: i64 = 50_000;
const MARGIN: i64 = 250_000;

pub fn full() -> Telling {
    let mut rows = tables();
    rows.push((opening(CASH as u64), 0, CASH));
    let flat = first_day(&mut rows);
    second_day(&mut rows, flat);
    told("a full book", &rows)
}

fn tables() -> Vec<Row> {
    let limits = [100, 100, 100];
    let underlying = Entry::Underlying(Underlying::new(Class::Fund, 25_000, limits));
    let mut rows = vec![(underlying, 0, 0); 8];
    rows.extend((0..64).map(|c| (call_a(c % 8), 0, 0)));
    rows
}

/// In each contract 1 is bought and 1 sold, at one price; the day end takes the one against the other and frees the margin. What was
/// received for the covered open is cash from then on.
fn first_day(rows: &mut Vec<Row>) -> i64 {
    let mut now = CASH;
    let mut number = 0;
    for c in 0..64 {
        now -= PREMIUM;
        filled(rows, (&mut number, c, Kind::BuyOpen), [now, now]);
        now -= MARGIN;
        filled(rows, (&mut number, c, Kind::SellOpen), [now, now + PREMIUM]);
        now += PREMIUM;
    }
    rows.push((lock(0, 10_000), 0, now));
    filled(rows, (&mut number, 0, Kind::CoveredOpen), [now, now]);
    for c in 0..33 {
        let full = if c < 32 { 0 } else { 8 };
        let order = Entry::order(number + 1 + u32::from(c), c, Kind::SellClose, 1, 600);
        rows.push((order, full, now));
    }
    rows.push((cancel(number + 1), 0, now));
    rows.push((day_end(&[500; 64], &[25_000; 8]), 0, CASH + PREMIUM));
    CASH + PREMIUM
}

/// 1 is sold in each contract. At 300 and 25,500 a margin is 10,000 x (30,000 + 256,000) / 10,000.
fn second_day(rows: &mut Vec<Row>, flat: i64) {
    let mut now = flat;
    let mut number = 1_000;
    for c in 0..64 {
        now -= MARGIN;
        filled(rows, (&mut number, c, Kind::SellOpen), [now, now + PREMIUM]);
        now += PREMIUM;
    }
    let after = flat + 64 * (PREMIUM - 286_000);
    rows.push((day_end(&[300; 64], &[25_500; 8]), 0, after));
    rows.push((cancel(number), 7, after));
}

/// An order for 1 at 500 under the next number, and its fill; what is available after each.
fn filled(rows: &mut Vec<Row>, (number, c, kind): (&mut u32, u16, Kind), after: [i64; 2]) {
    *number += 1;
    rows.push((Entry::order(*number, c, kind, 1, 500), 0, after[0]));
    rows.push((Entry::fill(*number, 1, 500), 0, after[1]));
}

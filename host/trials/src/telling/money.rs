//! Sums below zero, fills down to the last fen, the last order number there is, and all places for orders taken.

use super::{call, call_a, cancel, day_end, deposit, fund, opening, stock, withdraw};
use super::{opened, told, Row, Telling};
use plain::entry::Entry;
use plain::terms::{Class, Kind, Underlying};

pub fn books() -> Vec<Telling> {
    vec![
        below_zero(),
        far_below_zero(),
        down_to_the_last_fen(),
        last_number(),
        all_places_taken(),
    ]
}

/// Two short calls at a margin of 10,000 x 350,107 / 10,000 each, against 700,000; the other contract's margin rounds to nothing.
fn below_zero() -> Telling {
    let free = |number| Entry::order(number, 1, Kind::SellOpen, 1, 1);
    told(
        "below zero",
        &[
            (fund(25_000), 0, 0),
            (call_a(0), 0, 0),
            (call(0, [10_000_000, 100, 0]), 0, 0),
            (opening(600_000), 0, 600_000),
            (Entry::order(1, 0, Kind::SellOpen, 2, 500), 0, 100_000),
            (Entry::fill(1, 2, 500), 0, 200_000),
            (day_end(&[3_501, 0], &[1]), 0, -214),
            (withdraw(1), 14, -214),
            (free(2), 14, -214),
            (deposit(209), 0, -5),
            (free(2), 14, -5),
            (deposit(4), 0, -1),
            (free(2), 14, -1),
            (deposit(1), 0, 0),
            (free(2), 0, 0),
        ],
    )
}

/// 100 short calls at 100 fen each, and after the day end at 100,000 x (1,000,000,000 + 210,000,000) / 10,000.
fn far_below_zero() -> Telling {
    let limits = [100; 3];
    told(
        "far below zero",
        &[
            (
                Entry::Underlying(Underlying::new(Class::Stock, 1, limits)),
                0,
                0,
            ),
            (call(0, [10_000_000, 100_000, 0]), 0, 0),
            (opening(1_000_000), 0, 1_000_000),
            (Entry::order(1, 0, Kind::SellOpen, 100, 1), 0, 990_000),
            (Entry::fill(1, 100, 1), 0, 1_090_000),
            (day_end(&[10_000_000], &[10_000_000]), 0, -1_209_998_900_000),
            (stock(1), 5, -1_209_998_900_000),
        ],
    )
}

/// A price of 1 is 100 fen. The sell brings as much as order 2 holds and frees nothing of it; then orders 4 and 2 take all but what waits.
fn down_to_the_last_fen() -> Telling {
    let order = |number, kind, price| Entry::order(number, 0, kind, 1, price);
    let rows: [Row; 13] = [
        (withdraw(100_000), 0, 500_000),
        (order(1, Kind::BuyOpen, 1), 0, 499_900),
        (Entry::fill(1, 1, 1), 0, 499_900),
        (order(2, Kind::BuyOpen, 3_000), 0, 199_900),
        (order(3, Kind::SellClose, 1), 0, 199_900),
        (Entry::fill(3, 1, 3_000), 0, 499_900),
        (order(4, Kind::BuyOpen, 5_000), 14, 499_900),
        (order(4, Kind::BuyOpen, 4_999), 0, 0),
        (Entry::fill(4, 1, 4_999), 0, 0),
        (Entry::fill(2, 1, 3_000), 0, 0),
        (Entry::Pay, 0, 0),
        (deposit(1), 0, 1),
        (withdraw(2), 14, 1),
    ];
    told("down to the last fen", &[opened(), rows.to_vec()].concat())
}

/// Nothing is above it, also once it is gone.
fn last_number() -> Telling {
    let buy = |number| Entry::order(number, 0, Kind::BuyOpen, 1, 1);
    let mut rows = opened();
    rows.extend([
        (buy(0), 6, 600_000),
        (buy(u32::MAX), 0, 599_900),
        (buy(u32::MAX), 6, 599_900),
        (buy(1), 6, 599_900),
        (cancel(0), 7, 599_900),
        (cancel(u32::MAX), 0, 600_000),
        (buy(u32::MAX), 6, 600_000),
        (day_end(&[500], &[25_000]), 0, 600_000),
        (buy(u32::MAX), 6, 600_000),
    ]);
    told("the last number there is", &rows)
}

fn all_places_taken() -> Telling {
    let buy = |number| Entry::order(number, 0, Kind::BuyOpen, 1, 1);
    let limits = [100; 3];
    let mut rows: Vec<Row> = vec![
        (
            Entry::Underlying(Underlying::new(Class::Fund, 25_000, limits)),
            0,
            0,
        ),
        (call_a(0), 0, 0),
        (opening(600_000), 0, 600_000),
    ];
    let held = |orders: u32| 600_000 - 100 * i64::from(orders);
    rows.extend((1..=32).map(|number| (buy(number), 0, held(number))));
    rows.extend([
        (buy(33), 8, held(32)),
        (cancel(7), 0, held(31)),
        (buy(33), 0, held(32)),
        (buy(34), 8, held(32)),
        (Entry::fill(33, 1, 1), 0, held(32)),
        (buy(34), 0, held(33)),
        (cancel(7), 7, held(33)),
    ]);
    told("32 orders resting and a 33rd", &rows)
}

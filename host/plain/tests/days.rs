//! Covered opening, the daily count and the day end, on one account.

use plain::account::{Desk, Holding, Position};
use plain::entry::Entry;
use plain::terms::{Class, Contract, Kind, Right, Tables, Underlying};

fn opened() -> Desk {
    let underlying = Underlying::new(Class::Fund, 25_000, [20, 50, 20]);
    let contract = Contract::new(0, Right::Call, [26_000, 100, 500]);
    let tables = Tables {
        underlyings: vec![underlying],
        contracts: vec![contract],
    };
    Desk::open(&tables, 1_000_000).unwrap()
}

fn order(number: u32, kind: Kind, quantity: u32) -> Entry {
    Entry::order(number, 0, kind, quantity, 500)
}

fn lock(units: u32) -> Entry {
    Entry::Lock {
        underlying: 0,
        units,
    }
}

fn book(desk: &mut Desk, steps: &[(Entry, Result<(), u8>)]) {
    for (entry, verdict) in steps {
        assert_eq!(desk.step(entry), *verdict, "{entry:?}");
    }
}

#[test]
fn covered_premium_waits_for_the_day_end() {
    let mut desk = opened();
    book(
        &mut desk,
        &[
            (lock(299), Ok(())),
            (order(1, Kind::CoveredOpen, 3), Err(13)),
            (lock(2), Ok(())),
            (order(1, Kind::CoveredOpen, 3), Ok(())),
            (Entry::fill(1, 2, 501), Ok(())),
        ],
    );
    assert_eq!(desk.spare(0), 1);
    assert_eq!(
        (desk.account.cash, desk.account.covered_premium),
        (1_000_000, 1_002)
    );
    let day_end = Entry::DayEnd {
        settlements: vec![500],
        closes: vec![25_000],
    };
    book(&mut desk, &[(day_end, Ok(()))]);
    assert_eq!(
        (desk.account.cash, desk.account.covered_premium),
        (1_001_002, 0)
    );
    let holding = Holding {
        locked: 200,
        bought: 0,
    };
    assert_eq!(desk.account.holdings, [holding]);
    assert_eq!(desk.account.last, 1);
    assert_eq!(desk.account.lowest_free_place(), Some(0));
}

#[test]
fn a_close_gives_no_daily_room_back_and_a_cancel_does() {
    let mut desk = opened();
    book(
        &mut desk,
        &[
            (order(1, Kind::BuyOpen, 15), Ok(())),
            (Entry::fill(1, 10, 500), Ok(())),
            (order(2, Kind::SellClose, 10), Ok(())),
            (order(3, Kind::SellClose, 1), Err(9)),
            (Entry::fill(2, 10, 499), Err(16)),
            (Entry::fill(2, 10, 500), Ok(())),
            (order(3, Kind::BuyOpen, 6), Err(12)),
            (Entry::Cancel { number: 1 }, Ok(())),
            (order(3, Kind::BuyOpen, 11), Err(12)),
            (order(3, Kind::BuyOpen, 10), Ok(())),
            (Entry::Cancel { number: 1 }, Err(7)),
        ],
    );
    assert_eq!(desk.account.positions, [Position::default()]);
    assert_eq!(desk.account.holdings[0].bought, 20);
}

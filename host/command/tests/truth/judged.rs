//! The words of a refusal by the account, held to the account before the record.

use crate::common::lines::{decimal, figures, part, times};
use plain::account::Desk;
use plain::entry::{Entry, Fill, Order};
use plain::rules::premium_of_one;
use plain::terms::{Underlying, LOCKED_CEILING, MONEY_CEILING, PLACES};

/// Gives the form of the words.
pub fn hold(desk: &Desk, entry: &Entry, refusal: u8, words: &str) -> &'static str {
    match entry {
        Entry::Order(order) => ordered(desk, order, refusal, words),
        Entry::Fill(Fill { number, .. }) | Entry::Cancel { number } if refusal == 7 => {
            resting(desk, *number, words)
        }
        Entry::Fill(fill) if refusal == 15 => received(desk, fill, words),
        Entry::Fill(fill) if refusal == 16 => barred(desk, fill, words),
        Entry::Deposit { amount } if refusal == 15 => {
            ceiling(desk, "deposit", *amount as i64, words);
            "deposit"
        }
        Entry::Lock { underlying, units } if refusal == 15 => {
            locked(desk, *underlying, *units, words)
        }
        Entry::Unlock { underlying, units } if refusal == 13 => {
            spare(desk, *underlying, "asked", i64::from(*units), words);
            "unlock"
        }
        Entry::Withdraw { amount } if refusal == 14 => {
            short(desk, "asked", *amount as i64, words);
            "withdraw"
        }
        Entry::Withdraw { amount } if refusal == 20 => {
            let waiting = desk.account.waiting.expect("a payout waits");
            let told = figures(words, ["waiting", "asked"], 2);
            assert_eq!(told, [waiting, *amount as i64].map(i128::from));
            "withdraw"
        }
        Entry::Pay | Entry::Drop if refusal == 19 => {
            assert_eq!(desk.account.waiting, None);
            assert_eq!(figures(words, ["waiting"], 2), [0]);
            "pay or drop"
        }
        _ => panic!("{refusal} is no answer to {entry:?}"),
    }
}

fn ordered(desk: &Desk, order: &Order, refusal: u8, words: &str) -> &'static str {
    let underlying = desk.contract(order).underlying;
    let row = &desk.tables.underlyings[usize::from(underlying)];
    match refusal {
        6 => {
            let told = figures(words, ["number", "last accepted"], 0);
            assert_eq!(told, [order.number, desk.account.last].map(i128::from));
            assert!(told[0] <= told[1], "{words}");
        }
        8 => {
            let count = desk.account.resting().count();
            assert_eq!(count, PLACES);
            assert_eq!(words, format!("{count} rest"));
        }
        9 => closing(desk, order, words),
        10..=12 => limit(desk, row, order, refusal, words),
        13 => {
            let unit = i64::from(desk.contract(order).unit);
            let quantity = i64::from(order.quantity);
            let (words, product) = times(words, 0);
            assert_eq!(product, [quantity, unit].map(i128::from));
            spare(desk, underlying, "needed", quantity * unit, &words);
        }
        14 => {
            let (words, product) = times(words, 2);
            let one = desk.hold_of_one(order);
            assert_eq!(product, [order.quantity.into(), i128::from(one)]);
            short(desk, "hold", desk.hold(order), &words);
            return match order.kind.buys() {
                true => "premium",
                false => "margin",
            };
        }
        _ => panic!("{refusal} is no answer to an order"),
    }
    "order"
}

fn closing(desk: &Desk, order: &Order, words: &str) {
    let mut position = desk.account.positions[usize::from(order.contract)];
    let own = *position.side(order.kind);
    let [asked, held, closes] = figures(words, ["asked", "held", "resting closes"], 0);
    assert_eq!([asked, held], [order.quantity.into(), i128::from(own)]);
    let closable = desk.closable(order.contract, order.kind);
    assert_eq!(held - closes, closable.into(), "{words}");
    assert!(held < asked + closes, "{words}");
}

fn limit(desk: &Desk, row: &Underlying, order: &Order, refusal: u8, words: &str) {
    let underlying = desk.contract(order).underlying;
    let (what, own, room) = match refusal {
        10 => {
            let room = desk.rights_room(underlying);
            ("long and resting buy-opens", row.rights, room)
        }
        11 => {
            let room = desk.total_room(underlying);
            ("held and resting opens", row.total, room)
        }
        _ => ("bought open today", row.daily, desk.daily_room(underlying)),
    };
    let names = ["asked", what, "limit", "over by"];
    let [asked, counted, most, over] = figures(words, names, 0);
    assert_eq!([asked, most], [order.quantity.into(), i128::from(own)]);
    assert_eq!(most - counted, room.into(), "{words}");
    assert_eq!(over, counted + asked - most, "{words}");
    assert!(0 < over, "{words}");
}

fn spare(desk: &Desk, underlying: u16, what: &str, units: i64, words: &str) {
    let told = figures(words, [what, "spare", "short by"], 0);
    falls_short(told, units, desk.spare(underlying));
}

fn short(desk: &Desk, what: &str, sum: i64, words: &str) {
    let told = figures(words, [what, "available", "short by"], 2);
    falls_short(told, sum, desk.available());
}

fn falls_short(told: [i128; 3], needed: i64, there: i64) {
    let [asked, has, short] = told;
    assert_eq!([asked, has], [needed, there].map(i128::from));
    assert_eq!(short, asked - has);
    assert!(0 < short);
}

fn ceiling(desk: &Desk, what: &str, sum: i64, words: &str) {
    let names = ["cash", "covered premium", what, "ceiling", "over by"];
    let [cash, premium, comes, most, over] = figures(words, names, 2);
    let account = &desk.account;
    let own = [account.cash, account.covered_premium, sum, MONEY_CEILING];
    assert_eq!([cash, premium, comes, most], own.map(i128::from));
    assert_eq!(over, cash + premium + comes - most);
    assert!(0 < over);
}

fn received(desk: &Desk, fill: &Fill, words: &str) -> &'static str {
    let (words, [count, one]) = times(words, 2);
    let (_, order) = desk.account.find(fill.number).expect("the order rests");
    let own = premium_of_one(fill.price, desk.contract(&order).unit);
    assert_eq!([count, one], [fill.quantity.into(), i128::from(own)]);
    ceiling(desk, "received", i64::from(fill.quantity) * own, &words);
    "fill"
}

fn locked(desk: &Desk, underlying: u16, units: u32, words: &str) -> &'static str {
    let names = ["asked", "locked", "ceiling", "over by"];
    let [asked, locked, most, over] = figures(words, names, 0);
    let holding = desk.account.holdings[usize::from(underlying)];
    let own = [units.into(), holding.locked, LOCKED_CEILING];
    assert_eq!([asked, locked, most], own.map(i128::from));
    assert_eq!(over, asked + locked - most);
    assert!(0 < over);
    "lock"
}

fn barred(desk: &Desk, fill: &Fill, words: &str) -> &'static str {
    let (_, order) = desk.account.find(fill.number).expect("the order rests");
    if words.starts_with("asked ") {
        let told = figures(words, ["asked", "left"], 0);
        assert_eq!(told, [fill.quantity, order.quantity].map(i128::from));
        assert!(told[1] < told[0], "{words}");
        return "above the remainder";
    }
    let (asked, own) = part(words, ", the order ");
    let [asked] = figures(asked, ["price"], 4);
    let (side, own) = part(own, " at ");
    let (own, bound) = part(own, " or ");
    let own = decimal(own, 4);
    assert_eq!([asked, own], [fill.price, order.price].map(i128::from));
    match (order.kind.buys(), side, bound) {
        (true, "buys", "below") if own < asked => "above a buy's price",
        (false, "sells", "above") if asked < own => "below a sell's price",
        _ => panic!("{:?} does not bar this: {words}", order.kind),
    }
}

/// As many as eight are told, the lowest first.
fn resting(desk: &Desk, number: u32, words: &str) -> &'static str {
    let mut rest: Vec<u32> = desk.account.resting().map(|order| order.number).collect();
    rest.sort_unstable();
    let (asked, told) = part(words, ", ");
    assert_eq!(figures(asked, ["number"], 0), [number.into()]);
    assert!(!rest.contains(&number), "{words}");
    let told = match told.strip_prefix("resting ") {
        Some(told) => told,
        None => {
            assert_eq!(told, "none rests");
            assert!(rest.is_empty(), "{rest:?} rest");
            return "none rests";
        }
    };
    let (told, count) = match told.strip_suffix(')') {
        Some(cut) => part(cut, " .. ("),
        None => (told, ""),
    };
    let numbers: Vec<u32> = told.split(' ').map(|n| decimal(n, 0) as u32).collect();
    assert_eq!(numbers, rest[..rest.len().min(8)]);
    match rest.len() {
        0..=8 => assert_eq!(count, ""),
        many => assert_eq!(count, many.to_string()),
    }
    if numbers.len() < rest.len() {
        "many rest"
    } else {
        "few rest"
    }
}

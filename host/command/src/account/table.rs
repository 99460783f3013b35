//! The view for people. With the largest numbers that there can be no line is wider than 100 columns: that of a position is as wide then.

use super::aligned::{aligned, Side};
use super::view::{Account, Contract, Money, Order, Position, Standing, Underlying, View};
use crate::decimal::{price, yuan};

pub fn table(view: &View) -> String {
    let sections = match &view.account {
        Some(account) => opened(view, account),
        None => set_up(view),
    };
    sections.join("\n")
}

fn opened(view: &View, account: &Account) -> Vec<String> {
    let last = match account.last_order {
        0 => "No order accepted yet.\n".to_string(),
        number => format!("Last accepted order: {number}\n"),
    };
    vec![
        "The book is open.\n".to_string(),
        money(&account.money),
        positions(&account.positions),
        standings(&view.underlyings),
        orders(&account.orders),
        last,
    ]
}

fn set_up(view: &View) -> Vec<String> {
    let mut sections = vec![format!(
        "The book is not open yet: it waits for {}.\n",
        view.waits_for
    )];
    // Where nothing stands yet, the first line has said all.
    if !view.underlyings.is_empty() {
        sections.push(limits(&view.underlyings));
    }
    if !view.contracts.is_empty() {
        sections.push(contracts(&view.contracts));
    }
    sections
}

/// In the order of the sum; covered premium is no part of it before the day ends.
fn money(money: &Money) -> String {
    let row = |name: &str, sum: String, remark: String| vec![name.to_string(), sum, remark];
    let waits = match money.payout {
        0 => String::new(),
        payout => format!("of which {} waits to be paid out", yuan(payout)),
    };
    let joins = match money.covered_premium {
        0 => String::new(),
        _ => "joins cash at the day end".to_string(),
    };
    let rows = [
        row("cash", yuan(money.cash), String::new()),
        row("less order holds", yuan(money.holds), waits),
        row("less margin", yuan(money.margin), String::new()),
        row("available", yuan(money.available), String::new()),
        row("covered premium", yuan(money.covered_premium), joins),
    ];
    let sides = [Side::Left, Side::Right, Side::Left];
    format!("Money in yuan\n{}", aligned(&sides, &rows))
}

/// A title and rows under their headings, words to the left and numbers to the right.
fn section<const N: usize>(
    title: &str,
    headings: [(&str, Side); N],
    rows: impl Iterator<Item = [String; N]>,
) -> String {
    let sides = headings.map(|(_, side)| side);
    let head = headings.map(|(name, _)| name.to_string()).to_vec();
    let rows: Vec<Vec<String>> = [head]
        .into_iter()
        .chain(rows.map(|row| row.to_vec()))
        .collect();
    format!("{title}\n{}", aligned(&sides, &rows))
}

fn on(contract: &Contract) -> String {
    let Contract {
        number,
        right,
        underlying,
        ..
    } = contract;
    format!("{number:>2} {right:<4} on {underlying}")
}

fn positions(positions: &[Position]) -> String {
    if positions.is_empty() {
        return "No positions.\n".to_string();
    }
    let headings = [
        ("contract", Side::Left),
        ("strike", Side::Right),
        ("unit", Side::Right),
        ("settlement", Side::Right),
        ("long", Side::Right),
        ("short", Side::Right),
        ("covered", Side::Right),
        ("margin of 1", Side::Right),
        ("margin", Side::Right),
    ];
    let row = |position: &Position| {
        let contract = &position.contract;
        [
            on(contract),
            price(contract.strike),
            contract.unit.to_string(),
            price(contract.settlement),
            position.long.to_string(),
            position.short.to_string(),
            position.covered.to_string(),
            yuan(contract.margin_of_one),
            yuan(position.margin),
        ]
    };
    section("Positions", headings, positions.iter().map(row))
}

fn named(underlying: &Underlying) -> String {
    format!("{} {}", underlying.number, underlying.class)
}

fn standings(underlyings: &[Underlying]) -> String {
    let headings = [
        ("underlying", Side::Left),
        ("close", Side::Right),
        ("rights", Side::Right),
        ("total", Side::Right),
        ("daily", Side::Right),
        ("locked", Side::Right),
        ("spare", Side::Right),
    ];
    let row = |underlying: &Underlying, standing: &Standing| {
        let of = |used: u32, limit: u16| format!("{used} of {limit}");
        [
            named(underlying),
            price(underlying.close),
            of(standing.rights, underlying.rights),
            of(standing.total, underlying.total),
            of(standing.daily, underlying.daily),
            standing.locked.to_string(),
            standing.spare.to_string(),
        ]
    };
    let rows = underlyings
        .iter()
        .filter_map(|underlying| Some(row(underlying, underlying.standing.as_ref()?)));
    section("Underlyings", headings, rows)
}

fn limits(underlyings: &[Underlying]) -> String {
    let headings = [
        ("underlying", Side::Left),
        ("close", Side::Right),
        ("rights limit", Side::Right),
        ("total limit", Side::Right),
        ("daily limit", Side::Right),
    ];
    let row = |underlying: &Underlying| {
        [
            named(underlying),
            price(underlying.close),
            underlying.rights.to_string(),
            underlying.total.to_string(),
            underlying.daily.to_string(),
        ]
    };
    section("Underlyings", headings, underlyings.iter().map(row))
}

fn contracts(contracts: &[Contract]) -> String {
    let headings = [
        ("contract", Side::Left),
        ("strike", Side::Right),
        ("unit", Side::Right),
        ("settlement", Side::Right),
        ("margin of 1", Side::Right),
    ];
    let row = |contract: &Contract| {
        [
            on(contract),
            price(contract.strike),
            contract.unit.to_string(),
            price(contract.settlement),
            yuan(contract.margin_of_one),
        ]
    };
    section("Contracts", headings, contracts.iter().map(row))
}

fn orders(orders: &[Order]) -> String {
    if orders.is_empty() {
        return "No resting orders.\n".to_string();
    }
    let headings = [
        ("order", Side::Right),
        ("kind", Side::Left),
        ("contract", Side::Left),
        ("strike", Side::Right),
        ("left", Side::Right),
        ("price", Side::Right),
        ("hold", Side::Right),
        ("reserved", Side::Right),
    ];
    let row = |order: &Order| {
        [
            order.number.to_string(),
            order.kind.to_string(),
            on(&order.contract),
            price(order.contract.strike),
            order.left.to_string(),
            price(order.price),
            yuan(order.hold),
            order.reserved.to_string(),
        ]
    };
    section("Resting orders", headings, orders.iter().map(row))
}

//! The view as one JSON object, its keys always the same and in one order. Money and prices are strings in yuan: as a number 0.10 would be
//! read as a binary fraction near it, and what is summed from such is not exact. Counts and units are numbers.

use super::fields::{Fields, Value};
use super::view::View;

/// What there is none of before the opening, where an empty list would say that an account has none.
const NOTHING: &str = "null";

pub fn json(view: &View) -> String {
    let account = view.account.as_ref();
    let of_account = |text: Option<String>| text.unwrap_or_else(|| NOTHING.to_string());
    let members = [
        ("stage", quoted(view.stage)),
        ("waits_for", quoted(view.waits_for)),
        (
            "last_order",
            of_account(account.map(|a| a.last_order.to_string())),
        ),
        ("money", of_account(account.map(|a| object(&a.money)))),
        ("underlyings", list(&view.underlyings)),
        ("contracts", list(&view.contracts)),
        ("positions", of_account(account.map(|a| list(&a.positions)))),
        ("orders", of_account(account.map(|a| list(&a.orders)))),
    ];
    let members = members.map(|(name, value)| format!("  {}: {value}", quoted(name)));
    format!("{{\n{}\n}}\n", members.join(",\n"))
}

/// A line for each row, so that two views can be compared line by line.
fn list(rows: &[impl Fields]) -> String {
    if rows.is_empty() {
        return "[]".to_string();
    }
    let rows: Vec<String> = rows
        .iter()
        .map(|row| format!("    {}", object(row)))
        .collect();
    format!("[\n{}\n  ]", rows.join(",\n"))
}

fn object(row: &impl Fields) -> String {
    let fields = row.fields();
    let members: Vec<String> = fields
        .iter()
        .map(|(name, value)| format!("{}: {}", quoted(name), literal(value)))
        .collect();
    format!("{{{}}}", members.join(", "))
}

fn literal(value: &Value) -> String {
    match value {
        Value::Word(_) | Value::Price(_) | Value::Money(_) => quoted(&value.text()),
        Value::Number(_) | Value::Contracts(_) | Value::Units(_) => value.text(),
    }
}

/// Our words have letters, digits, spaces and a few signs: nothing that a JSON string would have to escape.
fn quoted(word: &str) -> String {
    format!("\"{word}\"")
}

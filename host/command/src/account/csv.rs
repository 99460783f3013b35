//! The view as CSV (RFC 4180): a line for each value, behind its section, its row's number and its name. So every line has the same five
//! fields, one value is found by its names, and a value that is told some day moves no other. No field ever needs quotes: none has a comma.

use super::fields::{Field, Fields, Value};
use super::view::View;

/// What the value counts stands last: RFC 4180 ends lines in CR LF, and to a tool that knows LF alone the CR belongs to the last field.
const HEAD: [&str; 5] = ["section", "row", "field", "value", "measure"];

pub fn csv(view: &View) -> String {
    let mut text = line(HEAD);
    text += &values("book", "", &book(view));
    if let Some(account) = &view.account {
        text += &values("money", "", &account.money.fields());
    }
    text += &rows("underlying", &view.underlyings);
    text += &rows("contract", &view.contracts);
    if let Some(account) = &view.account {
        text += &rows("position", &account.positions);
        text += &rows("order", &account.orders);
    }
    text
}

fn book(view: &View) -> Vec<Field> {
    let mut fields = vec![
        ("stage", Value::Word(view.stage)),
        ("waits_for", Value::Word(view.waits_for)),
    ];
    let account = view.account.iter();
    fields.extend(account.map(|account| ("last_order", Value::Number(account.last_order))));
    fields
}

fn rows(section: &str, rows: &[impl Fields]) -> String {
    let row = |fields: Vec<Field>| {
        let (own, rest) = fields.split_first().expect("a row has fields");
        values(section, &own.1.text(), rest)
    };
    rows.iter().map(|fields| row(fields.fields())).collect()
}

fn values(section: &str, row: &str, fields: &[Field]) -> String {
    let told = |(name, value): &Field| line([section, row, name, &value.text(), value.measure()]);
    fields.iter().map(told).collect()
}

fn line(fields: [&str; 5]) -> String {
    fields.join(",") + "\r\n"
}

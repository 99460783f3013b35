//! Which values of a record are outside their ranges, or name nothing in the tables.

use crate::records::line::{spelled, Values};
use crate::records::table::{word_of, Field, Row, Times, Within, ORDER_KINDS};
use native::account::Tables;
use native::entries::Entry;
use native::set_up::Book;
use native::terms::{unit_allowed, Measure, Right, Side};

/// How many of them are told.
const MOST: usize = 3;

pub fn figures(book: &Book, row: &Row, values: &Values, entry: Entry) -> String {
    let mut found = Vec::new();
    for (field, numbers) in row.fields.iter().zip(values) {
        for (place, &number) in numbers.iter().enumerate() {
            let outside = outside(&book.tables, field, number);
            found.extend(outside.map(|words| format!("{} {words}", named(field, place))));
        }
    }
    found.extend(full(&book.tables, entry));
    found.extend(covered_put(&book.tables, entry));
    let more = found.len().saturating_sub(MOST);
    found.truncate(MOST);
    if 0 < more {
        found.push(format!("and {more} more"));
    }
    found.join(", ")
}

fn named(field: &Field, place: usize) -> String {
    match field.times {
        Times::Once => field.name.to_string(),
        Times::Counted(_) => format!("{} at {place}:", field.name),
    }
}

/// What is wrong with a field's number by itself and by the tables.
fn outside(tables: &Tables, field: &Field, number: u64) -> Option<String> {
    let shown = spelled(field.form, number);
    let listed = |count: usize| {
        let there = match count {
            0 => "none".to_string(),
            1 => "only 0".to_string(),
            _ => format!("0 to {}", count - 1),
        };
        let missing = count as u64 <= number;
        missing.then(|| format!("{shown} is not in the tables, which have {there}"))
    };
    let all = |count: usize| {
        let other = number != count as u64;
        other.then(|| format!("{shown} is not the tables' {count}"))
    };
    match field.within {
        Within::Anything => None,
        Within::Contract => listed(tables.n),
        Within::Underlying => listed(tables.m),
        Within::AllContracts => all(tables.n),
        Within::AllUnderlyings => all(tables.m),
        Within::Range(measure) => outside_range(field, measure, number),
        Within::Unit => outside_range(field, Measure::Unit, number).or_else(|| {
            let uneven = !unit_allowed(number);
            uneven.then(|| format!("{shown} is no multiple of 100"))
        }),
    }
}

fn outside_range(field: &Field, measure: Measure, number: u64) -> Option<String> {
    if measure.allows(number) {
        return None;
    }
    let range = measure.range();
    let [shown, least, most] = [number, range.0, range.1].map(|x| spelled(field.form, x));
    Some(format!("{shown} is not {least} to {most}"))
}

/// A row more than the tables have room for.
fn full(tables: &Tables, entry: Entry) -> Option<String> {
    let (count, measure, what) = match entry {
        Entry::Underlying(_) => (tables.m, Measure::Underlyings, "underlyings"),
        Entry::Contract(_) => (tables.n, Measure::Contracts, "contracts"),
        _ => return None,
    };
    let most = measure.range().1;
    (most <= count as u64).then(|| format!("the tables have {count} {what}, as many as they can"))
}

/// Covered is for calls only.
fn covered_put(tables: &Tables, entry: Entry) -> Option<String> {
    let order = match entry {
        Entry::Order(order) => order,
        _ => return None,
    };
    let contract = tables.contracts[..tables.n].get(usize::from(order.contract))?;
    let kind = word_of(ORDER_KINDS, order.kind.into());
    match (order.kind.moves(), contract.right) {
        (Side::Covered, Right::Put) => Some(format!(
            "{kind} is for calls, and contract {} is a put",
            order.contract
        )),
        _ => None,
    }
}

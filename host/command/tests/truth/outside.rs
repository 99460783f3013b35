//! The words of refusal 4, held to the documents' ranges and to the tables before the record.

use crate::common::lines::{decimal, part};
use plain::entry::{Entry, Order};
use plain::terms::{self, unit_allowed, within, Contract, Kind, Right, Tables, Underlying};
use std::ops::RangeInclusive;

/// What is wrong with a value.
#[derive(Debug, PartialEq, Eq)]
enum Fault {
    Outside(i128, RangeInclusive<i128>),
    /// Not in the tables, which have so many.
    Unlisted(i128, usize),
    /// A count that is not the tables'.
    Uncounted(i128, usize),
    Uneven(i128),
    Full(usize),
    CoveredPut(Kind, u16),
}

/// With the name of the field; that of a figure of a day end has its place.
type Named = (String, Fault);

/// Gives the forms of the words, one for each value that is named.
pub fn hold(tables: &Tables, entry: &Entry, words: &str) -> Vec<&'static str> {
    let faults = faults(tables, entry);
    let mut told = pieces(words);
    let more = told.last().and_then(|last| last.strip_prefix("and "));
    let more = more.and_then(|rest| rest.strip_suffix(" more"));
    let more = more.map_or(0, |count| decimal(count, 0) as usize);
    if 0 < more {
        told.pop();
    }
    let told: Vec<Named> = told.iter().map(|piece| parsed(piece)).collect();
    assert!(!told.is_empty(), "no value is named");
    assert_eq!(told.len() + more, faults.len(), "{words} of {faults:?}");
    for (place, named) in told.iter().enumerate() {
        assert!(faults.contains(named), "{named:?} is not of {faults:?}");
        assert!(!told[..place].contains(named), "{named:?} is told twice");
    }
    let mut forms: Vec<&str> = told.iter().map(form).collect();
    if 0 < more {
        forms.push("more than are told");
    }
    forms
}

fn form((name, fault): &Named) -> &'static str {
    match fault {
        Fault::Outside(..) if name.ends_with(':') => "a figure outside its range",
        Fault::Outside(..) => "outside its range",
        Fault::Unlisted(_, 0) => "not in tables that have none",
        Fault::Unlisted(..) => "not in the tables",
        Fault::Uncounted(..) => "not the tables' count",
        Fault::Uneven(_) => "no multiple of 100",
        Fault::Full(8) => "a 9th underlying",
        Fault::Full(_) => "a 65th contract",
        Fault::CoveredPut(..) => "covered kind on a put",
    }
}

/// The words of one value each; what is told of a value may have a comma of its own.
fn pieces(words: &str) -> Vec<String> {
    let mut pieces: Vec<String> = Vec::new();
    for part in words.split(", ") {
        let goes_on = ["which have ", "as many as ", "and contract "];
        match pieces.last_mut() {
            Some(last) if goes_on.iter().any(|words| part.starts_with(words)) => {
                *last += &format!(", {part}");
            }
            _ => pieces.push(part.to_string()),
        }
    }
    pieces
}

/// The digits behind the point of a field's numbers.
fn places(name: &str) -> usize {
    match name.split(' ').next() {
        Some("amount" | "cash") => 2,
        Some("close" | "closes" | "strike" | "price" | "settlement" | "settlements") => 4,
        _ => 0,
    }
}

fn parsed(piece: &str) -> Named {
    if let Some(rest) = piece.strip_prefix("the tables have ") {
        let (count, rest) = part(rest, " ");
        let (what, rest) = part(rest, ", ");
        assert_eq!(rest, "as many as they can");
        return (what.to_string(), Fault::Full(decimal(count, 0) as usize));
    }
    if let Some((kind, rest)) = piece.split_once(" is for calls, and contract ") {
        let (contract, rest) = part(rest, " is ");
        assert_eq!(rest, "a put");
        let contract = decimal(contract, 0) as u16;
        let fault = Fault::CoveredPut(covered_kind(kind), contract);
        return ("kind".to_string(), fault);
    }
    let (subject, rest) = part(piece, " is ");
    let (name, value) = subject.rsplit_once(' ').expect("a value has its name");
    (
        name.to_string(),
        fault(places(name), decimal(value, places(name)), rest),
    )
}

fn covered_kind(word: &str) -> Kind {
    match word {
        "covered-open" => Kind::CoveredOpen,
        "covered-close" => Kind::CoveredClose,
        other => panic!("{other} is no covered kind"),
    }
}

/// What is said behind `NAME VALUE is `.
fn fault(places: usize, value: i128, words: &str) -> Fault {
    let count = |text| decimal(text, 0) as usize;
    if words == "no multiple of 100" {
        return Fault::Uneven(value);
    }
    if let Some(rest) = words.strip_prefix("not in the tables, which have ") {
        let there = match rest {
            "none" => 0,
            "only 0" => 1,
            _ => 1 + count(rest.strip_prefix("0 to ").expect("those that are there")),
        };
        return Fault::Unlisted(value, there);
    }
    if let Some(own) = words.strip_prefix("not the tables' ") {
        return Fault::Uncounted(value, count(own));
    }
    let range = words
        .strip_prefix("not ")
        .expect("a value is not something");
    let (least, most) = part(range, " to ");
    let range = decimal(least, places)..=decimal(most, places);
    assert!(!range.contains(&value), "{value} is in {range:?}");
    Fault::Outside(value, range)
}

/// All that is wrong with a record's values, by the documents.
fn faults(tables: &Tables, entry: &Entry) -> Vec<Named> {
    let mut faults = Faults(Vec::new());
    let underlyings = tables.underlyings.len();
    match entry {
        Entry::Deposit { amount } | Entry::Withdraw { amount } => {
            faults.range("amount", *amount, terms::TRANSFER);
        }
        Entry::Lock { underlying, units } | Entry::Unlock { underlying, units } => {
            faults.listed("underlying", *underlying, underlyings);
            faults.range("units", *units, terms::UNITS_AT_ONCE);
        }
        Entry::Order(order) => faults.order(tables, order),
        Entry::Fill(fill) => {
            faults.range("quantity", fill.quantity, terms::QUANTITY);
            faults.range("price", fill.price, terms::PRICE);
        }
        Entry::DayEnd {
            settlements,
            closes,
        } => {
            faults.counted("n", settlements.len(), tables.contracts.len());
            faults.counted("m", closes.len(), underlyings);
            faults.ranges("settlements", settlements, terms::SETTLEMENT);
            faults.ranges("closes", closes, terms::PRICE);
        }
        Entry::Underlying(row) => faults.underlying(tables, row),
        Entry::Contract(row) => faults.contract(tables, row),
        Entry::Opening { cash } => faults.range("cash", *cash, terms::OPENING_CASH),
        Entry::Cancel { .. } | Entry::Pay | Entry::Drop => {}
    }
    faults.0
}

struct Faults(Vec<Named>);

impl Faults {
    fn push(&mut self, name: impl Into<String>, fault: Fault) {
        self.0.push((name.into(), fault));
    }

    fn range(&mut self, name: &str, value: impl Into<u64>, range: RangeInclusive<u64>) {
        let value = value.into();
        if !within(value, range.clone()) {
            let range = i128::from(*range.start())..=i128::from(*range.end());
            self.push(name, Fault::Outside(value.into(), range));
        }
    }

    fn ranges(&mut self, name: &str, values: &[u32], range: RangeInclusive<u64>) {
        for (place, &value) in values.iter().enumerate() {
            self.range(&format!("{name} at {place}:"), value, range.clone());
        }
    }

    fn listed(&mut self, name: &str, number: u16, count: usize) {
        if count <= usize::from(number) {
            self.push(name, Fault::Unlisted(number.into(), count));
        }
    }

    fn counted(&mut self, name: &str, number: usize, count: usize) {
        if number != count {
            self.push(name, Fault::Uncounted(number as i128, count));
        }
    }

    fn order(&mut self, tables: &Tables, order: &Order) {
        self.listed("contract", order.contract, tables.contracts.len());
        self.range("quantity", order.quantity, terms::QUANTITY);
        self.range("price", order.price, terms::PRICE);
        let contract = tables.contracts.get(usize::from(order.contract));
        let put = contract.map_or(false, |contract| contract.right == Right::Put);
        if put && order.kind.covered() {
            self.push("kind", Fault::CoveredPut(order.kind, order.contract));
        }
    }

    fn underlying(&mut self, tables: &Tables, row: &Underlying) {
        self.range("close", row.close, terms::PRICE);
        let limits = [
            ("rights", row.rights),
            ("total", row.total),
            ("daily", row.daily),
        ];
        for (name, limit) in limits {
            self.range(name, limit, terms::LIMIT);
        }
        self.full("underlyings", tables.underlyings.len(), terms::UNDERLYINGS);
    }

    fn contract(&mut self, tables: &Tables, row: &Contract) {
        self.listed("underlying", row.underlying, tables.underlyings.len());
        self.range("strike", row.strike, terms::PRICE);
        self.range("unit", row.unit, terms::UNIT);
        if within(row.unit, terms::UNIT) && !unit_allowed(row.unit) {
            self.push("unit", Fault::Uneven(row.unit.into()));
        }
        self.range("settlement", row.settlement, terms::SETTLEMENT);
        self.full("contracts", tables.contracts.len(), terms::CONTRACTS);
    }

    fn full(&mut self, what: &str, count: usize, range: RangeInclusive<u64>) {
        if count as u64 == *range.end() {
            self.push(what, Fault::Full(count));
        }
    }
}

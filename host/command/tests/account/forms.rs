//! What holds of the three forms of every view: they can be read, they say the same, and the table is narrow.

use crate::json::{self, Json};
use ravundesk::account::{csv, json, table, View};

pub fn all_forms_hold(view: &View) {
    table_is_narrow(&table(view));
    let (csv, json) = (csv(view), json(view));
    assert!(json.ends_with("}\n"));
    assert_eq!(told_by_csv(&csv), told_by_json(&json::read(&json)));
}

fn table_is_narrow(table: &str) {
    assert!(table.ends_with('\n'));
    for line in table.lines() {
        assert!(line.is_ascii() && line.len() <= 100, "{line}");
        assert_eq!(line, line.trim_end());
    }
}

/// Section, row, field and value.
type Told = [String; 4];

fn told_by_csv(csv: &str) -> Vec<Told> {
    let lines: Vec<&str> = csv.split("\r\n").collect();
    let (last, lines) = lines.split_last().expect("a text has lines");
    assert_eq!(*last, "", "the last line has its end");
    assert_eq!(lines[0], "section,row,field,value,measure");
    lines[1..].iter().map(|line| told_by_line(line)).collect()
}

fn told_by_line(line: &str) -> Told {
    assert!(!line.contains(['"', '\r', '\n']), "{line}");
    let fields: Vec<&str> = line.split(',').collect();
    assert_eq!(fields.len(), 5, "{line}");
    let measures = ["", "yuan", "contracts", "units"];
    assert!(measures.contains(&fields[4]), "{line}");
    assert_eq!(fields[4] == "yuan", fields[3].contains('.'), "{line}");
    [0, 1, 2, 3].map(|field| fields[field].to_string())
}

fn told_by_json(json: &Json) -> Vec<Told> {
    let mut told = Vec::new();
    for (name, value) in members(json) {
        match value {
            Json::Null => (),
            Json::Object(_) => told.extend(fields(name, "", members(value))),
            Json::List(rows) => told.extend(rows.iter().flat_map(|row| row_of(name, row))),
            _ => told.push(one("book", "", name, value)),
        }
    }
    told
}

fn members(json: &Json) -> &[(String, Json)] {
    match json {
        Json::Object(members) => members,
        other => panic!("{other:?} is no object"),
    }
}

/// The list has the section's name with an s behind it; the row's number comes first.
fn row_of(list: &str, row: &Json) -> Vec<Told> {
    let (own, rest) = members(row).split_first().expect("a row has fields");
    fields(list.strip_suffix('s').expect(list), &word(&own.1), rest)
}

fn fields(section: &str, row: &str, members: &[(String, Json)]) -> Vec<Told> {
    let told = |(name, value): &(String, Json)| one(section, row, name, value);
    members.iter().map(told).collect()
}

fn one(section: &str, row: &str, field: &str, value: &Json) -> Told {
    [section, row, field, &word(value)].map(String::from)
}

fn word(value: &Json) -> String {
    match value {
        Json::Number(number) => number.to_string(),
        Json::Text(text) => text.clone(),
        other => panic!("{other:?} is no single value"),
    }
}

/// Before the opening there is no account, which is not the same as an empty one.
#[test]
fn keys_are_always_the_same() {
    let keys = |records| {
        let bytes = plain::record::written(&plain::worked::entries()).unwrap();
        let view = ravundesk::account::view(&crate::after(&bytes, records).book);
        let json = json::read(&json(&view));
        let nulls = members(&json).iter().filter(|(_, v)| *v == Json::Null);
        let names = members(&json).iter().map(|(name, _)| name.clone());
        (names.collect::<Vec<_>>(), nulls.count())
    };
    let (names, nulls) = keys(0);
    assert_eq!(nulls, 4);
    assert_eq!(keys(2), (names.clone(), 4));
    assert_eq!(keys(3), (names, 0));
}

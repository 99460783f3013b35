//! A book that is shown as text is made of that text again, whatever its bytes are.

mod common;

use common::{random_books, ravundesk, told_books, Book, Tried};
use plain::record::read;
use ravundesk::records::table::{Form, Row, ROWS};
use ravundesk::refusals::meaning;
use std::fs;
use std::path::Path;
use trials::chance::Chance;

/// How many records can be read, and where and why the next one can't.
fn records(bytes: &[u8]) -> (usize, Option<(usize, u8)>) {
    let (mut count, mut place) = (0, 0);
    while place < bytes.len() {
        match read(bytes, place) {
            Ok((_, length)) => place += length,
            Err(refusal) => return (count, Some((place, refusal))),
        }
        count += 1;
    }
    (count, None)
}

fn readable(bytes: &[u8]) -> bool {
    records(bytes).1.is_none()
}

/// Gives the text.
fn hold(book: &Book) -> String {
    let _tried = Tried(&book.name, "shown and written");
    let shown = ravundesk(&["show"], &book.bytes);
    let written = ravundesk(&["write"], &shown.output);
    assert!(written.output == book.bytes, "{}", shown.text());
    assert_eq!((written.errors.as_str(), written.status), ("", 0));
    assert_eq!(shown.status, if readable(&book.bytes) { 0 } else { 3 });
    hold_lines(&book.bytes, shown.text());
    shown.text().to_string()
}

/// A line for each record; all bytes from the first that is none on are raw.
fn hold_lines(bytes: &[u8], text: &str) {
    let (count, stop) = records(bytes);
    let lines: Vec<&str> = text.lines().collect();
    let (read, raw) = lines.split_at(count);
    let is_raw = |line: &&str| line.starts_with("raw ");
    assert!(!read.iter().any(is_raw), "{text}");
    match (stop, raw) {
        (None, []) => {}
        (Some((place, refusal)), [remark, raw @ ..]) => {
            let meaning = meaning(refusal);
            let own = format!("# at byte {place}, refusal {refusal}: {meaning}");
            assert_eq!(*remark, own);
            assert!(!raw.is_empty() && raw.iter().all(is_raw), "{text}");
        }
        _ => panic!("{count} records in: {text}"),
    }
}

/// The same through a file of this name, whose book is shown again; the last line may lack its end.
fn hold_filed(book: &Book, file: &str) {
    let text = hold(book);
    let place = Path::new(env!("CARGO_TARGET_TMPDIR")).join(file);
    let name = place.to_str().expect("its name is text");
    let open_end = text.trim_end_matches('\n').as_bytes();
    let filed = ravundesk(&["write", "--to", name], open_end);
    assert_eq!((filed.errors.as_str(), filed.status), ("", 0));
    assert!(filed.output.is_empty());
    assert!(fs::read(&place).expect("the book is there") == book.bytes);
    let again = ravundesk(&["show", name], &[]);
    assert_eq!(again.text(), text);
}

#[test]
fn no_bytes() {
    hold_filed(&Book::new("no bytes", Vec::new()), "no_bytes");
    assert!(ravundesk(&["show"], &[]).output.is_empty());
}

#[test]
fn examples_and_telling_books() {
    for book in told_books() {
        hold_filed(&book, "told");
    }
}

#[test]
fn random_ones_and_damaged_ones() {
    for book in random_books(401, 150) {
        hold_filed(&book, "random");
    }
}

/// Any bytes, or only signs of text, or records with any fields and now and then a wrong one.
fn any_bytes(chance: &mut Chance) -> Vec<u8> {
    let size = chance.between(1, 200);
    let (least, most) = chance.pick(&[(0, 255), (32, 126), (0, 18)]);
    let byte = |chance: &mut Chance| chance.between(least, most) as u8;
    if chance.percent(50) {
        return (0..size).map(|_| byte(chance)).collect();
    }
    let mut bytes = Vec::new();
    while bytes.len() < size as usize {
        let row = &ROWS[chance.between(0, ROWS.len() as i64 - 1) as usize];
        let mut fields = Vec::new();
        for field in row.fields {
            let code = chance.pick(&[1, 1, 1, 1, 2, 2, 2, 2, 2, 0]);
            match field.form {
                Form::Word(_) => fields.extend([code, 0]),
                _ => fields.extend((0..field.width).map(|_| byte(chance))),
            }
        }
        bytes.extend(with_head(row, &fields));
    }
    bytes
}

fn with_head(row: &Row, fields: &[u8]) -> Vec<u8> {
    let head = [4 + fields.len() as u16, row.kind].map(u16::to_le_bytes);
    [&head.concat(), fields].concat()
}

#[test]
fn any_bytes_at_all() {
    let mut chance = Chance::new(409, 0);
    for number in 1..=300 {
        let name = format!("bytes {number}");
        hold(&Book::new(name, any_bytes(&mut chance)));
    }
}

/// The row's records with each field at 0, at 1 and at its largest, in all combinations; a day end has one settlement and one close.
fn edges(row: &Row) -> Vec<Vec<u8>> {
    let mut begun: Vec<Vec<u8>> = vec![Vec::new()];
    for field in row.fields {
        let values = [0, 1, u64::MAX].map(u64::to_le_bytes);
        let with = |value: &[u8; 8], begun: &Vec<u8>| [begun, &value[..field.width]].concat();
        let longer = begun
            .iter()
            .flat_map(|begun| values.iter().map(move |value| with(value, begun)));
        begun = longer.collect();
    }
    begun.iter().map(|fields| with_head(row, fields)).collect()
}

/// The longest day end, with figures at 0, at 1 and at the largest.
fn longest_day_end() -> Vec<u8> {
    let figure = |place: usize| [0, 1, u32::MAX][place % 3].to_le_bytes();
    let head = [296_u16, 8, 64, 8].map(u16::to_le_bytes).concat();
    head.into_iter().chain((0..72).flat_map(figure)).collect()
}

/// All that can be read stand in one book; each of the others is one by itself, since nothing is read past it.
#[test]
fn every_field_at_its_edges() {
    let records = ROWS.iter().flat_map(edges).chain([longest_day_end()]);
    let (whole, broken): (Vec<_>, Vec<_>) = records.partition(|record| readable(record));
    assert!(250 < whole.len() && 500 < broken.len());
    hold_filed(&Book::new("all that can be read", whole.concat()), "edges");
    // Every other one still has each field at each of the three.
    for record in broken.into_iter().step_by(2) {
        hold(&Book::new(format!("{record:02x?}"), record));
    }
}

//! A record as a line of text, and a line of text as a record.

use super::table::{Field, Form, Row, Times, ROWS};
use crate::decimal;
use std::fmt;
use std::iter::Peekable;

/// The bytes of length and kind, which every record begins with.
pub const HEAD: usize = 4;

/// The numbers of a record's fields, in the order of their bytes; of a field that may be there several times, all of them.
pub type Values = Vec<Vec<u64>>;

/// The word that begins a line of bytes that are no record.
pub const RAW: &str = "raw";

pub fn values(row: &Row, record: &[u8]) -> Values {
    let mut rest = &record[HEAD..];
    let mut values = Values::new();
    for field in row.fields {
        let times = match field.times {
            Times::Once => 1,
            Times::Counted(place) => values[place][0],
        };
        let mut numbers = Vec::new();
        for _ in 0..times {
            let (bytes, behind) = rest.split_at(field.width);
            let digits = bytes.iter().rev();
            numbers.push(digits.fold(0, |number, &byte| number << 8 | u64::from(byte)));
            rest = behind;
        }
        values.push(numbers);
    }
    values
}

/// The record of such numbers, each of which has room in its field.
pub fn record(row: &Row, values: &Values) -> Vec<u8> {
    let mut fields: Vec<u8> = Vec::new();
    for (field, numbers) in row.fields.iter().zip(values) {
        for number in numbers {
            fields.extend(&number.to_le_bytes()[..field.width]);
        }
    }
    let length = (HEAD + fields.len()) as u16;
    let mut record = [length.to_le_bytes(), row.kind.to_le_bytes()].concat();
    record.extend(fields);
    record
}

/// A piece of a row's line.
enum Part {
    Word(&'static str),
    Field { before: &'static str, place: usize },
}

fn parts(row: &Row) -> impl Iterator<Item = Part> + '_ {
    row.text.split(' ').map(move |word| {
        let capital = word.find(|sign: char| sign.is_ascii_uppercase());
        match capital {
            None => Part::Word(word),
            Some(at) => Part::Field {
                before: &word[..at],
                place: row.place(word[at..].trim_end_matches("..")),
            },
        }
    })
}

/// The record's line. Of a field that is there more than `most` times the first ones are told, and how many there are.
pub fn said(row: &Row, values: &Values, most: usize) -> String {
    let mut words = Vec::new();
    for part in parts(row) {
        match part {
            Part::Word(word) => words.push(word.to_string()),
            Part::Field { before, place } => {
                let form = row.fields[place].form;
                let all = &values[place];
                let told = if all.len() <= most {
                    all.len()
                } else {
                    most - 1
                };
                let spelled = |&number| format!("{before}{}", spelled(form, number));
                words.extend(all[..told].iter().map(spelled));
                if told < all.len() {
                    words.push(format!(".. ({})", all.len()));
                }
            }
        }
    }
    words.join(" ")
}

pub fn spelled(form: Form, number: u64) -> String {
    match form {
        Form::Whole => number.to_string(),
        Form::Price => decimal::price(number),
        Form::Money => decimal::yuan(number),
        Form::Word(words) => {
            let place = number.checked_sub(1).map(|place| place as usize);
            let word = place.and_then(|place| words.get(place));
            word.map_or(number.to_string(), |word| word.to_string())
        }
    }
}

/// What stands in a line, and what would be right there.
#[derive(Debug, PartialEq, Eq)]
pub struct Wrong {
    found: String,
    right: String,
}

impl fmt::Display for Wrong {
    fn fmt(&self, text: &mut fmt::Formatter) -> fmt::Result {
        write!(text, "{}: {}", self.found, self.right)
    }
}

fn wrong(found: Option<&str>, right: String) -> Wrong {
    let found = match found {
        Some(word) => format!("`{}`", word.escape_debug()),
        None => "the line ends".to_string(),
    };
    Wrong { found, right }
}

/// The bytes that a line spells; none where it is empty or a remark.
pub fn bytes_of(line: &str) -> Result<Vec<u8>, Wrong> {
    let text = line.split('#').next().unwrap_or(line);
    let mut words = text.split_whitespace().peekable();
    match words.next() {
        None => Ok(Vec::new()),
        Some(RAW) => raw(words),
        Some(first) => match ROWS.iter().find(|row| row.first_word() == first) {
            Some(row) => recorded(row, words),
            None => Err(wrong(Some(first), first_words())),
        },
    }
}

fn first_words() -> String {
    let words: Vec<&str> = ROWS.iter().map(Row::first_word).collect();
    format!("a record begins with one of: {} {RAW}", words.join(" "))
}

fn recorded<'a>(
    row: &Row,
    mut words: Peekable<impl Iterator<Item = &'a str>>,
) -> Result<Vec<u8>, Wrong> {
    let mut values: Values = row.fields.iter().map(|_| Vec::new()).collect();
    let mut parts = parts(row).skip(1).peekable();
    while let Some(part) = parts.next() {
        match part {
            Part::Word(word) => expect(row, word, words.next())?,
            Part::Field { before, place } => {
                let field = &row.fields[place];
                values[place].push(number(row, field, before, words.next())?);
                let end = match parts.peek() {
                    Some(Part::Word(word)) => Some(*word),
                    _ => None,
                };
                let more = |next: Option<&&str>| next.is_some() && next.copied() != end;
                while field.times != Times::Once && more(words.peek()) {
                    values[place].push(number(row, field, before, words.next())?);
                }
            }
        }
    }
    match words.next() {
        Some(more) => Err(wrong(
            Some(more),
            format!("the line should end here ({})", row.text),
        )),
        None => counted(row, values),
    }
}

fn expect(row: &Row, word: &str, found: Option<&str>) -> Result<(), Wrong> {
    if found == Some(word) {
        return Ok(());
    }
    Err(wrong(
        found,
        format!("`{word}` should stand here ({})", row.text),
    ))
}

fn number(row: &Row, field: &Field, before: &str, found: Option<&str>) -> Result<u64, Wrong> {
    let text = found.and_then(|word| word.strip_prefix(before));
    let number = text.and_then(|text| match field.form {
        Form::Whole => decimal::read(text, 0),
        Form::Price => decimal::read(text, decimal::PRICE),
        Form::Money => decimal::read(text, decimal::MONEY),
        Form::Word(words) => coded(words, text),
    });
    let number = number.filter(|&number| number <= field.most());
    number.ok_or_else(|| {
        wrong(
            found,
            format!("{} ({})", should_be(field, before), row.text),
        )
    })
}

fn coded(words: &[&str], text: &str) -> Option<u64> {
    let place = words.iter().position(|&word| word == text);
    place.map(|place| place as u64 + 1)
}

/// What a field takes, in words.
fn should_be(field: &Field, before: &str) -> String {
    let yuan = |places| format!("yuan with at most {places} places");
    let sort = match field.form {
        Form::Word(words) => return format!("{} is one of {}", field.name, words.join(" ")),
        Form::Whole => "a whole number".to_string(),
        Form::Price => yuan(decimal::PRICE),
        Form::Money => yuan(decimal::MONEY),
    };
    let before = match before {
        "" => String::new(),
        sign => format!("`{sign}` and "),
    };
    let most = spelled(field.form, field.most());
    let each = match field.times {
        Times::Once => "",
        Times::Counted(_) => "each of ",
    };
    format!("{each}{} is {before}{sort}, up to {most}", field.name)
}

/// The record, once what the line does not spell is counted.
fn counted(row: &Row, mut values: Values) -> Result<Vec<u8>, Wrong> {
    for field in row.fields {
        if let Times::Counted(place) = field.times {
            let count = values[row.place(field.name)].len() as u64;
            let range = row.fields[place].measure().map(|measure| measure.range());
            if let Some(range) = range.filter(|range| !(range.0..=range.1).contains(&count)) {
                let found = format!("{count} {}", field.name);
                let right = format!("there are {} to {}", range.0, range.1);
                return Err(Wrong { found, right });
            }
            values[place] = vec![count];
        }
    }
    Ok(record(row, &values))
}

fn raw<'a>(words: impl Iterator<Item = &'a str>) -> Result<Vec<u8>, Wrong> {
    let mut bytes = Vec::new();
    for word in words {
        let digits: Option<Vec<u32>> = word.chars().map(|sign| sign.to_digit(16)).collect();
        match digits {
            Some(digits) if digits.len() % 2 == 0 => {
                bytes.extend(digits.chunks(2).map(|pair| (16 * pair[0] + pair[1]) as u8));
            }
            _ => {
                let right = "bytes are two hexadecimal digits each".to_string();
                return Err(wrong(Some(word), right));
            }
        }
    }
    Ok(bytes)
}

/// Bytes in hexadecimal digits, with something between them.
pub fn hex(bytes: &[u8], between: &str) -> String {
    let pairs: Vec<String> = bytes.iter().map(|byte| format!("{byte:02x}")).collect();
    pairs.join(between)
}

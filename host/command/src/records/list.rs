//! The list of records, as people read it: a table of text, and one for documents.

use super::line::{spelled, HEAD, RAW};
use super::table::{Field, Form, Row, Times, Within, ROWS};
use native::terms::{Measure, Range};

/// For the terminal: each record's line, its kind and length, its bytes.
pub fn text() -> String {
    let mut text = String::new();
    for row in ROWS {
        text += &format!("{}\n", row.text);
        text += &format!("    {}\n", row.about);
        text += &format!("    kind {}, length {}", row.kind, length(row));
        for field in row.fields {
            text += &format!("\n        {}", field_words(row, field));
        }
        text += "\n\n";
    }
    text + &format!("{RAW} HEX\n    bytes that are no record, two hexadecimal digits each\n")
}

/// For documents.
pub fn markdown() -> String {
    let mut text = "| Line | Kind | Fields (bytes) | Length | What it is |\n".to_string();
    text += "|---|---|---|---|---|\n";
    for row in ROWS {
        let fields: Vec<String> = row
            .fields
            .iter()
            .map(|field| field_words(row, field))
            .collect();
        let fields = if fields.is_empty() {
            "none".to_string()
        } else {
            fields.join(", ")
        };
        let (line, kind, length) = (row.text, row.kind, length(row));
        text += &format!(
            "| `{line}` | {kind} | {fields} | {length} | {} |\n",
            row.about
        );
    }
    text + &format!(
        "| `{RAW} HEX` | | | | bytes that are no record, two hexadecimal digits each |\n"
    )
}

/// As `8 + 4n + 4m`.
fn length(row: &Row) -> String {
    let once = row.fields.iter().filter(|field| field.times == Times::Once);
    let mut length = (HEAD + once.map(|field| field.width).sum::<usize>()).to_string();
    for field in row.fields {
        if let Times::Counted(place) = field.times {
            length += &format!(" + {}{}", field.width, row.fields[place].name);
        }
    }
    length
}

/// Its name, its bytes, and what its number may be.
fn field_words(row: &Row, field: &Field) -> String {
    let times = match field.times {
        Times::Once => String::new(),
        Times::Counted(place) => format!("{} ", row.fields[place].name),
    };
    let may_be = may_be(field).map_or(String::new(), |words| format!(" ({words})"));
    format!("{times}{} {}{may_be}", field.name, field.width)
}

fn may_be(field: &Field) -> Option<String> {
    if let Form::Word(words) = field.form {
        let coded = (1..).zip(words.iter());
        let coded = coded.map(|(code, word)| format!("{code} {word}"));
        return Some(coded.collect::<Vec<_>>().join(", "));
    }
    let range = |measure: Measure| {
        let Range(least, most) = measure.range();
        let [least, most] = [least, most].map(|number| spelled(field.form, number));
        format!("{least} to {most}")
    };
    match field.within {
        Within::Anything => None,
        Within::Range(measure) => Some(range(measure)),
        Within::Unit => Some(format!("{}, a multiple of 100", range(Measure::Unit))),
        Within::Contract | Within::Underlying => Some("in the tables".to_string()),
        Within::AllContracts => Some("as many as there are contracts".to_string()),
        Within::AllUnderlyings => Some("as many as there are underlyings".to_string()),
    }
}

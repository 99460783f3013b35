//! Books: telling ones by their lines, random ones by what they reach, the examples by their files, and the trial of a program itself.

mod common;

use plain::expiry_lines;
use plain::program::{printed, MOST_READ};
use plain::worked;
use std::collections::BTreeSet;
use std::fs;
use std::process::Output;
use trials::{booking, examples, telling};

#[test]
fn telling_books() {
    for told in telling::books() {
        assert_eq!(printed(&told.bytes), told.lines, "{}", told.name);
    }
}

fn verdicts(lines: &str) -> impl Iterator<Item = u8> + '_ {
    let verdict = |line: &str| line.split(' ').nth(1).unwrap().parse().unwrap();
    lines.lines().map(verdict)
}

#[test]
fn random_books_reach_every_refusal() {
    let mut met = BTreeSet::new();
    let mut sizes = BTreeSet::new();
    for number in 1..=300 {
        let bytes = booking::book(1, number);
        sizes.insert(bytes.len());
        met.extend(verdicts(&printed(&bytes)));
    }
    // 17 is for writing, and 18 is unused.
    assert!(met.into_iter().eq((0..=16).chain(19..=20)));
    assert!(sizes.range(..1_000).count() > 50);
    assert!(sizes.range(MOST_READ + 1..).count() > 5);
}

#[test]
fn a_random_book_can_be_made_again() {
    assert_eq!(booking::book(7, 3), booking::book(7, 3));
    assert_ne!(booking::book(7, 3), booking::book(7, 4));
}

fn example(name: &str) -> Vec<u8> {
    let directory = concat!(env!("CARGO_MANIFEST_DIR"), "/../../examples");
    fs::read(format!("{directory}/{name}")).expect("an example")
}

#[test]
fn examples_are_as_written() {
    for (name, bytes) in examples::books() {
        assert_eq!(example(name), bytes, "{name}");
    }
    assert_eq!(printed(&example("day.book")), worked::LINES);
    assert_eq!(printed(&example("full.book")), telling::full().lines);
}

/// The gate runs the program on the same ten records, and holds it to the same ten lines.
#[test]
fn the_gate_has_the_worked_book() {
    assert_eq!(example("../crates/book/stdin"), example("day.book"));
    assert_eq!(example("../crates/book/stdout"), worked::LINES.as_bytes());
}

/// The lines in the tables of the examples' page are those that are printed.
#[test]
fn examples_are_as_told() {
    let page = String::from_utf8(example("README.md")).unwrap();
    let sections: Vec<&str> = page.split("\n## ").skip(1).collect();
    assert_eq!(sections.len(), 4);
    for section in sections {
        let (name, table) = section.split_once('\n').unwrap();
        let rows = table.lines().filter_map(|row| row.strip_suffix("` |"));
        let lines: String = rows
            .map(|row| format!("{}\n", row.rsplit('`').next().unwrap()))
            .collect();
        let answered = match name {
            "expiry.txt" => expiry_lines::printed,
            _ => printed,
        };
        assert_eq!(answered(&example(name)), lines, "{name}");
    }
}

fn trial(count: &str, through: &str) -> Output {
    let [trial, program] = [
        env!("CARGO_BIN_EXE_books"),
        env!("CARGO_BIN_EXE_plain_book"),
    ];
    common::trial(trial, program, count, through)
}

#[test]
fn a_right_program_passes() {
    let output = trial("2", "cat");
    let text = String::from_utf8(output.stdout).unwrap();
    assert!(output.status.success(), "{text}");
    assert!(text.contains(" telling and 2 random books alike, "));
}

/// The line before the last differs, the last one is missing, there is one more, it has no end.
#[test]
fn a_wrong_program_is_caught() {
    for (through, plain, program) in [
        ("sed '9s/0/1/'", "9 0 594000", "9 1 594000"),
        ("sed 10d", "10 0 594000", "(no line)"),
        ("sed '$a more'", "(no line)", "more"),
        (
            "head -c 87",
            "9 0 594000",
            "9 0 594000 (and no end of line)",
        ),
    ] {
        let output = trial("0", through);
        let text = String::from_utf8(output.stdout).unwrap();
        assert_eq!(output.status.code(), Some(1), "{text}");
        assert!(text.starts_with("telling book 0, the worked book, line "));
        let report = format!("\nplain   {plain}\nprogram {program}\nthe book is in ");
        let (_, file) = text.split_once(&report).expect(&text);
        let file = file.trim_end();
        assert_eq!(fs::read(file).unwrap(), example("day.book"));
        fs::remove_file(file).unwrap();
    }
}

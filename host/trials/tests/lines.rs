//! The stored answers of `cases`, `edges` and `runs` come out of `plain` too; lines of the last two by hand; and random lines reach every
//! refusal.

use plain::program::MOST_READ;
use std::collections::BTreeSet;
use trials::answered;
use trials::edges::Edges;
use trials::making::Maker;

fn stored(program: &str, name: &str) -> String {
    let crates = concat!(env!("CARGO_MANIFEST_DIR"), "/../../crates");
    std::fs::read_to_string(format!("{crates}/{program}/{name}")).expect("the stored examples")
}

fn answers_are_those_stored(program: &str) {
    let mut edges = Edges::new();
    let (asked, expected) = (stored(program, "stdin"), stored(program, "stdout"));
    // These programs read no more than the book program does: lines behind that would go unasked.
    assert!(asked.len() <= MOST_READ);
    assert_eq!(asked.lines().count(), expected.lines().count());
    for (line, expected) in asked.lines().zip(expected.lines()) {
        assert_eq!(answered(&mut edges, line), expected);
    }
}

#[test]
fn stored_cases() {
    answers_are_those_stored("cases");
}

#[test]
fn stored_edges() {
    answers_are_those_stored("edges");
}

#[test]
fn stored_runs() {
    answers_are_those_stored("runs");
}

#[test]
fn edges_by_hand() {
    let mut edges = Edges::new();
    for line in [
        "# a remark",
        "record 16 = 5 0 0 0 0 0 0",
        "open 600000 = 0 600000 600000 0 0 0 0",
        "order 1 0 3 2 500 = 0 100000 600000 0 500000 0 1 o 0 1 0 3 2 500",
        "fill 1 1 520 = 0 152000 652000 0 250000 250000 1 p 0 0 1 0 o 0 1 0 3 1 500",
        "lock 2 100 = 0 152000 652000 0 250000 250000 1 p 0 0 1 0 u 2 100 0 o 0 1 0 3 1 500",
        "end 5 3 = 4 152000 652000 0 250000 250000 1 p 0 0 1 0 u 2 100 0 o 0 1 0 3 1 500",
        "end 5 3 7000 0 0 0 0 25000 1 1 = 0 -248000 652000 0 0 900000 1 p 0 0 1 0",
        "deposit 249000 = 0 1000 901000 0 0 900000 1 p 0 0 1 0",
        "withdraw 400 = 0 600 901000 0 400 900000 1 w 400 p 0 0 1 0",
        "withdraw 1 = 20 600 901000 0 400 900000 1 w 400 p 0 0 1 0",
        "order 2 4 1 1 7 = 0 593 901000 0 407 900000 2 w 400 p 0 0 1 0 u 2 0 1 o 0 2 4 1 1 7",
        "pay = 0 593 900600 0 7 900000 2 p 0 0 1 0 u 2 0 1 o 0 2 4 1 1 7",
        "drop = 19 593 900600 0 7 900000 2 p 0 0 1 0 u 2 0 1 o 0 2 4 1 1 7",
        "open 1000000000000001 1 = 4 593 900600 0 7 900000 2 p 0 0 1 0 u 2 0 1 o 0 2 4 1 1 7",
        "open 1000000000000000 1 = 0 1000000000000000 1000000000000000 0 0 0 0",
        "order 9 63 1 1 1 = 0 999999999999936 1000000000000000 0 64 0 9 u 7 0 1 o 0 9 63 1 1 1",
    ] {
        let asked = line.split(" = ").next().unwrap();
        assert_eq!(answered(&mut edges, asked), line);
    }
}

/// A deposit of 1, and what is in the first place of each array; nothing is written into the others.
#[test]
fn runs_by_hand() {
    let (numbers, sums) = (" 255".repeat(15), " 7".repeat(15));
    for (asked, told, number, sum) in [
        ("book 2 2", "0 1 12 1 0 0", 5, 0),
        ("book 2 0", "0 0 0 1 0 0", 255, 7),
        ("list 0 600000 2 2", "0 1 12 3 3 5", 0, 600_001),
        ("list 0 600000 0 2", "0 0 0 3 3 5", 255, 7),
        ("list 1 1000000000000001 2 2", "4 0 0 2 8 64", 255, 7),
        ("list 2 1000000000000001 2 2", "5 0 0 2 3 0", 255, 7),
        ("change 2 0 41 1 600000 2 2", "4 0 0 2 8 65", 255, 7),
        ("change 3 2 0 0 600000 2 2", "4 0 0 2 3 5", 255, 7),
        ("change 3 3 0 0 600000 2 2", "0 1 12 3 3 5", 0, 600_001),
    ] {
        let asked = format!("{asked} 0c0001000100000000000000");
        let expected = format!("{asked} = {told} n {number}{numbers} s {sum}{sums}");
        assert_eq!(answered(&mut Edges::new(), &asked), expected);
    }
}

#[test]
fn random_lines_reach_every_refusal() {
    let (mut maker, mut edges) = (Maker::new(1, 0), Edges::new());
    let mut verdicts = BTreeSet::new();
    for _ in 0..20_000 {
        let line = maker.line(&edges.desk);
        let before = edges.desk.clone();
        let answer = answered(&mut edges, &line);
        let verdict: u8 = answer[line.len() + 3..]
            .split(' ')
            .next()
            .unwrap()
            .parse()
            .unwrap();
        assert!(verdict == 0 || edges.desk == before, "{answer}");
        verdicts.insert(verdict);
    }
    // 18 is unused.
    let reached = [0].into_iter().chain(4..=16).chain(19..=20);
    assert!(verdicts.into_iter().eq(reached));
}

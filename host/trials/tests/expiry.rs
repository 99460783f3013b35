//! Random questions of an expiry day: `plain` held to what is stated, what the questions reach, and the trial of a program itself.

mod common;

use plain::expiry::Obligation;
use plain::expiry_lines::{printed, Question};
use plain::terms::Right;
use std::fs;
use std::process::Output;
use trials::expiring::{batch, Meant};
use trials::reached::Reached;
use trials::stated::{exercise_verdict, Assignment};

fn asked(seed: u64, count: u64) -> Reached {
    let mut reached = Reached::default();
    for number in 0.. {
        let batch = batch(seed, number, count - reached.questions());
        let held = reached.hold(&batch, &printed(&batch.input));
        assert_eq!(held, Ok(()), "seed {seed}, batch {number}");
        if reached.questions() == count {
            break;
        }
    }
    reached
}

#[test]
fn answers_are_as_stated() {
    let reached = asked(105, 20_000);
    println!("{reached}");
    assert!(reached.missed().is_empty(), "{reached}");
}

#[test]
fn a_thousand_questions_miss_nothing() {
    for seed in 1..=10 {
        let missed = asked(seed, 1_000).missed();
        assert!(missed.is_empty(), "seed {seed}: {missed:?}");
    }
}

/// Each answer with its figures changed, and the line in another's place, is seen.
#[test]
fn other_answers_are_not_as_stated() {
    let batch = batch(1, 0, 250);
    let answers = printed(&batch.input);
    let lines: Vec<&str> = answers.lines().collect();
    for at in 0..lines.len() {
        let more = format!("{}1", lines[at]);
        let longer = format!("{} 0", lines[at]);
        for other in ["0 0 0 0", "1", "unreadable 0", "", &more, &longer] {
            let mut lines = lines.clone();
            lines[at] = other;
            let wrong = lines.join("\n") + "\n";
            let same = answers == wrong;
            assert_eq!(Reached::default().hold(&batch, &wrong).is_ok(), same);
        }
    }
    let cut = lines[1..].join("\n");
    assert!(Reached::default().hold(&batch, &cut).is_err());
    assert!(Reached::default()
        .hold(&batch, &format!("{answers}0\n"))
        .is_err());
}

/// Document 002's example with the first account's covered contracts, and every way to have it wrong.
#[test]
fn what_is_stated_of_an_assignment() {
    let totals = [(700, 1000), (2500, 0), (1900, 0), (1900, 0)];
    let accounts = totals.map(|(short, covered)| Obligation { short, covered });
    let stated = |numbers: &[u64]| {
        let assignment = Assignment::answered(7176, &accounts, numbers)?;
        assignment.as_stated()
    };
    let said = |numbers: &[u64]| stated(numbers).expect_err("a wrong assignment");
    assert_eq!(stated(&[1000, 525, 0, 2243, 0, 1704, 0, 1704]), Ok(()));
    for (numbers, wrong) in [
        ([1000, 524, 0, 2243, 0, 1704, 0, 1704], "they add up"),
        ([825, 700, 0, 2243, 0, 1704, 0, 1704], "covered first"),
        ([1001, 524, 0, 2243, 0, 1704, 0, 1704], "each is there"),
        ([1000, 525, 0, 2244, 0, 1703, 0, 1704], "the whole part"),
        ([1000, 524, 0, 2243, 0, 1705, 0, 1704], "the largest"),
        ([1000, 525, 0, 2242, 0, 1704, 0, 1705], "the largest"),
        ([1000, 701, 0, 2243, 0, 1704, 0, 1528], "none passes"),
    ] {
        let said = said(&numbers);
        assert!(said.contains(wrong), "{numbers:?}: {said}");
    }
    assert!(said(&[1000, 525, 0, 2243, 0, 1704]).contains("two for each"));
}

#[test]
fn a_tie_is_for_the_lower_number() {
    let accounts = [Obligation {
        short: 1,
        covered: 0,
    }; 3];
    for (numbers, right) in [
        ([0, 1, 0, 1, 0, 0], true),
        ([0, 1, 0, 0, 0, 1], false),
        ([0, 0, 0, 1, 0, 1], false),
    ] {
        let assignment = Assignment::answered(2, &accounts, &numbers).unwrap();
        assert_eq!(assignment.as_stated().is_ok(), right);
        assert!(assignment.ties() && assignment.leaves_some());
    }
}

/// Requests come near each edge: one more of what refuses them would do, or one less would be refused.
#[test]
fn requests_are_near_the_edges() {
    let mut turned = [0; 2];
    let lines = (0..20).flat_map(|number| batch(2, number, 250).lines);
    for line in lines {
        if let Meant::Asked(Question::Exercise(request)) = line.meant {
            let mut other = request;
            other.offered = other.offered.saturating_add(1);
            let verdicts = [exercise_verdict(&request), exercise_verdict(&other)];
            let place = usize::from(request.right == Right::Put);
            turned[place] += u64::from(verdicts == [23, 0]);
        }
    }
    assert!(turned.iter().all(|&number| 100 < number), "{turned:?}");
}

#[test]
fn a_batch_can_be_made_again() {
    assert_eq!(batch(7, 3, 250).input, batch(7, 3, 250).input);
    assert_ne!(batch(7, 3, 250).input, batch(7, 4, 250).input);
}

fn trial(count: &str, through: &str) -> Output {
    let [trial, program] = [
        env!("CARGO_BIN_EXE_expiry"),
        env!("CARGO_BIN_EXE_plain_expiry"),
    ];
    common::trial(trial, program, count, through)
}

#[test]
fn a_right_program_passes() {
    let output = trial("1000", "cat");
    let text = String::from_utf8(output.stdout).unwrap();
    assert!(output.status.success(), "{text}");
    assert!(text.starts_with("1000 questions alike; accepted "));
}

#[test]
fn a_wrong_program_is_caught() {
    for through in ["sed '200s/^/1/'", "sed '$d'", "sed '$a 0'"] {
        let output = trial("250", through);
        let text = String::from_utf8(output.stdout).unwrap();
        assert_eq!(output.status.code(), Some(1), "{text}");
        assert!(text.starts_with("seed 1, batch 0, line "), "{text}");
        let (_, file) = text.split_once("\nthe list is in ").expect(&text);
        let file = file.trim_end();
        assert_eq!(fs::read(file).unwrap(), batch(1, 0, 250).input);
        fs::remove_file(file).unwrap();
    }
}

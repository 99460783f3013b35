//! Expiry day: the stored questions and answers, key cases with their figures written out, and lines that no stored file holds.

use plain::account::Position;
use plain::expiry::{assign, exercise, Assigned, Obligation, Request};
use plain::expiry_lines::{printed, LONGEST_LINE};
use plain::terms::Right;
use std::fs;

fn stored(name: &str) -> Vec<u8> {
    let directory = concat!(env!("CARGO_MANIFEST_DIR"), "/../../crates/expiry");
    fs::read(format!("{directory}/{name}")).expect("the stored questions and answers")
}

#[test]
fn stored_answers() {
    let (asked, answers) = (stored("stdin"), stored("stdout"));
    let answers = String::from_utf8(answers).expect("answers are plain text");
    assert_eq!(printed(&asked), answers);
    // The last line asks something, and has no end.
    assert_ne!(asked.last(), Some(&b'\n'));
    assert!(answers.ends_with("\n0 0 1 0 1\n"));
}

/// Accounts by short and covered; what each is assigned, covered first.
fn assigned(exercised: u32, accounts: &[(u32, u32)]) -> Result<Vec<(u64, u64)>, u8> {
    let obligation = |&(short, covered): &(u32, u32)| Obligation { short, covered };
    let accounts: Vec<Obligation> = accounts.iter().map(obligation).collect();
    let pair = |part: &Assigned| (part.covered, part.uncovered);
    assign(exercised, &accounts).map(|parts| parts.iter().map(pair).collect())
}

/// Document 002, question 23.
#[test]
fn the_clearing_house_example() {
    let others = [(2500, 0), (1900, 0), (1900, 0)];
    let theirs = [(0, 2243), (0, 1704), (0, 1704)];
    for (first, its_own) in [((1700, 0), (0, 1525)), ((700, 1000), (1000, 525))] {
        let accounts = [&[first], &others[..]].concat();
        let expected = [&[its_own], &theirs[..]].concat();
        assert_eq!(assigned(7176, &accounts), Ok(expected));
    }
}

#[test]
fn the_lower_number_has_a_tie() {
    let ones = [(1, 0); 3];
    assert_eq!(assigned(1, &ones), Ok(vec![(0, 1), (0, 0), (0, 0)]));
    assert_eq!(assigned(2, &ones), Ok(vec![(0, 1), (0, 1), (0, 0)]));
    // 0.4, 0.4, 0.4 and 0.8
    let accounts = [(1, 0), (1, 0), (1, 0), (2, 0)];
    let expected = vec![(0, 1), (0, 0), (0, 0), (0, 1)];
    assert_eq!(assigned(2, &accounts), Ok(expected));
    // 0.5 and 1.5
    assert_eq!(assigned(2, &[(1, 0), (3, 0)]), Ok(vec![(0, 1), (0, 1)]));
    // A little less than a half, and a little more
    let near = [(9_999, 0), (10_000, 0)];
    assert_eq!(assigned(1, &near), Ok(vec![(0, 0), (0, 1)]));
}

#[test]
fn covered_contracts_go_first() {
    let accounts = [(5, 5), (10, 0)];
    for (exercised, covered, uncovered, beside) in
        [(0, 0, 0, 0), (4, 2, 0, 2), (10, 5, 0, 5), (12, 5, 1, 6)]
    {
        let expected = vec![(covered, uncovered), (0, beside)];
        assert_eq!(assigned(exercised, &accounts), Ok(expected));
    }
}

#[test]
fn how_much_can_be_assigned() {
    assert_eq!(assigned(0, &[]), Ok(vec![]));
    assert_eq!(assigned(1, &[]), Err(4));
    assert_eq!(assigned(0, &[(0, 0)]), Ok(vec![(0, 0)]));
    assert_eq!(assigned(1, &[(0, 0)]), Err(4));
    assert_eq!(assigned(10, &[(3, 4), (1, 2)]), Ok(vec![(4, 3), (2, 1)]));
    assert_eq!(assigned(11, &[(3, 4), (1, 2)]), Err(4));
    for (short, covered, taken) in [
        (10_000, 0, true),
        (5_000, 5_000, true),
        (5_000, 5_001, false),
        (u32::MAX, 1, false),
        (u32::MAX, u32::MAX, false),
    ] {
        let answer = assigned(0, &[(1, 0), (short, covered)]);
        assert_eq!(answer.is_ok(), taken, "{short} {covered}");
        assert!(taken || answer == Err(4));
    }
}

#[test]
fn up_to_256_accounts() {
    let most = [(4_000, 6_000); 256];
    let mut expected = vec![(6_000, 4_000); 256];
    assert_eq!(assigned(2_560_000, &most), Ok(expected.clone()));
    // Each is 9,999 and 255/256 of one: all but the last have one more.
    expected[255] = (6_000, 3_999);
    assert_eq!(assigned(2_559_999, &most), Ok(expected));
    assert_eq!(assigned(0, &[(0, 0); 257]), Err(4));
    assert_eq!(assigned(1, &[(1, 0); 257]), Err(4));
}

/// Long, short and covered; what is offered.
fn requested(
    right: Right,
    [strike, unit, count]: [u32; 3],
    held: [i64; 3],
    offered: u64,
) -> Result<(), u8> {
    let [long, short, covered] = held;
    exercise(&Request {
        right,
        strike,
        unit,
        held: Position {
            long,
            short,
            covered,
        },
        count,
        offered,
    })
}

#[test]
fn figures_of_a_request() {
    let good = [26_000, 10_000, 5];
    for (place, in_range, outside) in [
        (0, [1, 10_000_000], vec![0, 10_000_001, u32::MAX]),
        (1, [100, 100_000], vec![0, 99, 101, 150, 100_001, 100_100]),
        (2, [1, 10_000], vec![0, 10_001, u32::MAX]),
    ] {
        let asked = |figure, held, offered| {
            let mut figures = good;
            figures[place] = figure;
            requested(Right::Call, figures, held, offered)
        };
        for figure in in_range {
            assert_eq!(asked(figure, [10_001, 0, 0], u64::MAX), Ok(()));
        }
        for figure in outside {
            // Whatever is held and offered
            assert_eq!(asked(figure, [u32::MAX.into(), 0, 0], u64::MAX), Err(4));
            assert_eq!(asked(figure, [0, 0, 0], 0), Err(4));
        }
    }
}

#[test]
fn what_is_held_after_netting() {
    for (held, answer) in [
        ([4, 0, 0], Err(22)),
        ([5, 0, 0], Ok(())),
        ([10, 2, 4], Err(22)),
        ([11, 2, 4], Ok(())),
        ([12, 2, 4], Ok(())),
        ([5, 4_294_967_295, 1], Err(22)),
        ([4_294_967_295, 4_294_967_290, 0], Ok(())),
        ([4_294_967_295, 4_294_967_290, 1], Err(22)),
    ] {
        for right in [Right::Call, Right::Put] {
            let figures = [26_000, 10_000, 5];
            assert_eq!(requested(right, figures, held, u64::MAX), answer);
            // Without means the position is still what is told first.
            assert_eq!(
                requested(right, figures, held, 0),
                answer.and(Err(23)),
                "{held:?}"
            );
        }
    }
}

/// The least that is enough.
#[test]
fn what_is_offered() {
    for (right, figures, least) in [
        (Right::Call, [26_000, 10_000, 5], 13_000_000),
        (Right::Put, [26_000, 10_000, 5], 50_000),
        (Right::Call, [26_051, 100, 1], 26_051),
        (Right::Call, [26_051, 100, 3], 78_153),
        (Right::Call, [1, 100, 1], 1),
        (Right::Put, [1, 100, 1], 100),
        (
            Right::Call,
            [10_000_000, 100_000, 10_000],
            100_000_000_000_000,
        ),
        (Right::Put, [10_000_000, 100_000, 10_000], 1_000_000_000),
    ] {
        let asked = |offered| requested(right, figures, [10_000, 0, 0], offered);
        assert_eq!(asked(least - 1), Err(23), "{figures:?}");
        // A hundred times the third passes 64 bits by 84.
        for offered in [least, least + 1, 184_467_440_737_095_517, u64::MAX] {
            assert_eq!(asked(offered), Ok(()), "{figures:?}");
        }
    }
}

/// A question, and blanks or zeros in it to make the line as long as is asked.
fn lengthened(by: &str, length: usize) -> Vec<u8> {
    let padding = by.repeat(length - "assign 3 1 1 2 2".len());
    format!("assign 3 1 1 {padding}2 2").into_bytes()
}

#[test]
fn long_lines() {
    for by in [" ", "\t", "\r", "0"] {
        let longest = lengthened(by, LONGEST_LINE);
        let longer = lengthened(by, LONGEST_LINE + 1);
        assert_eq!(printed(&longest), "0 1 0 2 0\n");
        assert_eq!(printed(&longer), "unreadable 1\n");
        // The end of a line is no part of its length, and the lines behind it are read.
        let lines = [longest, longer, b"assign 0\n".to_vec()].join(&b'\n');
        assert_eq!(printed(&lines), "0 1 0 2 0\nunreadable 2\n0\n");
    }
    for first in [b'#', b' '] {
        let mut line = vec![b' '; LONGEST_LINE];
        line[0] = first;
        assert_eq!(printed(&line), "");
        line.push(b' ');
        assert_eq!(printed(&line), "unreadable 1\n");
    }
}

/// More accounts than are taken, in as long a line as is read: all of it is read before it is judged.
#[test]
fn many_accounts() {
    let accounts = " 1 0".repeat(16_381);
    assert_eq!(printed(format!("assign 0{accounts}").as_bytes()), "4\n");
    for end in [" 0", "x"] {
        let line = format!("assign 0{}{end}", &accounts[4..]);
        assert_eq!(printed(line.as_bytes()), "unreadable 1\n");
    }
}

#[test]
fn any_bytes() {
    assert_eq!(printed(b""), "");
    assert_eq!(printed(b"\n\n\r\n"), "");
    assert_eq!(printed(b"\0"), "unreadable 1\n");
    assert_eq!(printed(b"\nassign 1\0 1 0\n"), "unreadable 2\n");
    assert_eq!(printed(b"assign 1 1 0\xff\n"), "unreadable 1\n");
    assert_eq!(printed(b"#\0\xff\nassign 0\r\n"), "0\n");
}

//! Expiry day, as the crates' source has it, held to `plain`: what the program never lends is lent here, lists of any length.

use native::assignment::assign;
use native::exercise::exercise;
use native::terms::{number, Contracts, Position, Right};
use plain::expiry::{self, Obligation, Request};
use plain::expiry_lines::Question;
use trials::expiring::{batch, Meant};

const MARK: u32 = 0xa5a5_a5a5;

fn questions() -> impl Iterator<Item = Question> {
    let lines = (0..12).flat_map(|number| batch(11, number, 250).lines);
    lines.filter_map(|line| match line.meant {
        Meant::Asked(question) => Some(question),
        _ => None,
    })
}

#[test]
fn requests() {
    let mut numbers = [0; 24];
    for question in questions() {
        if let Question::Exercise(request) = question {
            let expected = expiry::exercise(&request).err().unwrap_or(0);
            assert_eq!(judged(&request), expected, "{request:?}");
            numbers[usize::from(expected)] += 1;
        }
    }
    assert!([0, 4, 22, 23].iter().all(|&number| 50 < numbers[number]));
}

fn judged(request: &Request) -> u8 {
    let right = match request.right {
        plain::terms::Right::Call => Right::Call,
        plain::terms::Right::Put => Right::Put,
    };
    let contracts = |count: i64| Contracts(u32::try_from(count).expect("a count of 32 bits"));
    let position = Position {
        long: contracts(request.held.long),
        short: contracts(request.held.short),
        covered: contracts(request.held.covered),
    };
    let count = Contracts(request.count);
    let verdict = exercise(
        right,
        request.strike,
        request.unit,
        position,
        count,
        request.offered,
    );
    number(&verdict)
}

/// The number, and the two lists afterwards.
fn lent(exercised: u32, short: &[u32], covered: &[u32], places: [usize; 2]) -> (u8, [Vec<u32>; 2]) {
    let [mut cover, mut naked] = places.map(|places| vec![MARK; places]);
    let verdict = assign(Contracts(exercised), short, covered, &mut cover, &mut naked);
    (number(&verdict), [cover, naked])
}

/// A list of so many places, with the contracts in the first ones.
fn laid(places: usize, contracts: impl Iterator<Item = u64>) -> Vec<u32> {
    let mut list: Vec<u32> = contracts.map(|count| count as u32).collect();
    list.resize(places, MARK);
    list
}

/// One place too few in either list is 17, after 4; what is not the answer's stays as it was.
#[test]
fn lists_of_any_length() {
    let mut numbers = [0; 24];
    for question in questions() {
        if let Question::Assign {
            exercised,
            accounts,
        } = question
        {
            let n = accounts.len();
            for places in [
                [n, n],
                [n + 3, n + 1],
                [n.max(1) - 1, n],
                [n + 2, n.max(1) - 1],
            ] {
                numbers[usize::from(told(exercised, &accounts, places))] += 1;
            }
        }
    }
    assert!([0, 4, 17].iter().all(|&number| 200 < numbers[number]));
}

fn told(exercised: u32, accounts: &[Obligation], places: [usize; 2]) -> u8 {
    let short: Vec<u32> = accounts.iter().map(|account| account.short).collect();
    let covered: Vec<u32> = accounts.iter().map(|account| account.covered).collect();
    let (number, lists) = lent(exercised, &short, &covered, places);
    let roomy = places.iter().all(|&places| accounts.len() <= places);
    let [cover, naked] = places;
    let expected = match expiry::assign(exercised, accounts) {
        Ok(assigned) if roomy => {
            let covered = assigned.iter().map(|account| account.covered);
            let others = assigned.iter().map(|account| account.uncovered);
            (0, [laid(cover, covered), laid(naked, others)])
        }
        refused => {
            let number = refused.err().unwrap_or(17);
            (number, places.map(|places| vec![MARK; places]))
        }
    };
    assert_eq!((number, lists), expected, "{exercised} {accounts:?}");
    number
}

/// An account that lacks a count is none.
#[test]
fn lists_that_are_unlike() {
    for (short, covered) in [(2, 1), (1, 2), (1, 0), (0, 1), (257, 256)] {
        let [short, covered] = [short, covered].map(|accounts| vec![0; accounts]);
        for places in [0, 1, 300] {
            let (number, lists) = lent(0, &short, &covered, [places; 2]);
            assert_eq!(number, 4);
            assert!(lists.iter().flatten().all(|&place| place == MARK));
        }
    }
}

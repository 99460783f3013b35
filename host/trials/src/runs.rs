//! The lines of `runs`: a book or a list, run into as many lent places as the line says.

use crate::{cases, tables, Words};
use plain::book::{run_book, run_list, Book, Run};
use plain::terms::{Class, Contract, Right, Tables, Underlying, CONTRACTS, UNDERLYINGS};
use std::ops::RangeInclusive;

/// Places of each array; a line's places are the first of them.
const PLACES: usize = 16;
/// What stands in a place before a run.
const NUMBER_MARK: u8 = 255;
const SUM_MARK: i64 = 7;

pub fn answer(words: &Words) -> Option<String> {
    match words.first() {
        "book" => {
            let (bytes, lent) = (cases::bytes(words.text(3)?)?, Lent::of(words, 1)?);
            let run = run_book(&bytes, lent.places());
            Some(lent.told(&run))
        }
        "list" => list(&Given::named(words, 1)?, words, 2),
        "change" => list(&changed(words)?, words, 5),
        _ => None,
    }
}

/// Opening cash, places for numbers, places for sums, bytes.
fn list(given: &Given, words: &Words, from: usize) -> Option<String> {
    let cash = words.number(from)?;
    let lent = Lent::of(words, from + 1)?;
    let bytes = cases::bytes(words.text(from + 3)?)?;
    Some(
        match run_list(&given.tables(), cash, &bytes, lent.places()) {
            Ok(run) => lent.told(&run),
            // Then nothing is run, and the tables still wait for their opening.
            Err(refusal) => lent.shown(refusal, 0, 0, (2, given.m, given.n)),
        },
    )
}

/// A list's tables: any counts, and the rows of both arrays. Those past the counts are no part of the tables.
struct Given {
    m: u64,
    n: u64,
    underlyings: Vec<Underlying>,
    contracts: Vec<Contract>,
}

impl Given {
    /// 0 the small tables, 1 the full ones, 2 the small ones with no contract counted.
    fn named(words: &Words, place: usize) -> Option<Given> {
        match words.number(place)? {
            0 => Some(Given::whole(tables::small())),
            1 => Some(Given::whole(tables::full())),
            2 => Some(Given {
                n: 0,
                ..Given::whole(tables::small())
            }),
            _ => None,
        }
    }

    fn whole(tables: Tables) -> Given {
        let (m, n) = (tables.underlyings.len(), tables.contracts.len());
        let mut given = Given {
            m: m as u64,
            n: n as u64,
            underlyings: tables.underlyings,
            contracts: tables.contracts,
        };
        let most = |range: RangeInclusive<u64>| *range.end() as usize;
        given.underlyings.resize(most(UNDERLYINGS), no_underlying());
        given.contracts.resize(most(CONTRACTS), no_contract());
        given
    }

    /// A row past the arrays' ends is none.
    fn change(&mut self, what: u8, row: usize, value: u64) {
        let underlying = self.underlyings.get_mut(row);
        match (what, underlying, self.contracts.get_mut(row)) {
            (3, Some(row), _) => row.close = value as u32,
            (4, Some(row), _) => row.rights = value as u16,
            (5, Some(row), _) => row.total = value as u16,
            (6, Some(row), _) => row.daily = value as u16,
            (7, _, Some(row)) => row.underlying = value as u16,
            (8, _, Some(row)) => row.strike = value as u32,
            (9, _, Some(row)) => row.unit = value as u32,
            (10, _, Some(row)) => row.settlement = value as u32,
            _ => (),
        }
    }

    fn tables(&self) -> Tables {
        Tables {
            underlyings: first(&self.underlyings, self.m, no_underlying()),
            contracts: first(&self.contracts, self.n, no_contract()),
        }
    }
}

/// As many rows as are counted; of more than there is room for, one too many.
fn first<T: Clone>(rows: &[T], count: u64, none: T) -> Vec<T> {
    let beyond = std::iter::once(none);
    let count = usize::try_from(count).unwrap_or(usize::MAX);
    rows.iter().cloned().chain(beyond).take(count).collect()
}

fn no_underlying() -> Underlying {
    Underlying::new(Class::Stock, 0, [0; 3])
}

fn no_contract() -> Contract {
    Contract::new(0, Right::Call, [0; 3])
}

/// What is changed, the row, the value, the tables. The counts are hexadecimal; of another value what its field can hold is taken.
fn changed(words: &Words) -> Option<Given> {
    let mut given = Given::named(words, 4)?;
    let (what, row): (u8, usize) = (words.number(1)?, words.number(2)?);
    match what {
        1 => given.m = words.hex(3)?,
        2 => given.n = words.hex(3)?,
        _ => given.change(what, row, words.number(3)?),
    }
    Some(given)
}

/// Both arrays, and how many places of each are lent.
struct Lent {
    numbers: [u8; PLACES],
    for_numbers: usize,
    sums: [i64; PLACES],
    for_sums: usize,
}

impl Lent {
    fn of(words: &Words, place: usize) -> Option<Lent> {
        Some(Lent {
            numbers: [NUMBER_MARK; PLACES],
            for_numbers: words.number::<usize>(place)?.min(PLACES),
            sums: [SUM_MARK; PLACES],
            for_sums: words.number::<usize>(place + 1)?.min(PLACES),
        })
    }

    /// An answer takes a place of each.
    fn places(&self) -> usize {
        self.for_numbers.min(self.for_sums)
    }

    fn told(mut self, run: &Run) -> String {
        for (place, (number, sum)) in run.answers.iter().enumerate() {
            self.numbers[place] = *number;
            self.sums[place] = *sum;
        }
        self.shown(0, run.answers.len(), run.place, stage(&run.book))
    }

    fn shown(
        &self,
        verdict: u8,
        answered: usize,
        place: usize,
        (stage, m, n): (u8, u64, u64),
    ) -> String {
        let numbers: String = self.numbers.iter().map(|n| format!(" {n}")).collect();
        let sums: String = self.sums.iter().map(|sum| format!(" {sum}")).collect();
        format!("{verdict} {answered} {place} {stage} {m} {n} n{numbers} s{sums}")
    }
}

/// 1 before the first contract, 2 before the opening, then 3; and how many underlyings and contracts there are.
fn stage(book: &Book) -> (u8, u64, u64) {
    let tables = book.tables();
    let (m, n) = (tables.underlyings.len(), tables.contracts.len());
    let stage = match book {
        Book::SettingUp(_) if n == 0 => 1,
        Book::SettingUp(_) => 2,
        Book::Open(_) => 3,
    };
    (stage, m as u64, n as u64)
}

//! Bytes that the versions answer, each from its own book in hand: first the answers are compared, then the time is taken.

use crate::versions::{in_hand, Answers, InHand, VERSIONS};
use std::time::{Duration, Instant};

pub struct Task {
    books: Vec<Box<dyn InHand>>,
    bytes: Vec<u8>,
    /// As all these versions give them.
    pub answers: Answers,
}

impl Task {
    /// The bytes, on the book that the bytes before them lead to; or what differs.
    pub fn new(name: &str, before: &[u8], bytes: Vec<u8>) -> Result<Task, String> {
        let versions = if before.is_empty() {
            VERSIONS
        } else {
            in_hand()
        };
        let books = versions.iter().map(|version| (version.after)(before));
        let books: Vec<Box<dyn InHand>> = books.collect();
        let mut given = books.iter().map(|book| {
            // A record takes a byte at least.
            let mut answers = Answers::places(bytes.len());
            let answered = book.answer(&bytes, &mut answers);
            answers.truncate(answered);
            answers
        });
        let first = given.next().expect("there is a version");
        for (version, other) in versions[1..].iter().zip(given) {
            if let Some(report) = difference(&first, &other) {
                let names = format!("{} and {}", versions[0].name, version.name);
                return Err(format!("{name}: {names} differ, {report}"));
            }
        }
        Ok(Task {
            books,
            bytes,
            answers: first,
        })
    }

    pub fn records(&self) -> usize {
        self.answers.numbers.len()
    }

    pub fn bytes(&self) -> usize {
        self.bytes.len()
    }

    pub fn accepted(&self) -> usize {
        let numbers = self.answers.numbers.iter();
        numbers.filter(|&&number| number == 0).count()
    }

    fn repeat(&self, version: usize, times: u32, places: &mut Answers) -> Duration {
        let book = &self.books[version];
        let mut answered = 0;
        let start = Instant::now();
        for _ in 0..times {
            answered += book.answer(&self.bytes, places);
        }
        let taken = start.elapsed();
        assert_eq!(answered, times as usize * self.records());
        taken
    }
}

fn difference(one: &Answers, other: &Answers) -> Option<String> {
    let answers = |a: &Answers| -> Vec<(u8, i64)> {
        let numbers = a.numbers.iter().copied();
        numbers.zip(a.sums.iter().copied()).collect()
    };
    let (one, other) = (answers(one), answers(other));
    let most = one.len().max(other.len());
    let at = (0..most).find(|&at| one.get(at) != other.get(at))?;
    let shown = (one.get(at), other.get(at));
    Some(format!("record {}: {shown:?}", at + 1))
}

/// How long each round is at least, and how many there are.
pub struct Effort {
    pub rounds: usize,
    pub round: Duration,
}

/// Nanoseconds for a record: the quartiles over all rounds.
#[derive(Clone, Copy, Debug)]
pub struct Spread {
    pub low: f64,
    pub median: f64,
    pub high: f64,
}

impl Spread {
    fn of(mut samples: Vec<f64>) -> Spread {
        samples.sort_by(f64::total_cmp);
        let quartile = |quarter| samples[(samples.len() - 1) * quarter / 4];
        Spread {
            low: quartile(1),
            median: quartile(2),
            high: quartile(3),
        }
    }

    /// For so many records together.
    pub fn times(self, records: f64) -> Spread {
        Spread {
            low: records * self.low,
            median: records * self.median,
            high: records * self.high,
        }
    }
}

/// For each task the spread of each version. Tasks and versions take turns within a round, so that a machine that slows down slows all.
pub fn time(tasks: &[&Task], effort: &Effort) -> Vec<Vec<Spread>> {
    let most = tasks.iter().map(|task| task.records()).max().unwrap_or(0);
    let mut places = Answers::places(most);
    let pairs = |task: usize| (0..tasks[task].books.len()).map(move |version| (task, version));
    let pairs: Vec<(usize, usize)> = (0..tasks.len()).flat_map(pairs).collect();
    let times: Vec<u32> = pairs
        .iter()
        .map(|&(task, version)| enough(tasks[task], version, effort.round, &mut places))
        .collect();
    let mut samples = vec![Vec::new(); pairs.len()];
    for _ in 0..effort.rounds {
        for ((&(task, version), &times), samples) in pairs.iter().zip(&times).zip(&mut samples) {
            let taken = tasks[task].repeat(version, times, &mut places).as_nanos() as f64;
            samples.push(taken / f64::from(times) / tasks[task].records() as f64);
        }
    }
    let mut spreads = samples.into_iter().map(Spread::of);
    let told = |task: &&Task| spreads.by_ref().take(task.books.len()).collect();
    tasks.iter().map(told).collect()
}

/// How many repeats fill a round. The first ones warm up what they use.
fn enough(task: &Task, version: usize, round: Duration, places: &mut Answers) -> u32 {
    let mut times = 1;
    loop {
        let taken = task.repeat(version, times, places);
        if round <= taken {
            return times;
        }
        let short = round.as_nanos() / taken.as_nanos().max(1);
        times *= (short as u32 + 1).clamp(2, 100);
    }
}

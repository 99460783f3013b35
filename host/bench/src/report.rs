//! All that is measured.

use crate::books::{made, Made, PROFILES};
use crate::growth::{self, Measure};
use crate::timing::{time, Effort, Spread, Task};
use plain::record::read;
use std::time::Duration;

/// Entries of the market maker's book, up to so many bytes.
const LENGTHS: [usize; 8] = [600, 1_200, 2_500, 5_000, 10_000, 20_000, 40_000, 58_500];

/// A list with the versions' times for a record.
pub struct Book {
    pub name: String,
    pub bytes: usize,
    pub records: usize,
    pub accepted: usize,
    pub spreads: Vec<Spread>,
}

/// How a cost changes with a number.
pub struct Curve {
    /// What is counted along the axis.
    pub axis: &'static str,
    /// What one time is for.
    pub cost: &'static str,
    /// Each number with the versions' times.
    pub points: Vec<(usize, Vec<Spread>)>,
}

pub struct Report {
    pub books: Vec<Book>,
    /// A curve for each way to measure an order.
    pub contracts: Vec<Curve>,
    pub resting: Vec<Curve>,
    pub length: Curve,
}

/// A curve's tasks, before they are timed.
struct Plan {
    axis: &'static str,
    cost: &'static str,
    /// So many records one time is for.
    records: usize,
    tasks: Vec<(usize, Task)>,
}

impl Report {
    /// All answers are compared before anything is timed.
    pub fn made(rounds: usize, round: Duration) -> Result<Report, String> {
        let made: Vec<Made> = PROFILES.iter().map(made).collect();
        let books = books(&made)?;
        let contracts = plans("contracts", &growth::CONTRACTS, |count| (count, 0))?;
        let resting = plans("resting orders", &growth::RESTING, |count| (64, count))?;
        let length = lengths(&made[0])?;
        let lesser = Effort {
            rounds: rounds / 2 + 1,
            round: round / 2,
        };
        let timed = |plans: Vec<Plan>| plans.iter().map(|plan| plan.timed(&lesser)).collect();
        Ok(Report {
            books: timed_books(&books, &Effort { rounds, round }),
            contracts: timed(contracts),
            resting: timed(resting),
            length: length.timed(&lesser),
        })
    }
}

/// Each book whole; and the first one's entries where no book is open, so that each is read and refused at once.
fn books(made: &[Made]) -> Result<Vec<(String, Task)>, String> {
    let whole = PROFILES.iter().zip(made);
    let whole = whole.map(|(profile, made)| (profile.name.to_string(), made.whole()));
    let unopened = format!("{}, every record read and refused with 5", PROFILES[0].name);
    let unopened = (unopened, made[0].entries.clone());
    whole
        .chain([unopened])
        .map(|(name, bytes)| Task::new(&name, &[], bytes).map(|task| (name, task)))
        .collect()
}

fn timed_books(books: &[(String, Task)], effort: &Effort) -> Vec<Book> {
    let tasks: Vec<&Task> = books.iter().map(|(_, task)| task).collect();
    let told = |((name, task), spreads): (&(String, Task), Vec<Spread>)| Book {
        name: name.clone(),
        bytes: task.bytes(),
        records: task.records(),
        accepted: task.accepted(),
        spreads,
    };
    books.iter().zip(time(&tasks, effort)).map(told).collect()
}

/// A plan for each way to measure an order; `account` says how many contracts and resting orders go with a number on the axis.
fn plans(
    axis: &'static str,
    counts: &[u16],
    account: impl Fn(u16) -> (u16, u16),
) -> Result<Vec<Plan>, String> {
    let plan = |measure: Measure| {
        let task = |&count: &u16| {
            let (contracts, resting) = account(count);
            growth::task(measure, contracts, resting).map(|task| (usize::from(count), task))
        };
        let tasks: Result<Vec<(usize, Task)>, String> = counts.iter().map(task).collect();
        Ok(Plan {
            axis,
            cost: measure.name(),
            records: measure.records(),
            tasks: tasks?,
        })
    };
    Measure::ALL.into_iter().map(plan).collect()
}

fn lengths(made: &Made) -> Result<Plan, String> {
    let task = |&most: &usize| {
        let list = up_to(&made.entries, most);
        let name = format!("{most} bytes of the market maker's entries");
        Task::new(&name, &made.set_up, list.to_vec()).map(|task| (list.len(), task))
    };
    let tasks: Result<Vec<(usize, Task)>, String> = LENGTHS.iter().map(task).collect();
    Ok(Plan {
        axis: "bytes of entries",
        cost: "record of the market maker's book",
        records: 1,
        tasks: tasks?,
    })
}

/// Whole records, no more bytes than these.
fn up_to(bytes: &[u8], most: usize) -> &[u8] {
    let mut place = 0;
    while let Ok((_, length)) = read(bytes, place) {
        if most < place + length {
            break;
        }
        place += length;
    }
    &bytes[..place]
}

impl Plan {
    fn timed(&self, effort: &Effort) -> Curve {
        let tasks: Vec<&Task> = self.tasks.iter().map(|(_, task)| task).collect();
        let together = |spread: Spread| spread.times(self.records as f64);
        let spreads = time(&tasks, effort).into_iter();
        let spreads = spreads.map(|versions| versions.into_iter().map(together).collect());
        let counts = self.tasks.iter().map(|&(count, _)| count);
        Curve {
            axis: self.axis,
            cost: self.cost,
            points: counts.zip(spreads).collect(),
        }
    }
}

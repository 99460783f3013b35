//! Document 02's expiry day as it is stated, to be held to an answer: no assignment is worked out here, one is only looked at.

use plain::expiry::{Obligation, Request};
use plain::terms::Right;

pub fn exercise_verdict(request: &Request) -> u64 {
    let units = || (1..=1_000).map(|hundreds| 100 * hundreds);
    let in_range = (1..=10_000).contains(&request.count)
        && (1..=10_000_000).contains(&request.strike)
        && units().any(|unit| unit == request.unit);
    let held = request.held;
    let netted = held.long - held.short - held.covered;
    if !in_range {
        4
    } else if netted < i64::from(request.count) {
        22
    } else if request.offered < means_of_one(request) * u64::from(request.count) {
        23
    } else {
        0
    }
}

/// With a unit of whole hundreds one contract is worth whole fen.
fn means_of_one(request: &Request) -> u64 {
    match request.right {
        Right::Call => u64::from(request.strike) * u64::from(request.unit / 100),
        Right::Put => request.unit.into(),
    }
}

pub fn assign_verdict(exercised: u32, accounts: &[Obligation]) -> u64 {
    let in_range = u64::from(exercised) <= all(accounts)
        && accounts.len() <= 256
        && accounts.iter().all(|account| total(account) <= 10_000);
    if in_range {
        0
    } else {
        4
    }
}

/// Added up here too: the second working's own sum is on trial with the rest of it.
fn total(account: &Obligation) -> u64 {
    [account.short, account.covered].map(u64::from).iter().sum()
}

fn all(accounts: &[Obligation]) -> u64 {
    accounts.iter().map(total).sum()
}

/// An accepted assignment: what one account has and is given.
#[derive(Clone, Copy)]
struct Part {
    has: Obligation,
    covered: u64,
    uncovered: u64,
    /// Exercised contracts times its total, divided by all: the whole part, and what remains.
    whole: u64,
    remainder: u64,
}

impl Part {
    fn given(&self) -> u64 {
        self.covered + self.uncovered
    }

    /// Whether it has one of those that the whole parts leave.
    fn has_one_more(&self) -> bool {
        self.whole < self.given()
    }
}

pub struct Assignment {
    exercised: u64,
    all: u64,
    parts: Vec<Part>,
}

impl Assignment {
    /// The numbers of the answer behind its verdict: covered and uncovered of each account.
    pub fn answered(
        exercised: u32,
        accounts: &[Obligation],
        numbers: &[u64],
    ) -> Result<Assignment, String> {
        stands(numbers.len() == 2 * accounts.len(), "two for each account")?;
        let exercised = u64::from(exercised);
        let all = all(accounts);
        let part = |(has, pair): (&Obligation, &[u64])| Part {
            has: *has,
            covered: pair[0],
            uncovered: pair[1],
            whole: (exercised * total(has)).checked_div(all).unwrap_or(0),
            remainder: (exercised * total(has)).checked_rem(all).unwrap_or(0),
        };
        let parts = accounts.iter().zip(numbers.chunks(2)).map(part).collect();
        Ok(Assignment {
            exercised,
            all,
            parts,
        })
    }

    pub fn as_stated(&self) -> Result<(), String> {
        let sum: u64 = self.parts.iter().map(Part::given).sum();
        stands(sum == self.exercised, "they add up to what is exercised")?;
        for part in &self.parts {
            let (short, covered) = (part.has.short.into(), part.has.covered.into());
            stands(part.given() <= total(&part.has), "none passes its total")?;
            stands(
                part.covered <= covered && part.uncovered <= short,
                "each is there",
            )?;
            stands(
                part.uncovered == 0 || part.covered == covered,
                "covered first",
            )?;
            let more = part.given().checked_sub(part.whole);
            stands(
                more == Some(0) || more == Some(1),
                "the whole part, or one more",
            )?;
        }
        self.in_order()
    }

    /// Whoever has one more goes before all who have not: by the larger fraction, and where these are equal by the lower number.
    fn in_order(&self) -> Result<(), String> {
        for (number, one) in self.with_one_more() {
            let (after, before) = (&self.parts[number..], &self.parts[..number]);
            let mut behind = after.iter().filter(|part| !part.has_one_more());
            let mut ahead = before.iter().filter(|part| !part.has_one_more());
            stands(
                behind.all(|part| part.remainder <= one.remainder)
                    && ahead.all(|part| part.remainder < one.remainder),
                "the largest fractions, the lower number first",
            )?;
        }
        Ok(())
    }

    fn with_one_more(&self) -> impl Iterator<Item = (usize, &Part)> {
        let numbered = self.parts.iter().enumerate();
        numbered.filter(|(_, part)| part.has_one_more())
    }

    pub fn leaves_some(&self) -> bool {
        self.with_one_more().next().is_some()
    }

    /// Whether what is left over ends among equal fractions.
    pub fn ties(&self) -> bool {
        let least = self.with_one_more().map(|(_, part)| part.remainder).min();
        let mut others = self.parts.iter().filter(|part| !part.has_one_more());
        others.any(|part| Some(part.remainder) == least)
    }

    pub fn cuts_covered(&self) -> bool {
        let cut = |part: &Part| 0 < part.covered && part.covered < part.has.covered.into();
        self.parts.iter().any(cut)
    }

    /// Whether it ends inside short where there is covered too.
    pub fn cuts_short(&self) -> bool {
        let cut = |part: &Part| 0 < part.uncovered && part.uncovered < part.has.short.into();
        self.parts.iter().any(|part| 0 < part.covered && cut(part))
    }

    pub fn takes_all(&self) -> bool {
        0 < self.all && self.exercised == self.all
    }

    pub fn accounts(&self) -> usize {
        self.parts.len()
    }
}

/// Passes on, or says what should be.
pub(crate) fn stands(met: bool, stated: &str) -> Result<(), String> {
    if met {
        Ok(())
    } else {
        Err(stated.to_string())
    }
}

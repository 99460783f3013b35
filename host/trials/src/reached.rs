//! What is printed for random lines of an expiry day, held to what is stated, and a count of what the lines led to.

use crate::expiring::{Batch, Meant};
use crate::stated::{assign_verdict, exercise_verdict, stands, Assignment};
use crate::trial::Verdicts;
use plain::expiry::Obligation;
use plain::expiry_lines::{Question, LONGEST_LINE};
use std::fmt;

#[derive(Default)]
pub struct Reached {
    verdicts: Verdicts,
    unreadable: u64,
    longest_lines: u64,
    longer_lines: u64,
    too_many_accounts: u64,
    /// Of the assignments that were accepted.
    most_accounts: u64,
    all_taken: u64,
    leftovers: u64,
    ties: u64,
    covered_cut: u64,
    short_cut: u64,
}

impl Reached {
    pub fn questions(&self) -> u64 {
        self.verdicts.all() + self.unreadable
    }

    /// Line by line; what is wrong comes with the number of its line.
    pub fn hold(&mut self, batch: &Batch, printed: &str) -> Result<(), String> {
        let mut answers = printed.lines();
        let numbered = (1_u64..).zip(&batch.lines);
        for (number, line) in numbered.filter(|(_, line)| line.meant != Meant::Nothing) {
            let answer = answers.next().unwrap_or("(no line)");
            self.longest_lines += u64::from(line.bytes.len() == LONGEST_LINE);
            self.longer_lines += u64::from(LONGEST_LINE < line.bytes.len());
            let held = match &line.meant {
                Meant::Asked(question) => self.question(question, answer),
                _ => self.unreadable(number, answer),
            };
            held.map_err(|stated| format!("line {number}, answered {answer}: {stated}"))?;
        }
        stands(answers.next().is_none(), "no answer without a question")
    }

    fn unreadable(&mut self, number: u64, answer: &str) -> Result<(), String> {
        self.unreadable += 1;
        let told = format!("unreadable {number}");
        stands(answer == told, &told)
    }

    fn question(&mut self, question: &Question, answer: &str) -> Result<(), String> {
        let numbers: Result<Vec<u64>, _> = answer.split(' ').map(str::parse).collect();
        let numbers = numbers.map_err(|_| "it can be read")?;
        let (verdict, parts) = (numbers[0], &numbers[1..]);
        let stated = match question {
            Question::Exercise(request) => exercise_verdict(request),
            Question::Assign {
                exercised,
                accounts,
            } => {
                self.too_many_accounts += u64::from(accounts.len() == 257);
                assign_verdict(*exercised, accounts)
            }
        };
        stands(verdict == stated, &format!("{stated}"))?;
        self.verdicts.meet(verdict as usize);
        match question {
            Question::Assign {
                exercised,
                accounts,
            } if verdict == 0 => self.assignment(*exercised, accounts, parts),
            _ => stands(parts.is_empty(), "a verdict alone"),
        }
    }

    fn assignment(
        &mut self,
        exercised: u32,
        accounts: &[Obligation],
        parts: &[u64],
    ) -> Result<(), String> {
        let assignment = Assignment::answered(exercised, accounts, parts)?;
        assignment.as_stated()?;
        self.most_accounts += u64::from(assignment.accounts() == 256);
        self.all_taken += u64::from(assignment.takes_all());
        self.leftovers += u64::from(assignment.leaves_some());
        self.ties += u64::from(assignment.ties());
        self.covered_cut += u64::from(assignment.cuts_covered());
        self.short_cut += u64::from(assignment.cuts_short());
        Ok(())
    }

    fn named(&self) -> [(&'static str, u64); 10] {
        [
            ("unreadable", self.unreadable),
            ("as long as is read", self.longest_lines),
            ("longer", self.longer_lines),
            ("257 accounts", self.too_many_accounts),
            ("256 accounts", self.most_accounts),
            ("all taken", self.all_taken),
            ("left over by whole parts", self.leftovers),
            ("ties where these end", self.ties),
            ("covered cut", self.covered_cut),
            ("short cut behind covered", self.short_cut),
        ]
    }

    /// What no line led to; a thousand questions are to miss nothing.
    pub fn missed(&self) -> Vec<String> {
        let verdicts = [0, 4, 22, 23].map(|verdict| {
            let name = format!("verdict {verdict}");
            (name, self.verdicts.met(verdict))
        });
        let named = self.named().map(|(name, met)| (name.to_string(), met));
        let all = verdicts.into_iter().chain(named);
        all.filter(|(_, met)| *met == 0)
            .map(|(name, _)| name)
            .collect()
    }
}

impl fmt::Display for Reached {
    fn fmt(&self, text: &mut fmt::Formatter) -> fmt::Result {
        write!(text, "{}", self.verdicts)?;
        for (name, met) in self.named() {
            write!(text, "; {name} {met}")?;
        }
        Ok(())
    }
}

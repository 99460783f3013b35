//! The verb `expiry`: the questions of an expiry evening, which the proved program answers as they come.

use crate::arguments::Asked;
use crate::decimal::{counted, read};
use crate::input::Input;
use crate::output::{say, Output};
use crate::proved::EXPIRY;
use crate::trouble::{Outcome, Status};

/// The two questions.
pub const FORMS: [&str; 2] = [
    "exercise RIGHT STRIKE UNIT LONG SHORT COVERED COUNT OFFERED",
    "assign E SHORT COVERED ..",
];

pub fn expiry(asked: &Asked, output: &mut Output) -> Outcome {
    let input = Input::open(asked.operand())?;
    let name = input.name.clone();
    let mut program = EXPIRY.start(input.handed()?)?;
    let mut unreadable = 0;
    let status = program.pass_on(output, |line| {
        let status = told(line);
        unreadable += u64::from(status == Some(Status::Trouble));
        status
    })?;
    if 0 < unreadable {
        let lines = counted(unreadable, "line");
        let [exercise, assign] = FORMS;
        say(&format!(
            "{name} has {lines} that can't be read; a question is `{exercise}` or `{assign}`"
        ));
    }
    Ok(status)
}

/// The status that a line tells: a refusal's number; 0, with two counts for each account behind it where contracts are assigned; or that a
/// question can't be read.
fn told(line: &str) -> Option<Status> {
    let words: Vec<&str> = line.split(' ').collect();
    let numbers = |words: &[&str]| words.iter().all(|word| read(word, 0).is_some());
    match words[..] {
        ["unreadable", place] if numbers(&[place]) => Some(Status::Trouble),
        ["0", ref counts @ ..] if counts.len() % 2 == 0 && numbers(counts) => {
            Some(Status::Accepted)
        }
        [refusal] if refusal != "0" && numbers(&[refusal]) => Some(Status::Refused),
        _ => None,
    }
}

#[cfg(test)]
mod tests {
    use super::*;
    use crate::verbs::verb;

    #[test]
    fn the_status_of_a_line() {
        for line in ["0", "0 0 1525 0 2243 0 1704 0 1704", "0 0 0"] {
            assert_eq!(told(line), Some(Status::Accepted), "{line}");
        }
        for line in ["4", "22", "23"] {
            assert_eq!(told(line), Some(Status::Refused), "{line}");
        }
        for line in ["unreadable 1", "unreadable 70000"] {
            assert_eq!(told(line), Some(Status::Trouble), "{line}");
        }
    }

    #[test]
    fn what_is_no_line_of_the_program() {
        let lines = [
            "",
            " ",
            "0 ",
            "0 1",
            "0 1 x",
            "0  1",
            "4 0",
            "22 1 1",
            "-1",
            "+4",
            "unreadable",
            "unreadable x",
            "unreadable 1 2",
            "proved",
        ];
        for line in lines {
            assert_eq!(told(line), None, "{line}");
        }
    }

    #[test]
    fn the_help_has_both_forms() {
        let help = verb("expiry").expect("it is a verb").help;
        for form in FORMS {
            assert!(help.contains(form), "{form}");
        }
    }
}

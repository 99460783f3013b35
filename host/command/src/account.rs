//! The verb `account`: a book in hand as it is told, and three ways to print it.

mod aligned;
mod csv;
mod fields;
mod json;
mod table;
mod view;

use crate::arguments::Asked;
use crate::output::Output;
use crate::run::{answered, opened};
use crate::trouble::{Outcome, Trouble};

pub use self::csv::csv;
pub use self::json::json;
pub use self::table::table;
pub use self::view::{view, Account, Contract, Money, Order, Position, Standing, Underlying, View};

pub fn account(asked: &Asked, output: &mut Output) -> Outcome {
    let form = asked.one_of(&["--csv", "--json"])?;
    let after = asked.value("--after").map(|word| {
        let number = word.parse::<u64>();
        number.map_err(|_| {
            Trouble(format!(
                "--after takes a number of records, and not `{word}`"
            ))
        })
    });
    let after = after.transpose()?;
    let run = answered(&mut opened(asked)?, output, after, |_, _| Ok(()))?;
    let records = run.desk.records;
    if let Some(after) = after.filter(|&after| records < after) {
        return Err(Trouble(format!(
            "there is no record {after}, only {records}"
        )));
    }
    let view = view(&run.desk.book);
    output.put(match form {
        Some("--csv") => csv(&view),
        Some(_) => json(&view),
        None => table(&view),
    })?;
    run.tell(output)?;
    Ok(run.status)
}

//! What is typed goes to its verb; how that ends is told by a line, where something is wrong, and by the exit status.

use ravundesk::arguments::Asked;
use ravundesk::output::{say, Output};
use ravundesk::trouble::{Outcome, Status, Trouble};
use ravundesk::verbs::{help_on, help_text, verb};
use std::ffi::OsString;

fn main() {
    let mut output = Output::new();
    let outcome = answered(&mut output);
    let flushed = output.flush();
    let status = match outcome.and_then(|status| flushed.map(|()| status)) {
        Ok(status) => status,
        Err(Trouble(line)) => {
            say(&line);
            Status::Trouble
        }
    };
    std::process::exit(status as i32);
}

fn answered(output: &mut Output) -> Outcome {
    let words = std::env::args_os().skip(1).map(OsString::into_string);
    let words: Vec<String> = words.collect::<Result<_, _>>().map_err(|word| {
        let word = word.to_string_lossy().into_owned();
        Trouble(format!("`{word}` is no text"))
    })?;
    match words.first().map(String::as_str) {
        None => Err(Trouble(
            "a verb is missing; `ravundesk help` lists them".to_string(),
        )),
        Some("--help" | "-h") => {
            output.put(help_text())?;
            Ok(Status::Accepted)
        }
        Some(name) => {
            let name = if name == "--version" { "version" } else { name };
            let verb = verb(name)?;
            match Asked::of(verb, &words[1..])? {
                Some(asked) => (verb.run)(&asked, output),
                None => {
                    output.put(help_on(verb))?;
                    Ok(Status::Accepted)
                }
            }
        }
    }
}

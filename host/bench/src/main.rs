//! `bench [PICTURE]` compares the answers of all versions, times them, prints the tables and writes the picture; `bench --quick` does so in
//! a few rounds and draws nothing.

use bench::report::Report;
use bench::{picture, tables};
use std::process::ExitCode;
use std::time::Duration;
use std::{env, fs};

fn main() -> ExitCode {
    match run(env::args().nth(1)) {
        Ok(()) => ExitCode::SUCCESS,
        Err(report) => {
            eprintln!("{report}");
            ExitCode::FAILURE
        }
    }
}

fn run(asked: Option<String>) -> Result<(), String> {
    let quick = asked.as_deref() == Some("--quick");
    let (rounds, round) = if quick { (3, 200) } else { (41, 5_000) };
    let report = Report::made(rounds, Duration::from_micros(round))?;
    print!("{}", tables::told(&report));
    match asked {
        Some(path) if !quick => {
            fs::write(&path, picture::drawn(&report)).map_err(|error| format!("{path}: {error}"))
        }
        _ => Ok(()),
    }
}

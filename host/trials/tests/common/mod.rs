//! A trial, tried on programs that are right or wrong.

use std::process::{Command, Output};

/// A trial of a program that is made of `plain`, and of a command that the program's lines go through.
pub fn trial(trial: &str, program: &str, count: &str, through: &str) -> Output {
    let lines = format!("\"$0\" | {through}");
    Command::new(trial)
        .args([count, "1", "sh", "-c", &lines, program])
        .output()
        .unwrap()
}

//! The verb `version`: what is installed, and what it was built from.

use crate::arguments::Asked;
use crate::output::Output;
use crate::proved::{BOOK, EXPIRY};
use crate::trouble::{Outcome, Status};
use std::path::{Path, PathBuf};
use std::process::Command;
use std::{env, fs};

/// Where the launcher has installed this command.
const INSTALLED: &str = "RAVUNDESK_COMMAND";

pub fn version(_: &Asked, output: &mut Output) -> Outcome {
    output.line(&format!("ravundesk {}", env!("CARGO_PKG_VERSION")))?;
    output.line("\ncommand: the proved source, compiled by rustc")?;
    output.put(described(
        INSTALLED,
        "ravundesk",
        "it was not started by ./ravundesk",
    ))?;
    for program in [BOOK, EXPIRY] {
        let name = program.name;
        output.line(&format!("\n{name}: the proved program"))?;
        let not_yet = format!("it is not installed; ./ravundesk {name} proves and installs it");
        output.put(described(program.variable, name, &not_yet))?;
    }
    Ok(Status::Accepted)
}

/// What the launcher wrote down when it installed the program, and the program's checksum as it is now.
fn described(variable: &str, program: &str, missing: &str) -> String {
    let folder = match env::var_os(variable) {
        Some(folder) => PathBuf::from(folder),
        None => return format!("  {missing}\n"),
    };
    let built = fs::read_to_string(folder.join("built")).unwrap_or_default();
    let mut lines: String = built.lines().map(|line| format!("  {line}\n")).collect();
    lines += &format!("  sha256 {}\n", checksum(&folder.join(program)));
    lines
}

fn checksum(file: &Path) -> String {
    let said = Command::new("sha256sum").arg(file).output();
    let said = said.ok().filter(|said| said.status.success());
    let words = said.map(|said| String::from_utf8_lossy(&said.stdout).into_owned());
    let first = words.as_ref().and_then(|words| words.split(' ').next());
    first.unwrap_or("unknown").to_string()
}

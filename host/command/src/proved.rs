//! Proved programs, started as the launcher has installed them, and heard line by line.

use crate::output::Output;
use crate::trouble::{system, Outcome, Status, Trouble};
use std::io::{self, BufRead, BufReader, Write};
use std::path::PathBuf;
use std::process::{Child, ChildStdout, Command, Stdio};
use std::{env, fs, thread};

pub struct Program {
    /// The verb that runs it, and its file.
    pub name: &'static str,
    /// The variable in which the launcher tells where it is installed.
    pub variable: &'static str,
}

pub const BOOK: Program = Program {
    name: "book",
    variable: "RAVUNDESK_BOOK",
};

pub const EXPIRY: Program = Program {
    name: "expiry",
    variable: "RAVUNDESK_EXPIRY",
};

const NOT_INSTALLED: &str =
    "the proved program is installed by ./ravundesk, at the root of the tree";

impl Program {
    pub fn start(&self, input: Stdio) -> Result<Running, Trouble> {
        let folder = env::var_os(self.variable).map(PathBuf::from);
        let folder = folder.ok_or_else(|| Trouble(NOT_INSTALLED.to_string()))?;
        let start = fs::read_to_string(folder.join("start")).map_err(not_started)?;
        let mut words = start.lines().map(PathBuf::from).collect::<Vec<_>>();
        words.push(folder.join(self.name));
        let mut child = Command::new(&words[0])
            .args(&words[1..])
            .stdin(input)
            .stdout(Stdio::piped())
            .spawn()
            .map_err(not_started)?;
        let output = child.stdout.take().expect("standard output is a pipe");
        let output = BufReader::new(output);
        Ok(Running { child, output })
    }
}

fn not_started(error: io::Error) -> Trouble {
    system("the proved program can't be started", &error)
}

/// A program that was started, and ends with this at the latest: it might wait for input that nobody wants answered any more.
pub struct Running {
    child: Child,
    output: BufReader<ChildStdout>,
}

impl Running {
    /// All that it gets to read. This comes from a thread of its own, or two full pipes would wait for each other.
    pub fn feed(&mut self, bytes: Vec<u8>) {
        let mut input = self.child.stdin.take().expect("standard input is a pipe");
        // What is past the last byte that the program reads finds nobody.
        thread::spawn(move || input.write_all(&bytes).unwrap_or(()));
    }

    /// Passes each line on as soon as it is there, up to the program's end. `told` has the status that a line tells, if it is one of this
    /// program.
    pub fn pass_on(
        &mut self,
        output: &mut Output,
        mut told: impl FnMut(&str) -> Option<Status>,
    ) -> Outcome {
        let mut status = Status::Accepted;
        while let Some(line) = self.line(output)? {
            let said = || Trouble(format!("the proved program said: {line}"));
            status = status.and(told(&line).ok_or_else(said)?);
            output.line(&line)?;
        }
        Ok(status)
    }

    /// The next line, without its end; none where the program has ended, and well.
    fn line(&mut self, output: &mut Output) -> Result<Option<String>, Trouble> {
        if !self.output.buffer().contains(&b'\n') {
            output.flush()?;
        }
        let mut line = Vec::new();
        let read = self.output.read_until(b'\n', &mut line);
        read.map_err(|error| system("the proved program can't be heard", &error))?;
        let whole = line.last() == Some(&b'\n');
        if whole {
            line.pop();
        } else {
            self.ended()?;
        }
        let text = String::from_utf8_lossy(&line).into_owned();
        Ok(Some(text).filter(|text| whole || !text.is_empty()))
    }

    fn ended(&mut self) -> Result<(), Trouble> {
        let status = self.child.wait();
        let status = status.map_err(|error| system("the proved program can't be heard", &error))?;
        if status.success() {
            Ok(())
        } else {
            Err(Trouble(format!("the proved program failed: {status}")))
        }
    }
}

impl Drop for Running {
    fn drop(&mut self) {
        // Where it has ended already there is nothing to do.
        let _ = self.child.kill();
        let _ = self.child.wait();
    }
}

//! A program on trial: what the command line asks, what the program writes held to what is expected, and the verdicts that were met.

use std::io::{Read, Write};
use std::path::PathBuf;
use std::process::{self, exit, Child, Command, Stdio};
use std::{env, fmt, fs, thread};

pub struct Trial {
    pub count: u64,
    pub seed: u64,
    program: Vec<String>,
}

impl Trial {
    /// As the command line asks; where it does not, a line says how it is used.
    pub fn asked(name: &str) -> Trial {
        let mut words = env::args().skip(1);
        Trial::of(&mut words).unwrap_or_else(|| {
            eprintln!("{name} COUNT SEED PROGRAM [ARGS..]");
            exit(2)
        })
    }

    fn of(words: &mut impl Iterator<Item = String>) -> Option<Trial> {
        let count = words.next()?.parse().ok()?;
        let seed = words.next()?.parse().ok()?;
        let program: Vec<String> = words.collect();
        program.first()?;
        Some(Trial {
            count,
            seed,
            program,
        })
    }

    /// Runs the program on the input; the report says where its output is another than the one expected.
    pub fn hold(&self, input: Vec<u8>, expected: &str) -> Result<(), String> {
        let mut child = Command::new(&self.program[0])
            .args(&self.program[1..])
            .stdin(Stdio::piped())
            .stdout(Stdio::piped())
            .spawn()
            .map_err(|error| format!("{} does not run: {error}", self.program[0]))?;
        let output = exchange(&mut child, input);
        let status = child.wait().map_err(|error| error.to_string())?;
        match difference(expected, &output) {
            Some(report) => Err(report),
            None if status.success() => Ok(()),
            None => Err(format!("every line is right, but then: {status}")),
        }
    }
}

/// All that the child writes. Its input comes from a thread of its own, or two full pipes would wait for each other.
fn exchange(child: &mut Child, input: Vec<u8>) -> String {
    let mut stdin = child.stdin.take().expect("standard input is a pipe");
    let mut stdout = child.stdout.take().expect("standard output is a pipe");
    // A child that stops reading shows in what it wrote.
    let writer = thread::spawn(move || stdin.write_all(&input).unwrap_or(()));
    let mut output = Vec::new();
    let read = stdout.read_to_end(&mut output);
    writer.join().expect("writing does not panic");
    read.expect("a pipe can be read");
    String::from_utf8_lossy(&output).into_owned()
}

/// The first line that is not as expected, a few before it, and both forms of it.
fn difference(expected: &str, output: &str) -> Option<String> {
    if expected == output {
        return None;
    }
    let wanted: Vec<&str> = expected.split_inclusive('\n').collect();
    let given: Vec<&str> = output.split_inclusive('\n').collect();
    let alike = wanted.iter().zip(&given).take_while(|(w, g)| w == g);
    let at = alike.count();
    let before: String = wanted[at.saturating_sub(6)..at]
        .iter()
        .map(|line| format!("  {line}"))
        .collect();
    let (wanted, given) = (shown(wanted.get(at)), shown(given.get(at)));
    let number = at + 1;
    Some(format!(
        "line {number}\n{before}plain   {wanted}\nprogram {given}"
    ))
}

fn shown(line: Option<&&str>) -> String {
    match line {
        None => "(no line)".to_string(),
        Some(line) => match line.strip_suffix('\n') {
            Some(text) => text.to_string(),
            None => format!("{line} (and no end of line)"),
        },
    }
}

/// Puts what a program failed on into a file, and says where it is.
pub fn kept(what: &str, bytes: &[u8]) -> String {
    let name = format!("ravundesk-{}.{what}", process::id());
    let path: PathBuf = env::temp_dir().join(name);
    match fs::write(&path, bytes) {
        Ok(()) => format!("the {what} is in {}", path.display()),
        Err(error) => format!("{} can't be written: {error}", path.display()),
    }
}

/// How often each verdict was met, acceptance at 0.
#[derive(Default)]
pub struct Verdicts([u64; 24]);

impl Verdicts {
    pub fn meet(&mut self, verdict: usize) {
        self.0[verdict] += 1;
    }

    pub fn met(&self, verdict: usize) -> u64 {
        self.0[verdict]
    }

    pub fn all(&self) -> u64 {
        self.0.iter().sum()
    }
}

/// A refusal that was not met is left out.
impl fmt::Display for Verdicts {
    fn fmt(&self, text: &mut fmt::Formatter) -> fmt::Result {
        write!(text, "accepted {}; refused", self.0[0])?;
        for (number, met) in self.0.iter().enumerate().skip(1) {
            if 0 < *met {
                write!(text, " {number}: {met}")?;
            }
        }
        Ok(())
    }
}

//! The command as it is typed, the lines that it prints, and the books that it is tried on.

// No test uses all of it.
#![allow(dead_code)]

pub mod lines;

use std::io::Write;
use std::process::{Child, Command, Stdio};
use std::thread;
use trials::{booking, examples, telling};

pub struct Book {
    pub name: String,
    pub bytes: Vec<u8>,
}

impl Book {
    pub fn new(name: impl Into<String>, bytes: Vec<u8>) -> Book {
        let name = name.into();
        Book { name, bytes }
    }
}

/// Those of `examples/`, and those that tell one rule each.
pub fn told_books() -> Vec<Book> {
    let examples = examples::books().into_iter();
    let examples = examples.map(|(name, bytes)| Book::new(name, bytes));
    let telling = telling::books().into_iter();
    let telling = telling.map(|told| Book::new(told.name, told.bytes));
    examples.chain(telling).collect()
}

pub fn random_books(seed: u64, count: u64) -> impl Iterator<Item = Book> {
    (1..=count).map(move |number| {
        let name = format!("seed {seed}, book {number}");
        Book::new(name, booking::book(seed, number))
    })
}

/// What the command came to.
pub struct Said {
    pub output: Vec<u8>,
    pub errors: String,
    pub status: i32,
}

impl Said {
    pub fn text(&self) -> &str {
        std::str::from_utf8(&self.output).expect("what is printed is text")
    }
}

pub fn started(words: &[&str]) -> Child {
    Command::new(env!("CARGO_BIN_EXE_ravundesk"))
        .args(words)
        .stdin(Stdio::piped())
        .stdout(Stdio::piped())
        .stderr(Stdio::piped())
        .spawn()
        .expect("the command starts")
}

/// The input comes from a thread of its own, or two full pipes would wait for each other.
pub fn ravundesk(words: &[&str], input: &[u8]) -> Said {
    let mut child = started(words);
    let mut pipe = child.stdin.take().expect("standard input is a pipe");
    let output = thread::scope(|scope| {
        // A run that has stopped reads no further.
        scope.spawn(move || pipe.write_all(input).unwrap_or(()));
        child.wait_with_output().expect("its output can be read")
    });
    Said {
        output: output.stdout,
        errors: String::from_utf8_lossy(&output.stderr).into_owned(),
        status: output.status.code().expect("no signal ends it"),
    }
}

/// Told where a test fails while it stands.
pub struct Tried<'a>(pub &'a str, pub &'a str);

impl Drop for Tried<'_> {
    fn drop(&mut self) {
        if thread::panicking() {
            eprintln!("{}: {}", self.0, self.1);
        }
    }
}

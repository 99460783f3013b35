//! `books COUNT SEED PROGRAM [ARGS..]` runs a program on the telling books and on COUNT random ones, each by itself, and holds what it
//! prints to the telling books' own lines and to what `plain` prints.

use plain::program::printed;
use std::process::exit;
use trials::booking::book;
use trials::telling;
use trials::trial::{kept, Trial, Verdicts};

fn main() {
    let trial = Trial::asked("books");
    let mut verdicts = Verdicts::default();
    let telling = telling::books();
    for (number, told) in telling.iter().enumerate() {
        let name = format!("telling book {number}, {}", told.name);
        hold(&trial, &name, &told.bytes, &told.lines, &mut verdicts);
    }
    for number in 1..=trial.count {
        let bytes = book(trial.seed, number);
        let name = format!("seed {}, book {number}", trial.seed);
        hold(&trial, &name, &bytes, &printed(&bytes), &mut verdicts);
    }
    println!(
        "{} telling and {} random books alike, {} records; {verdicts}",
        telling.len(),
        trial.count,
        verdicts.all()
    );
}

/// Where the program prints something else, the report is printed, with the file that has the book, and nothing more is tried.
fn hold(trial: &Trial, name: &str, bytes: &[u8], lines: &str, verdicts: &mut Verdicts) {
    if let Err(report) = trial.hold(bytes.to_vec(), lines) {
        println!("{name}, {report}\n{}", kept("book", bytes));
        exit(1);
    }
    for line in lines.lines() {
        let verdict = line.split(' ').nth(1).and_then(|word| word.parse().ok());
        verdicts.meet(verdict.expect("a line has a verdict"));
    }
}

//! Numbers, refusals and sums of the verb `run` are the second working's, over all bytes of a book, however it is asked and handed over.

mod common;

use common::lines::{decimal, Line};
use common::{random_books, ravundesk, started, told_books, Book, Said, Tried};
use plain::book::{run_book, Run};
use plain::entry::Entry;
use plain::program::lines;
use plain::record::{read, written};
use plain::terms::Kind;
use ravundesk::run::BY_SOURCE;
use std::io::{BufRead, BufReader, Write};
use std::process::Child;
use std::sync::mpsc::{channel, Receiver};
use std::thread;
use std::time::Duration;
use trials::chance::Chance;

fn second(book: &Book) -> Run {
    run_book(&book.bytes, book.bytes.len())
}

fn status(run: &Run) -> i32 {
    let verdicts = run.answers.iter().map(|(verdict, _)| match verdict {
        0 => 0,
        1..=3 => 3,
        _ => 1,
    });
    verdicts.max().unwrap_or(0)
}

fn hold(book: &Book) {
    let _tried = Tried(&book.name, "its numbers");
    let run = second(book);
    let bare = ravundesk(&["run", "--lines", "--records"], &book.bytes);
    assert_eq!(bare.text(), lines(&run.answers));
    let words = ravundesk(&["run", "--records"], &book.bytes);
    assert_eq!(numbers(&words), run.answers);
    let refused = ravundesk(&["run", "--refused", "--records"], &book.bytes);
    let left = words.text().lines();
    let left: Vec<&str> = left.filter(|line| Line::of(line).refusal() != 0).collect();
    assert_eq!(refused.text().lines().collect::<Vec<_>>(), left);
    let quiet = ravundesk(&["run", "--quiet", "--records"], &book.bytes);
    hold_summary(&run, quiet.text().strip_suffix('\n').expect("a line"));
    assert_eq!(quiet.errors, "");
    assert_eq!(quiet.status, status(&run));
    let source = format!("; {BY_SOURCE}\n");
    for said in [&bare, &words, &refused] {
        assert_eq!(said.status, status(&run));
        let told = said.errors.strip_prefix("ravundesk: ");
        let told = told.and_then(|told| told.strip_suffix(source.as_str()));
        hold_summary(&run, told.expect("a summary, and who answered"));
    }
}

/// The verdicts and sums of lines in words, numbered from 1.
fn numbers(said: &Said) -> Vec<(u8, i64)> {
    let mut answers = Vec::new();
    for (number, text) in (1..).zip(said.text().lines()) {
        let line = Line::of(text);
        assert_eq!(line.number, number, "{text}");
        answers.push((line.refusal(), line.available));
    }
    answers
}

/// As `9 records, 7 accepted, 2 refused; stopped at byte 100, record 10; available 1.00`.
fn hold_summary(run: &Run, told: &str) {
    let _tried = Tried("summary", told);
    let stops = status(run) == 3;
    let accepted = run.answers.iter().filter(|answer| answer.0 == 0).count();
    let (records, read) = (run.answers.len(), run.answers.len() - usize::from(stops));
    let refused = read - accepted;
    let stopped = if stops {
        format!("; stopped at byte {}, record {records}", run.place)
    } else {
        String::new()
    };
    let what = if read == 1 { "record" } else { "records" };
    let counts =
        format!("{read} {what}, {accepted} accepted, {refused} refused{stopped}; available ");
    let sum = told.strip_prefix(&counts).expect("the counts");
    assert_eq!(decimal(sum, 2), run.book.available().into());
}

#[test]
fn examples_and_telling_books() {
    told_books().iter().for_each(hold);
}

#[test]
fn random_ones() {
    random_books(307, 120).for_each(|book| hold(&book));
}

/// Random books that can be read to their ends, one behind the other, and then entries with rising numbers.
fn long_book(number: u64) -> Book {
    let mut chance = Chance::new(311, number);
    let mut bytes = Vec::new();
    for book in random_books(313 + number, 20) {
        let run = second(&book);
        let open = matches!(run.book, plain::book::Book::Open(_));
        if open && run.place == book.bytes.len() {
            bytes.extend(book.bytes);
        }
    }
    let first = 4_000_000_000;
    for number in first..first + 3_700 {
        let kind = chance.pick(&Kind::ALL);
        let quantity = chance.between(1, 3) as u32;
        let price = chance.between(1, 2_000) as u32;
        let contract = chance.between(0, 2) as u16;
        let entries = [
            Entry::Deposit { amount: 50_000 },
            Entry::order(number, contract, kind, quantity, price),
            Entry::fill(number, 1, price),
            Entry::Cancel { number },
        ];
        bytes.extend(written(&entries).expect("no day end is among them"));
    }
    Book::new(format!("long book {number}"), bytes)
}

#[test]
fn books_longer_than_the_proved_program_reads() {
    for number in 1..=3 {
        let book = long_book(number);
        assert!(200_000 < book.bytes.len());
        let run = second(&book);
        assert_eq!(run.place, book.bytes.len());
        let late = &run.answers[run.answers.len() - 3_000..];
        assert!(100 < late.iter().filter(|answer| answer.0 == 0).count());
        hold(&book);
    }
}

/// The lines as they come, which end with the process.
fn lines_of(child: &mut Child) -> Receiver<String> {
    let output = child.stdout.take().expect("standard output is a pipe");
    let (sender, receiver) = channel();
    thread::spawn(move || {
        for line in BufReader::new(output).lines() {
            let line = line.expect("what is printed is text");
            sender.send(line + "\n").unwrap_or(());
        }
    });
    receiver
}

/// How many records are answered before more bytes come, and whether the last of them stops the run.
fn answered(bytes: &[u8]) -> (usize, bool) {
    let (mut count, mut place) = (0, 0);
    loop {
        match read(bytes, place) {
            Ok((_, length)) => {
                count += 1;
                place += length;
            }
            Err(1) => return (count, false),
            Err(_) => return (count + 1, true),
        }
    }
}

/// As for records, where each line is one.
fn answered_lines(text: &[u8]) -> (usize, bool) {
    let ends = text.iter().filter(|&&byte| byte == b'\n');
    (ends.count(), false)
}

/// A few bytes at a time; all that can be answered has to be before the next byte is sent.
fn in_pieces(
    words: &[&str],
    bytes: &[u8],
    chance: &mut Chance,
    answered: fn(&[u8]) -> (usize, bool),
) -> String {
    let mut child = started(words);
    let mut pipe = child.stdin.take().expect("standard input is a pipe");
    let lines = lines_of(&mut child);
    let mut told = Vec::new();
    let mut sent = 0;
    while sent < bytes.len() {
        let next = bytes.len().min(sent + chance.between(1, 30) as usize);
        pipe.write_all(&bytes[sent..next]).expect("it reads on");
        sent = next;
        let (count, stopped) = answered(&bytes[..sent]);
        while told.len() < count {
            let line = lines.recv_timeout(Duration::from_secs(20));
            told.push(line.expect("a whole record is answered at once"));
        }
        if stopped {
            break;
        }
    }
    drop(pipe);
    told.extend(lines);
    child.wait().expect("it ends");
    told.concat()
}

fn short_books() -> impl Iterator<Item = Book> {
    let told = told_books().into_iter().step_by(5);
    let random = random_books(317, 100);
    told.chain(random).filter(|book| book.bytes.len() < 4_000)
}

#[test]
fn in_pieces_through_a_pipe() {
    let mut chance = Chance::new(331, 0);
    for book in short_books() {
        let _tried = Tried(&book.name, "in pieces");
        let words = ["run", "--records"];
        let whole = ravundesk(&words, &book.bytes);
        let told = in_pieces(&words, &book.bytes, &mut chance, answered);
        assert_eq!(told, whole.text());
    }
}

#[test]
fn as_text_in_pieces() {
    let mut chance = Chance::new(347, 0);
    let pay = Book::new(
        "a payout",
        written(&[Entry::Pay]).expect("it is no day end"),
    );
    for book in short_books().chain([pay]) {
        let _tried = Tried(&book.name, "as text in pieces");
        let shown = ravundesk(&["show"], &book.bytes);
        if shown.status == 0 {
            let whole = ravundesk(&["run", "--records"], &book.bytes);
            let words = ["run", "--text"];
            let told = in_pieces(&words, &shown.output, &mut chance, answered_lines);
            assert_eq!(told, whole.text());
        }
    }
}

#[test]
fn as_text() {
    let books = told_books().into_iter().chain(random_books(337, 80));
    for book in books.filter(|book| book.bytes.len() < 10_000) {
        let _tried = Tried(&book.name, "as text");
        let shown = ravundesk(&["show"], &book.bytes);
        let text = ravundesk(&["run", "--text"], &shown.output);
        let records = ravundesk(&["run", "--records"], &book.bytes);
        assert_eq!(text.text(), records.text());
        assert_eq!(text.errors, records.errors);
        assert_eq!(text.status, records.status);
        let as_it_looks = ravundesk(&["run"], &shown.output);
        assert_eq!(as_it_looks.text(), records.text());
        for (shown, line) in shown.text().lines().zip(records.text().lines()) {
            if !shown.starts_with('#') {
                assert_eq!(Line::of(line).record, shortened(shown));
            }
        }
    }
}

/// Of more than four figures of a day end the first three are told, and how many there are.
fn shortened(line: &str) -> String {
    let figures = line.strip_prefix("day-end settlements ");
    let figures = figures.and_then(|figures| figures.split_once(" closes "));
    let few = |figures: &str| {
        let all: Vec<&str> = figures.split(' ').collect();
        match all.len() {
            0..=4 => figures.to_string(),
            count => format!("{} .. ({count})", all[..3].join(" ")),
        }
    };
    match figures {
        Some((settlements, closes)) => {
            let (settlements, closes) = (few(settlements), few(closes));
            format!("day-end settlements {settlements} closes {closes}")
        }
        None => line.to_string(),
    }
}

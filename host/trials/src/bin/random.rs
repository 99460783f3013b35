//! `random COUNT SEED PROGRAM [ARGS..]` gives random lines to a program and holds its answers to those of `plain`.

use plain::program::MOST_READ;
use std::process::exit;
use trials::answered;
use trials::edges::Edges;
use trials::making::Maker;
use trials::trial::{Trial, Verdicts};

/// Accepted fills are counted by kind of order.
#[derive(Default)]
struct Counts {
    verdicts: Verdicts,
    fills: [u64; 7],
}

fn main() {
    let trial = Trial::asked("random");
    let mut counts = Counts::default();
    for batch in 0.. {
        let left = trial.count - counts.verdicts.all();
        if left == 0 {
            break;
        }
        let (asked, answers) = batch_of(trial.seed, batch, left, &mut counts);
        if let Err(report) = trial.hold(asked.into_bytes(), &answers) {
            println!("seed {}, batch {batch}, {report}", trial.seed);
            exit(1);
        }
    }
    println!("{}", summary(trial.count, &counts));
}

/// Lines as they are asked, and as they are answered.
fn batch_of(seed: u64, batch: u64, left: u64, counts: &mut Counts) -> (String, String) {
    let mut maker = Maker::new(seed, batch);
    let mut edges = Edges::new();
    let (mut asked, mut answers) = (String::new(), String::new());
    for _ in 0..left {
        let line = maker.line(&edges.desk);
        if MOST_READ < asked.len() + line.len() + 1 {
            break;
        }
        let kind = kind_filled(&edges, &line);
        let answer = answered(&mut edges, &line);
        let verdict = verdict(&line, &answer);
        counts.verdicts.meet(verdict);
        if verdict == 0 {
            counts.fills[kind] += 1;
        }
        asked += &(line + "\n");
        answers += &(answer + "\n");
    }
    (asked, answers)
}

/// The kind of the resting order that a fill names, or 0.
fn kind_filled(edges: &Edges, line: &str) -> usize {
    let mut words = line.split(' ');
    let number = match words.next() {
        Some("fill") => words.next().and_then(|word| word.parse().ok()),
        _ => None,
    };
    let order = number.and_then(|number| edges.desk.account.find(number));
    order.map_or(0, |(_, order)| order.kind as usize)
}

fn verdict(line: &str, answer: &str) -> usize {
    let words = answer[line.len()..].trim_start_matches(" = ");
    let verdict = words.split(' ').next().and_then(|word| word.parse().ok());
    verdict.expect("every line that is made asks something")
}

fn summary(count: u64, counts: &Counts) -> String {
    let fills: String = (1..counts.fills.len())
        .map(|kind| format!(" {kind}: {}", counts.fills[kind]))
        .collect();
    let verdicts = &counts.verdicts;
    format!("{count} entries alike; {verdicts}; filled by kind{fills}")
}

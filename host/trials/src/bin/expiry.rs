//! `expiry COUNT SEED PROGRAM [ARGS..]` asks a program COUNT random questions of an expiry day and holds its answers to those of `plain`,
//! and those to what is stated.

use plain::expiry_lines::printed;
use std::process::exit;
use trials::expiring::batch;
use trials::reached::Reached;
use trials::trial::{kept, Trial};

/// From as many questions on everything is to be reached.
const ENOUGH: u64 = 1_000;

fn main() {
    let trial = Trial::asked("expiry");
    let mut reached = Reached::default();
    for number in 0.. {
        let left = trial.count - reached.questions();
        if left == 0 {
            break;
        }
        let batch = batch(trial.seed, number, left);
        let answers = printed(&batch.input);
        let held = reached.hold(&batch, &answers);
        if let Err(report) = held.and_then(|()| trial.hold(batch.input.clone(), &answers)) {
            let file = kept("list", &batch.input);
            println!("seed {}, batch {number}, {report}\n{file}", trial.seed);
            exit(1);
        }
    }
    println!("{} questions alike; {reached}", trial.count);
    let missed = reached.missed();
    if ENOUGH <= trial.count && !missed.is_empty() {
        println!("no question reached: {}", missed.join(", "));
        exit(1);
    }
}

//! The report in Markdown.

use crate::report::{Curve, Report};
use crate::timing::Spread;
use crate::versions::{in_hand, sizes, Version, VERSIONS};

pub fn told(report: &Report) -> String {
    let curves = report.contracts.iter().chain(&report.resting);
    let curves = curves.chain([&report.length]);
    let parts = [versions(), books(report), corners(report)];
    let parts = parts.into_iter().chain(curves.map(curve));
    parts.chain([values()]).collect::<Vec<_>>().join("\n")
}

fn row(cells: impl IntoIterator<Item = String>) -> String {
    let cells: String = cells.into_iter().map(|cell| format!(" {cell} |")).collect();
    format!("|{cells}\n")
}

/// A sentence, and a table under it.
fn table(says: &str, head: Vec<String>, rows: impl IntoIterator<Item = Vec<String>>) -> String {
    let line = row(head.iter().map(|_| "---".to_string()));
    let rows: String = rows.into_iter().map(row).collect();
    format!("{says}\n\n{}{line}{rows}", row(head))
}

fn words<const N: usize>(words: [&str; N]) -> Vec<String> {
    words.map(String::from).to_vec()
}

fn names(versions: &[Version]) -> impl Iterator<Item = String> + '_ {
    versions.iter().map(|version| version.name.to_string())
}

fn versions() -> String {
    let row = |version: &Version| words([version.name, version.manner]);
    let rows = VERSIONS.iter().map(row);
    table(
        "The versions; those that rustc compiles are optimised alike.",
        words(["version", "what it is"]),
        rows,
    )
}

/// The last version is what the others are measured by.
fn against_last(spreads: &[Spread], last: f64) -> impl Iterator<Item = String> + '_ {
    spreads.iter().map(move |spread| {
        let Spread { low, median, high } = spread;
        format!("{median:.1} ({low:.1} to {high:.1}), x{:.2}", median / last)
    })
}

fn books(report: &Report) -> String {
    let head = words(["book", "bytes", "records", "accepted"]);
    let rows = report.books.iter().map(|book| {
        let share = 100 * book.accepted / book.records;
        let counts = [book.bytes, book.records].map(|count| count.to_string());
        let last = book.spreads[VERSIONS.len() - 1].median;
        let cells = [book.name.clone()].into_iter().chain(counts);
        let cells = cells.chain([format!("{share}%")]);
        cells.chain(against_last(&book.spreads, last)).collect()
    });
    let says = "Nanoseconds for a record: the median of all rounds, the quartiles, and the multiple of the last version's median.";
    table(
        says,
        head.into_iter().chain(names(VERSIONS)).collect(),
        rows,
    )
}

/// What an order costs on the smallest account and on the largest, and how many times as much.
fn corners(report: &Report) -> String {
    let says = "An order on the smallest account (1 contract, none resting) and on the largest (64 contracts, 31 resting), in nanoseconds.";
    let head = words(["measured", "version", "smallest", "largest", "ratio"]);
    let curves = report.contracts.iter().zip(&report.resting);
    let rows = curves.flat_map(|(contracts, resting)| {
        let smallest = &contracts.points[0].1;
        let largest = &resting.points[resting.points.len() - 1].1;
        let corners = smallest.iter().zip(largest);
        names(in_hand())
            .zip(corners)
            .map(move |(name, (small, large))| {
                let (small, large) = (small.median, large.median);
                let times = [small, large].map(|time| format!("{time:.1}"));
                let ratio = format!("{:.2}", large / small);
                let cells = [contracts.cost.to_string(), name].into_iter();
                cells.chain(times).chain([ratio]).collect()
            })
    });
    table(says, head, rows)
}

fn curve(curve: &Curve) -> String {
    let counts = curve.points.iter().map(|(count, _)| count.to_string());
    let head = [curve.axis.to_string()].into_iter().chain(counts).collect();
    let rows = names(in_hand()).enumerate().map(|(version, name)| {
        let times = curve
            .points
            .iter()
            .map(|(_, spreads)| spreads[version].median);
        let times = times.map(|time| format!("{time:.1}"));
        [name].into_iter().chain(times).collect()
    });
    let says = format!("Nanoseconds, {}, by {}.", curve.cost, curve.axis);
    table(&says, head, rows)
}

fn values() -> String {
    let rows = sizes().map(|(name, bytes)| vec![name.to_string(), bytes.to_string()]);
    table("Sizes of values.", words(["value", "bytes"]), rows)
}

//! Books of next to nothing, books at the end of a page of lines, and books at the 65,536th byte.

use super::{cancel, deposit, lock, opened, told, told_with, Row, Telling};
use plain::entry::Entry;
use plain::program::MOST_READ;
use plain::record::written;
use std::slice;

pub fn books() -> Vec<Telling> {
    let mut books = vec![told("no input", &[])];
    for size in 1..4 {
        let name = format!("{size} bytes of no kind");
        books.push(told_with(&name, &[], &[255; 3][..size], &[(1, 0)]));
    }
    books.extend([
        told("8,192 cancels", &early(cancel(1), MOST_READ)),
        told("16,384 payouts", &early(Entry::Pay, MOST_READ)),
    ]);
    let fillings = [
        ("cancels", (cancel(1), 7, 600_000)),
        ("payouts", (Entry::Pay, 19, 600_000)),
    ];
    for (name, row) in fillings {
        for (end, more) in [
            ("up to the last byte", Vec::new()),
            ("and one byte more", vec![255]),
            ("and a deposit not read", record(&deposit(1))),
            ("and one more, not read", record(&row.0)),
        ] {
            let name = format!("a set-up, {name}, {end}");
            books.push(opened_to_the_end(&name, &row, &more));
        }
    }
    books.extend([8, 6, 4, 2].map(|read| cut_within("a deposit", &deposit(1), read)));
    books.push(cut_within("a payout", &Entry::Pay, 2));
    books.extend([127, 128, 129, 256].into_iter().flat_map(paged));
    books
}

/// So many records, each deposit a fen more available, so that a page that began with another book or number would show; by themselves, and
/// with one of no kind behind them, which ends the run though a record follows.
fn paged(count: usize) -> [Telling; 2] {
    let mut rows = opened();
    let cash = rows[2].2;
    let deposits = (1..).map(|fen| (deposit(1), 0, cash + fen));
    rows.extend(deposits.take(count - 3));
    let unread = [&[8, 0, 0, 0, 1, 0, 0, 0], &record(&deposit(1))[..]].concat();
    let last = [(2, rows[count - 1].2)];
    [
        told(&format!("{count} records"), &rows),
        told_with(
            &format!("{count} records and no kind"),
            &rows,
            &unread,
            &last,
        ),
    ]
}

fn record(entry: &Entry) -> Vec<u8> {
    written(slice::from_ref(entry)).expect("no day end")
}

/// So many bytes of one entry, which is out of its place before the opening.
fn early(entry: Entry, size: usize) -> Vec<Row> {
    let count = size / record(&entry).len();
    vec![(entry, 5, 0); count]
}

/// 48 bytes of set-up, and entries of one kind up to the 65,536th byte.
fn opened_to_the_end(name: &str, row: &Row, more: &[u8]) -> Telling {
    let mut rows = opened();
    let count = (MOST_READ - 48) / record(&row.0).len();
    rows.resize(3 + count, row.clone());
    told_with(name, &rows, more, &[])
}

/// An entry of which so many bytes, an even number, are read. Locks of 10 bytes make up for what cancels do not fill.
fn cut_within(name: &str, entry: &Entry, read: usize) -> Telling {
    let locks = (0..4).find(|locks| (MOST_READ - read - 10 * locks) % 8 == 0);
    let locks = locks.expect("up to three locks make any even number of bytes");
    let mut rows = vec![(lock(0, 1), 5, 0); locks];
    rows.extend(early(cancel(1), MOST_READ - read - 10 * locks));
    let name = format!("{name} of which {read} bytes are read");
    told_with(&name, &rows, &record(entry), &[(1, 0)])
}

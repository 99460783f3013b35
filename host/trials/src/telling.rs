//! Telling books, each with the lines that the documents or plain arithmetic give for it. None of the lines comes out of a run.

mod endings;
mod full;
mod money;
mod payouts;
mod set_up;
mod sizes;

use plain::entry::Entry;
use plain::program::lines;
use plain::record::written;
use plain::terms::{Class, Contract, Right, Underlying};
use plain::worked;

pub use full::full;

pub struct Telling {
    pub name: String,
    pub bytes: Vec<u8>,
    pub lines: String,
}

pub fn books() -> Vec<Telling> {
    let mut books = vec![the_worked_book()];
    books.extend(cuts_of_the_worked_book());
    books.extend(sizes::books());
    books.extend(set_up::books());
    books.extend(money::books());
    books.extend(payouts::books());
    books.extend(endings::books());
    books.push(full());
    books
}

/// A record, its verdict, and what is available after it.
type Row = (Entry, u8, i64);

fn told(name: &str, rows: &[Row]) -> Telling {
    told_with(name, rows, &[], &[])
}

/// After the rows come bytes that are no whole records, with the answers that are left to give.
fn told_with(name: &str, rows: &[Row], behind: &[u8], answers: &[(u8, i64)]) -> Telling {
    let entries: Vec<Entry> = rows.iter().map(|(entry, ..)| entry.clone()).collect();
    let mut bytes = written(&entries).expect("day ends here are in range");
    bytes.extend(behind);
    let given = rows
        .iter()
        .map(|&(_, verdict, available)| (verdict, available));
    let answers: Vec<(u8, i64)> = given.chain(answers.iter().copied()).collect();
    Telling {
        name: name.to_string(),
        bytes,
        lines: lines(&answers),
    }
}

fn the_worked_book() -> Telling {
    Telling {
        name: "the worked book".to_string(),
        bytes: written(&worked::entries()).expect("its day end is in range"),
        lines: worked::LINES.to_string(),
    }
}

/// The worked book's records, each with what its line says.
fn worked_rows() -> Vec<Row> {
    let row = |(entry, line): (Entry, &str)| {
        let mut words = line.split(' ').skip(1);
        let mut word = || words.next().expect("a line has three numbers");
        let verdict = word().parse().expect("a verdict");
        (entry, verdict, word().parse().expect("a sum"))
    };
    let entries = worked::entries().into_iter();
    entries.zip(worked::LINES.lines()).map(row).collect()
}

/// The worked book up to its opening with 600,000.
fn opened() -> Vec<Row> {
    worked_rows().into_iter().take(3).collect()
}

/// At every byte, from none to all: a record that has lost its end is 1, at the sum before it.
fn cuts_of_the_worked_book() -> impl Iterator<Item = Telling> {
    let rows = worked_rows();
    let bytes = the_worked_book().bytes;
    let ends: Vec<usize> = (1..=rows.len())
        .map(|count| told("", &rows[..count]).bytes.len())
        .collect();
    (0..=bytes.len()).map(move |size| {
        let whole = ends.iter().filter(|&&end| end <= size).count();
        let start = if whole == 0 { 0 } else { ends[whole - 1] };
        let available = rows[..whole].last().map_or(0, |row| row.2);
        let cut = usize::from(start < size);
        let answers = &[(1, available)][..cut];
        let name = format!("the worked book's first {size} bytes");
        told_with(&name, &rows[..whole], &bytes[start..size], answers)
    })
}

fn fund(close: u32) -> Entry {
    Entry::Underlying(Underlying::new(Class::Fund, close, [20, 50, 100]))
}

fn stock(close: u32) -> Entry {
    Entry::Underlying(Underlying::new(Class::Stock, close, [20, 50, 100]))
}

/// Strike, unit, settlement.
fn call(underlying: u16, figures: [u32; 3]) -> Entry {
    Entry::Contract(Contract::new(underlying, Right::Call, figures))
}

fn put(underlying: u16, figures: [u32; 3]) -> Entry {
    Entry::Contract(Contract::new(underlying, Right::Put, figures))
}

/// Case a: its margin on a fund at 25,000 is 250,000.
fn call_a(underlying: u16) -> Entry {
    call(underlying, [26_000, 10_000, 500])
}

fn opening(cash: u64) -> Entry {
    Entry::Opening { cash }
}

fn deposit(amount: u64) -> Entry {
    Entry::Deposit { amount }
}

fn withdraw(amount: u64) -> Entry {
    Entry::Withdraw { amount }
}

fn lock(underlying: u16, units: u32) -> Entry {
    Entry::Lock { underlying, units }
}

fn cancel(number: u32) -> Entry {
    Entry::Cancel { number }
}

fn day_end(settlements: &[u32], closes: &[u32]) -> Entry {
    Entry::DayEnd {
        settlements: settlements.to_vec(),
        closes: closes.to_vec(),
    }
}

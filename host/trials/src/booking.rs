//! Random books: set-up right and wrong, entries near the edges of the account that it opens, and damage.

use crate::chance::Chance;
use crate::damaging::damage;
use crate::edges;
use crate::making::Maker;
use crate::{tables, Words};
use plain::account::Desk;
use plain::book::Book;
use plain::entry::Entry;
use plain::program::MOST_READ;
use plain::record::{fields, written};
use std::slice;

/// The same seed and number make the same book.
pub fn book(seed: u64, number: u64) -> Vec<u8> {
    let mut booking = Booking::new(Chance::new(seed, number));
    booking.set_up();
    booking.enter();
    let Booking {
        mut chance,
        mut records,
        ..
    } = booking;
    for _ in 0..chance.pick(&[0, 0, 0, 0, 1, 1, 1, 2]) {
        damage(&mut chance, &mut records);
    }
    records.concat()
}

/// A book as it is made, and what its records lead to.
pub(crate) struct Booking {
    pub(crate) chance: Chance,
    maker: Maker,
    /// An account that entries before the opening are made for.
    elsewhere: Desk,
    pub(crate) book: Book,
    records: Vec<Vec<u8>>,
}

impl Booking {
    fn new(mut chance: Chance) -> Booking {
        let tables = tables::small();
        Booking {
            maker: Maker::on(&tables, chance.fork()),
            elsewhere: Desk::open(&tables, 1_000_000).expect("tables and cash are in range"),
            book: Book::new(),
            records: Vec::new(),
            chance,
        }
    }

    /// A refused record stands in the book all the same.
    pub(crate) fn put(&mut self, entry: &Entry) {
        let _ = self.book.step(entry);
        self.records.push(record(entry));
    }

    /// Entries up to a size, now and then more than can be read.
    fn enter(&mut self) {
        if let Book::Open(desk) = &self.book {
            self.maker = Maker::on(&desk.tables, self.chance.fork());
        }
        let most = MOST_READ as i64;
        let size = match self.chance.weighted(&[50, 40, 10]) {
            0 => self.chance.between(0, 1_000),
            1 => self.chance.between(1_000, 10_000),
            _ => self.chance.between(most - 100, most + 300),
        };
        while self.records.iter().map(Vec::len).sum::<usize>() < size as usize {
            let entry = self.entry();
            self.put(&entry);
        }
    }

    pub(crate) fn entry(&mut self) -> Entry {
        let desk = match &self.book {
            Book::Open(desk) => desk,
            Book::SettingUp(_) => &self.elsewhere,
        };
        let line = self.maker.line(desk);
        entry_of(&line).expect("every line that is made asks for an entry")
    }
}

fn entry_of(line: &str) -> Option<Entry> {
    let words = Words::of(line);
    match words.first() {
        "open" => Some(Entry::Opening {
            cash: words.number(1)?,
        }),
        _ => edges::entry(&words),
    }
}

/// The entry's record; of a day end that can't be written a head of four fields, as of the shortest one.
fn record(entry: &Entry) -> Vec<u8> {
    written(slice::from_ref(entry)).unwrap_or_else(|_| {
        let (kind, fields) = fields(entry);
        let counts = fields[..2].iter().map(|count| count.value as u16);
        let head = [16, kind].into_iter().chain(counts);
        head.flat_map(u16::to_le_bytes).collect()
    })
}

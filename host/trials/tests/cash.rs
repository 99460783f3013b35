//! No fill brings cash below zero. `plain` asserts it at every fill; over a million entries of random books it never fires, though many of
//! the fills leave no more cash than is held, or none at all.

use plain::account::Desk;
use plain::book::Book;
use plain::entry::Entry;
use plain::record::read;
use trials::booking::book;

const ENTRIES: u64 = 1_000_000;

/// Entries on an open account, and the accepted fills of buys among them.
#[derive(Debug, Default)]
struct Met {
    entries: u64,
    buys: u64,
    /// All cash is held afterwards, by orders or by a payout that waits, or there is none left.
    held: u64,
    beside_a_payout: u64,
    spent: u64,
}

impl Met {
    fn fill(&mut self, desk: &Desk) {
        let held = desk.holds() == desk.account.cash;
        self.buys += 1;
        self.held += u64::from(held);
        self.beside_a_payout += u64::from(held && desk.account.waiting.is_some());
        self.spent += u64::from(desk.account.cash == 0);
    }

    /// Every record of a book that can be read.
    fn run(&mut self, bytes: &[u8]) {
        let (mut book, mut place) = (Book::new(), 0);
        while let Ok((entry, length)) = read(bytes, place) {
            place += length;
            let buys = fills_a_buy(&book, &entry);
            self.entries += u64::from(matches!(book, Book::Open(_)));
            let accepted = book.step(&entry).is_ok();
            if let (Book::Open(desk), true) = (&book, accepted && buys) {
                self.fill(desk);
            }
        }
    }
}

fn fills_a_buy(book: &Book, entry: &Entry) -> bool {
    match (book, entry) {
        (Book::Open(desk), Entry::Fill(fill)) => {
            let order = desk.account.find(fill.number);
            order.map_or(false, |(_, order)| order.kind.buys())
        }
        _ => false,
    }
}

#[test]
fn a_million_entries_bring_no_cash_below_zero() {
    let mut met = Met::default();
    for number in 1.. {
        met.run(&book(112, number));
        if ENTRIES <= met.entries {
            break;
        }
    }
    println!("{met:?}");
    assert!(10_000 < met.buys);
    for near in [met.held, met.beside_a_payout, met.spent] {
        assert!(50 < near, "{met:?}");
    }
}

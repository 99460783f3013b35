//! The worked book of "Figures to meet", run whole, cut and place by place; and a day end that leaves less than nothing.

use plain::account::Desk;
use plain::book::{run_book, Book};
use plain::entry::Entry;
use plain::program::{printed, MOST_READ};
use plain::record::{read, write, written};
use plain::terms::{Class, Contract, Kind, Right, Underlying};
use plain::worked;
use std::slice;

fn worked_book() -> Vec<u8> {
    written(&worked::entries()).unwrap()
}

#[test]
fn figures_to_meet() {
    assert_eq!(printed(&worked_book()), worked::LINES);
    assert_eq!(printed(&[]), "");
}

#[test]
fn written_records_are_read_again() {
    for entry in worked::entries() {
        let record = written(slice::from_ref(&entry)).unwrap();
        assert_eq!(write(&entry, &mut [0; 300]), Ok(record.len()));
        assert_eq!(read(&record, 0), Ok((entry, record.len())));
    }
}

#[test]
fn a_cut_record_ends_the_reading() {
    let bytes = worked_book();
    let cut = run_book(&bytes[..bytes.len() - 1], 10);
    assert_eq!(cut.answers.len(), 10);
    assert_eq!(cut.answers[9], (1, 594_000));
    // The place of the record that could not be read, and the book as it was before it.
    let before = run_book(&bytes, 9);
    assert_eq!((cut.place, cut.book), (before.place, before.book));
}

#[test]
fn bytes_past_the_most_are_not_read() {
    for (entry, most) in [(Entry::Cancel { number: 1 }, 8_192), (Entry::Pay, 16_384)] {
        let record = written(slice::from_ref(&entry)).unwrap();
        let records = record.repeat(most + 1);
        let last = format!("{most} 5 0\n");
        assert!(printed(&records).ends_with(&last));
        assert!(printed(&records[..MOST_READ]).ends_with(&last));
        let cut = format!("{most} 1 0\n");
        assert!(printed(&records[..MOST_READ - 1]).ends_with(&cut));
    }
}

/// As many places as there are records, fewer, and more.
#[test]
fn places() {
    let entries = worked::entries();
    let bytes = worked_book();
    let whole = run_book(&bytes, entries.len());
    assert_eq!(whole.place, bytes.len());
    let mut book = Book::new();
    for (places, entry) in entries.iter().enumerate() {
        let run = run_book(&bytes, places);
        assert_eq!(run.answers, whole.answers[..places]);
        assert_eq!(run.place, written(&entries[..places]).unwrap().len());
        assert_eq!(run.book, book);
        let _ = book.step(entry);
    }
    assert_eq!(whole.book, book);
    assert_eq!(run_book(&bytes, usize::MAX), whole);
}

fn fund(close: u32) -> Entry {
    Entry::Underlying(Underlying::new(Class::Fund, close, [20, 50, 100]))
}

fn call(figures: [u32; 3]) -> Entry {
    Entry::Contract(Contract::new(0, Right::Call, figures))
}

/// Contract 1 is so far out of the money at a close of 1 that its margin rounds to nothing.
fn opened(cash: u64) -> Book {
    let mut book = Book::new();
    let setup = [
        fund(25_000),
        call([26_000, 10_000, 500]),
        call([10_000_000, 100, 0]),
        Entry::Opening { cash },
    ];
    for entry in setup {
        assert_eq!(book.step(&entry), Ok(()));
    }
    book
}

fn desk(book: &Book) -> &Desk {
    match book {
        Book::Open(desk) => desk,
        Book::SettingUp(_) => panic!("not open"),
    }
}

#[test]
fn below_zero_after_a_day_end() {
    let mut book = opened(600_000);
    for entry in [
        Entry::order(1, 0, Kind::SellOpen, 2, 500),
        Entry::fill(1, 2, 500),
        Entry::DayEnd {
            settlements: vec![3_501, 0],
            closes: vec![1],
        },
    ] {
        assert_eq!(book.step(&entry), Ok(()));
    }
    // 700,000 in cash, and twice 10,000 x 350,107 / 10,000 as margin
    assert_eq!(book.available(), 700_000 - 2 * 350_107);
    let free = Entry::order(2, 1, Kind::SellOpen, 1, 1);
    let before = book.clone();
    assert_eq!(book.step(&free), Err(14));
    assert_eq!(book, before);
    assert_eq!(book.step(&Entry::Withdraw { amount: 1 }), Err(14));
    assert_eq!(book.step(&Entry::Deposit { amount: 213 }), Ok(()));
    assert_eq!((book.step(&free), book.available()), (Err(14), -1));
    assert_eq!(book.step(&Entry::Deposit { amount: 1 }), Ok(()));
    assert_eq!((book.step(&free), book.available()), (Ok(()), 0));
    assert_eq!(desk(&book).holds(), 0);
}

#[test]
fn a_hold_equal_to_available_passes() {
    for (cash, verdict) in [(500_000, Ok(())), (499_999, Err(14))] {
        let mut book = opened(cash);
        let step = book.step(&Entry::order(1, 0, Kind::SellOpen, 2, 500));
        assert_eq!(step, verdict);
    }
}

/// What is refused takes no number and moves the order of records on by nothing.
#[test]
fn set_up_goes_on_behind_a_refusal() {
    let mut book = Book::new();
    let opening = Entry::Opening { cash: 1 };
    let contract = call([26_000, 10_000, 500]);
    for (entry, verdict) in [
        (&contract, Err(4)),
        (&opening, Err(5)),
        (&fund(0), Err(4)),
        (&fund(25_000), Ok(())),
        (&opening, Err(5)),
        (&call([26_000, 10_050, 500]), Err(4)),
        (&fund(1), Ok(())),
        (&contract, Ok(())),
        (&fund(1), Err(5)),
        (&Entry::Deposit { amount: 1 }, Err(5)),
        (
            &Entry::Opening {
                cash: 1_000_000_000_000_001,
            },
            Err(4),
        ),
        (&contract, Ok(())),
        (&opening, Ok(())),
        (&contract, Err(5)),
        (&opening, Err(5)),
    ] {
        assert_eq!(book.step(entry), verdict, "{entry:?}");
    }
    let tables = &desk(&book).tables;
    assert_eq!((tables.underlyings.len(), tables.contracts.len()), (2, 2));
}

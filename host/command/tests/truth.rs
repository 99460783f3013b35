//! The words of a refusal say the truth: every figure in them is what the second working has before that record.

mod common;
mod truth {
    pub mod judged;
    pub mod outside;
    pub mod unread;
}

use common::lines::{Line, Why};
use common::{random_books, ravundesk, told_books, Tried};
use plain::book::Book;
use plain::entry::Entry;
use plain::record::read;
use ravundesk::refusals::meaning;
use std::collections::BTreeMap;
use std::thread;
use trials::chance::Chance;
use truth::{judged, outside, unread};

/// How often each form of words was met, by the refusal's number.
#[derive(Default)]
struct Met(BTreeMap<(u8, &'static str), usize>);

impl Met {
    fn meet(&mut self, refusal: u8, form: &'static str) {
        *self.0.entry((refusal, form)).or_default() += 1;
    }

    fn with(mut self, other: Met) -> Met {
        for (form, count) in other.0 {
            *self.0.entry(form).or_default() += count;
        }
        self
    }
}

fn walked(book: &common::Book) -> Met {
    let said = ravundesk(&["run", "--records"], &book.bytes);
    let mut met = Met::default();
    let mut second = Book::new();
    let mut place = 0;
    for text in said.text().lines() {
        let _tried = Tried(&book.name, text);
        let line = Line::of(text);
        if let Some(why) = &line.why {
            assert_eq!(why.meaning, meaning(why.refusal));
            assert!(!why.figures.trim().is_empty(), "no figure is told");
            assert_eq!(why.stopped, why.refusal <= 3);
        }
        match read(&book.bytes, place) {
            Ok((entry, length)) => {
                if let Some(why) = &line.why {
                    hold(&second, &entry, why, &mut met);
                }
                let verdict = second.step(&entry).err().unwrap_or(0);
                assert_eq!(
                    (line.refusal(), line.available),
                    (verdict, second.available())
                );
                place += length;
            }
            Err(refusal) => {
                let why = line.why.expect("the second working can't read this");
                assert_eq!(why.refusal, refusal);
                unread::hold_bytes(&book.bytes, place, line.record);
                let form = unread::hold(&book.bytes[place..], refusal, why.figures);
                met.meet(refusal, form);
                place = book.bytes.len();
            }
        }
    }
    assert_eq!(place, book.bytes.len(), "{}: lines are missing", book.name);
    met
}

fn hold(second: &Book, entry: &Entry, why: &Why, met: &mut Met) {
    match (why.refusal, second) {
        (4, _) => {
            for form in outside::hold(second.tables(), entry, why.figures) {
                met.meet(4, form);
            }
        }
        (5, _) => met.meet(5, unread::hold_place(second, entry, why.figures)),
        (refusal, Book::Open(desk)) => {
            met.meet(refusal, judged::hold(desk, entry, refusal, why.figures));
        }
        _ => panic!("{} before the opening", why.refusal),
    }
}

/// Heads whose lengths, kinds, counts and codes are near the edges, and as many bytes behind them as it takes, or a few fewer.
fn misshapen(number: u64) -> common::Book {
    let mut chance = Chance::new(223, number);
    let any_kind = chance.pick(&[1, 3, 6, 7, 9, 18, 11, 256]);
    let kind = chance.pick(&[8, 8, 8, 8, 5, 16, 17, any_kind]);
    let n = chance.pick(&[0, 1, 1, 8, 64, 65]);
    let m = chance.pick(&[0, 1, 1, 8, 9]);
    let own = match kind {
        1 | 18 => 12,
        3 => 10,
        5 | 17 => 20,
        6 | 16 => 16,
        8 => 8 + 4 * n + 4 * m,
        9 => 4,
        _ => 8,
    };
    let length = own + chance.pick(&[0, 0, 4, 1]);
    let code = chance.pick(&[0, 1, 3, 7, 256, u16::MAX]);
    let counts = if kind == 8 { [n, m] } else { [code, code] };
    let fields = [length, kind, counts[0], counts[1], code, code];
    let mut bytes: Vec<u8> = fields.into_iter().flat_map(u16::to_le_bytes).collect();
    let size = chance.pick(&[own, own, own, own + 5, own - 1, 7, 3]);
    bytes.resize(size.into(), 1);
    common::Book::new(format!("misshapen record {number}"), bytes)
}

/// All forms of words there are, but for those of the refusals that have one.
const FORMS: &[(u8, &str)] = &[
    (1, "in its head"),
    (1, "in its counts"),
    (1, "in its fields"),
    (3, "length"),
    (3, "length of a day end"),
    (3, "length unlike its counts"),
    (3, "counts"),
    (3, "code of an order's kind"),
    (3, "code of a class"),
    (3, "code of a right"),
    (4, "outside its range"),
    (4, "a figure outside its range"),
    (4, "not in the tables"),
    (4, "not in tables that have none"),
    (4, "not the tables' count"),
    (4, "no multiple of 100"),
    (4, "a 9th underlying"),
    (4, "a 65th contract"),
    (4, "covered kind on a put"),
    (4, "more than are told"),
    (5, "the book is open"),
    (5, "the book is not open"),
    (7, "none rests"),
    (7, "few rest"),
    (7, "many rest"),
    (13, "order"),
    (13, "unlock"),
    (14, "premium"),
    (14, "margin"),
    (14, "withdraw"),
    (15, "deposit"),
    (15, "lock"),
    (15, "fill"),
    (16, "above the remainder"),
    (16, "above a buy's price"),
    (16, "below a sell's price"),
];

#[test]
fn every_figure_of_every_refusal() {
    let books = told_books().into_iter().chain(random_books(211, 400));
    let books: Vec<_> = books.chain((1..=800).map(misshapen)).collect();
    let every_other = |first| {
        let books = books.iter().skip(first).step_by(2);
        books.map(walked).fold(Met::default(), Met::with)
    };
    let met = thread::scope(|scope| {
        let odd = scope.spawn(|| every_other(1));
        let even = every_other(0);
        even.with(odd.join().expect("those books are right too"))
    });
    for ((refusal, form), count) in &met.0 {
        println!("{refusal} {form}: {count}");
    }
    for refusal in (1..=16).chain([19, 20]) {
        let forms = met.0.iter().filter(|((number, _), _)| *number == refusal);
        let count: usize = forms.map(|(_, count)| count).sum();
        assert!(48 <= count, "{refusal} was met {count} times");
    }
    for form in FORMS {
        let count = met.0.get(form).unwrap_or(&0);
        assert!(24 <= *count, "{form:?} was met {count} times");
    }
}

//! The versions, each behind the same function.

use std::mem::size_of;

/// Places for answers: a refusal number or 0, and the available sum, for each record.
#[derive(Clone, Debug, PartialEq, Eq)]
pub struct Answers {
    pub numbers: Vec<u8>,
    pub sums: Vec<i64>,
}

impl Answers {
    pub fn places(count: usize) -> Answers {
        Answers {
            numbers: vec![0; count],
            sums: vec![0; count],
        }
    }

    pub fn truncate(&mut self, count: usize) {
        self.numbers.truncate(count);
        self.sums.truncate(count);
    }
}

/// A book that goes on with more bytes; a new one waits for its first record.
pub trait Book: Clone + 'static {
    fn new() -> Self;

    /// Answers record after record while there are places and no record is unreadable; how many were answered.
    fn run_on(&mut self, bytes: &[u8], answers: &mut Answers) -> usize;
}

impl Book for native::set_up::Book {
    fn new() -> Self {
        native::set_up::Book::new()
    }

    fn run_on(&mut self, bytes: &[u8], answers: &mut Answers) -> usize {
        let Answers { numbers, sums } = answers;
        let run = native::desk::run_on(*self, bytes, 0, numbers, sums);
        *self = run.book;
        run.answered
    }
}

impl Book for plain::book::Book {
    fn new() -> Self {
        plain::book::Book::new()
    }

    fn run_on(&mut self, bytes: &[u8], answers: &mut Answers) -> usize {
        let mut place = 0;
        let places = answers.numbers.iter_mut().zip(&mut answers.sums);
        for (answered, (number, sum)) in places.enumerate() {
            if bytes.len() <= place {
                return answered;
            }
            let read = plain::record::read(bytes, place);
            let verdict = match &read {
                Ok((entry, _)) => self.step(entry),
                Err(refusal) => Err(*refusal),
            };
            *number = verdict.err().unwrap_or(0);
            *sum = self.available();
            match read {
                Ok((_, length)) => place += length,
                Err(_) => return answered + 1,
            }
        }
        answers.numbers.len()
    }
}

impl Book for in_place::Book {
    fn new() -> Self {
        in_place::Book::default()
    }

    fn run_on(&mut self, bytes: &[u8], answers: &mut Answers) -> usize {
        let Answers { numbers, sums } = answers;
        in_place::Book::run_on(self, bytes, numbers, sums).answered
    }
}

/// A book in hand that stays as it is: each run starts from it again.
pub trait InHand {
    fn answer(&self, bytes: &[u8], answers: &mut Answers) -> usize;
}

impl<B: Book> InHand for B {
    fn answer(&self, bytes: &[u8], answers: &mut Answers) -> usize {
        self.clone().run_on(bytes, answers)
    }
}

pub struct Version {
    pub name: &'static str,
    /// How it works, in a few words.
    pub manner: &'static str,
    /// Its colour in the picture.
    pub colour: &'static str,
    /// The book that these bytes lead to.
    pub after: fn(&[u8]) -> Box<dyn InHand>,
}

fn after<B: Book>(before: &[u8]) -> Box<dyn InHand> {
    let mut book = B::new();
    // A record takes a byte at least.
    book.run_on(before, &mut Answers::places(before.len()));
    Box::new(book)
}

/// The one table of versions. The others' times are told as multiples of the last one's.
pub const VERSIONS: &[Version] = &[
    #[cfg(archive)]
    crate::archive::VERSION,
    Version {
        name: "native",
        manner: "the crates' proved source, by rustc",
        colour: "#1f6fb4",
        after: after::<native::set_up::Book>,
    },
    Version {
        name: "plain",
        manner: "ordinary Rust, every sum made anew",
        colour: "#d9772b",
        after: after::<plain::book::Book>,
    },
    Version {
        name: "in_place",
        manner: "ordinary Rust in place, every sum kept",
        colour: "#2a8a57",
        after: after::<in_place::Book>,
    },
];

/// The versions that go on with a book in hand: all but the archive, which is the first where it is linked.
pub fn in_hand() -> &'static [Version] {
    &VERSIONS[usize::from(cfg!(archive))..]
}

/// How many bytes the values are that the versions pass on or change where they stand.
pub fn sizes() -> [(&'static str, usize); 4] {
    [
        ("native `Account`", size_of::<native::account::Account>()),
        ("native `Tables`", size_of::<native::account::Tables>()),
        ("native `Book`", size_of::<native::set_up::Book>()),
        ("in_place `Book`", size_of::<in_place::Book>()),
    ]
}

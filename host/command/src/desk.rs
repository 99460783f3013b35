//! A book that is answered record by record, by the proved source.

use crate::feed::Piece;
use native::desk::run_on;
use native::set_up::Book;

pub struct Desk {
    pub book: Book,
    /// How many records were answered.
    pub records: u64,
}

/// What a record is answered with: 0 or a refusal's number, and what is available after it, in fen.
pub struct Answer {
    pub refusal: u8,
    pub available: i64,
}

impl Desk {
    pub fn new() -> Desk {
        Desk {
            book: Book::new(),
            records: 0,
        }
    }

    pub fn answer(&mut self, piece: &Piece) -> Answer {
        let (mut refusals, mut sums) = ([0], [0]);
        let run = run_on(self.book, &piece.bytes, 0, &mut refusals, &mut sums);
        self.book = run.book;
        self.records += 1;
        Answer {
            refusal: refusals[0],
            available: sums[0],
        }
    }
}

impl Default for Desk {
    fn default() -> Desk {
        Desk::new()
    }
}

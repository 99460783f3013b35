//! A book from its bytes: what each record is, and at which stage it may come.

use crate::bytes::{eight, four, two, whole, Figures};
use crate::desk::Desk;
use crate::fills::Fill;
use crate::limits::{require, Refusal, Verdict};
use crate::orders::Order;

/// What a book waits for.
#[derive(Clone, Copy, Debug, PartialEq, Eq)]
pub enum Stage {
    Underlyings,
    Contracts,
    Entries,
}

#[derive(Clone, Copy, Debug)]
pub struct Book {
    pub(crate) stage: Stage,
    pub(crate) desk: Desk,
}

/// How many records were answered, where the next one is, and whether the one there can't be read.
#[derive(Clone, Copy, Debug, PartialEq, Eq)]
pub struct Run {
    pub answered: usize,
    pub place: usize,
    pub stopped: bool,
}

impl Default for Book {
    fn default() -> Book {
        Book {
            stage: Stage::Underlyings,
            desk: Desk::new(),
        }
    }
}

impl Book {
    /// The book goes on with these bytes, as long as both slices have a place for an answer.
    pub fn run_on(&mut self, bytes: &[u8], numbers: &mut [u8], sums: &mut [i64]) -> Run {
        let mut run = Run {
            answered: 0,
            place: 0,
            stopped: false,
        };
        for (number, sum) in numbers.iter_mut().zip(sums) {
            let rest = &bytes[run.place..];
            if rest.is_empty() {
                break;
            }
            let verdict = self.answer(rest);
            *number = verdict.err().map_or(0, |refusal| refusal as u8);
            *sum = self.desk.available;
            run.answered += 1;
            // 1 to 3 end the reading of a book.
            if (1..=3).contains(number) {
                run.stopped = true;
                break;
            }
            run.place += usize::from(u16::from_le_bytes([rest[0], rest[1]]));
        }
        run
    }

    #[inline(always)]
    fn answer(&mut self, rest: &[u8]) -> Verdict {
        let head = whole::<4>(rest, 4)?;
        let length = usize::from(two(head, 0));
        match two(head, 2) {
            5 => {
                let order = Order::read(whole(rest, length)?)?;
                self.open()?.order(&order)
            }
            6 => {
                let fill = Fill::read(whole(rest, length)?);
                self.open()?.fill(&fill)
            }
            7 => {
                let record = whole::<8>(rest, length)?;
                self.open()?.cancel(four(record, 4))
            }
            8 => {
                let figures = Figures::read(rest, length)?;
                self.open()?.day_end(&figures)
            }
            kind => self.answer_rarer(kind, rest, length),
        }
    }

    fn answer_rarer(&mut self, kind: u16, rest: &[u8], length: usize) -> Verdict {
        match kind {
            1 | 2 | 18 => {
                let amount = eight(whole::<12>(rest, length)?, 4);
                match kind {
                    1 => self.open()?.deposit(amount),
                    2 => self.open()?.withdraw(amount),
                    _ => self.opening(amount),
                }
            }
            3 | 4 => {
                let record = whole::<10>(rest, length)?;
                let (underlying, units) = (two(record, 4), four(record, 6));
                let desk = self.open()?;
                if kind == 3 {
                    desk.lock(underlying, units)
                } else {
                    desk.unlock(underlying, units)
                }
            }
            9 | 10 => {
                whole::<4>(rest, length)?;
                let desk = self.open()?;
                if kind == 9 {
                    desk.pay()
                } else {
                    desk.drop()
                }
            }
            16 => self.underlying(whole(rest, length)?),
            17 => self.contract(whole(rest, length)?),
            _ => Err(Refusal::UnknownKind),
        }
    }

    #[inline(always)]
    fn open(&mut self) -> Result<&mut Desk, Refusal> {
        require(self.stage == Stage::Entries, Refusal::OutOfPlace)?;
        Ok(&mut self.desk)
    }
}

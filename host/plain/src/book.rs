//! A book: underlyings, then contracts, then one opening, then entries; and a run over the bytes of a book or of a list.

use crate::account::Desk;
use crate::entry::Entry;
use crate::record::read;
use crate::require;
use crate::terms::{Contract, Tables, Underlying};

#[derive(Clone, Debug, PartialEq, Eq)]
pub enum Book {
    SettingUp(Tables),
    Open(Box<Desk>),
}

impl Book {
    pub fn new() -> Book {
        Book::SettingUp(Tables::default())
    }

    pub fn step(&mut self, entry: &Entry) -> Result<(), u8> {
        match self {
            Book::Open(desk) => desk.step(entry),
            Book::SettingUp(tables) => match entry {
                Entry::Underlying(row) => add_underlying(tables, row),
                Entry::Contract(row) => add_contract(tables, row),
                Entry::Opening { cash } => {
                    *self = Book::Open(Box::new(Desk::open(tables, *cash)?));
                    Ok(())
                }
                _ => Err(5),
            },
        }
    }

    pub fn tables(&self) -> &Tables {
        match self {
            Book::SettingUp(tables) => tables,
            Book::Open(desk) => &desk.tables,
        }
    }

    /// 0 before the opening.
    pub fn available(&self) -> i64 {
        match self {
            Book::SettingUp(_) => 0,
            Book::Open(desk) => desk.available(),
        }
    }
}

impl Default for Book {
    fn default() -> Book {
        Book::new()
    }
}

/// An accepted contract closes the list of underlyings.
fn add_underlying(tables: &mut Tables, row: &Underlying) -> Result<(), u8> {
    require(tables.contracts.is_empty(), 5)?;
    let mut longer = tables.clone();
    longer.underlyings.push(row.clone());
    replace(tables, longer)
}

/// With no underlying yet there is none that a contract could be on, which is 4.
fn add_contract(tables: &mut Tables, row: &Contract) -> Result<(), u8> {
    let mut longer = tables.clone();
    longer.contracts.push(row.clone());
    replace(tables, longer)
}

/// A row that is out of range, or one too many, takes no number.
fn replace(tables: &mut Tables, longer: Tables) -> Result<(), u8> {
    require(longer.allowed(), 4)?;
    *tables = longer;
    Ok(())
}

/// What a run leads to. For each record that was answered there is the refusal number or 0, and the available sum; `place` is that of
/// the next record, or of the one that could not be read.
#[derive(Clone, Debug, PartialEq, Eq)]
pub struct Run {
    pub answers: Vec<(u8, i64)>,
    pub place: usize,
    pub book: Book,
}

/// A book from its bytes. No more records are answered than there are places.
pub fn run_book(bytes: &[u8], places: usize) -> Run {
    run(Book::new(), bytes, places)
}

/// A list of entries on given tables and opening cash; where these are refused, no record is answered.
pub fn run_list(tables: &Tables, cash: u64, bytes: &[u8], places: usize) -> Result<Run, u8> {
    let desk = Desk::open(tables, cash)?;
    Ok(run(Book::Open(Box::new(desk)), bytes, places))
}

/// Stops after 1, 2 or 3, when no byte is left, or when no place is.
fn run(mut book: Book, bytes: &[u8], places: usize) -> Run {
    let mut answers = Vec::new();
    let mut place = 0;
    while place < bytes.len() && answers.len() < places {
        match read(bytes, place) {
            Ok((entry, length)) => {
                let verdict = book.step(&entry).err().unwrap_or(0);
                answers.push((verdict, book.available()));
                place += length;
            }
            Err(refusal) => {
                answers.push((refusal, book.available()));
                break;
            }
        }
    }
    Run {
        answers,
        place,
        book,
    }
}

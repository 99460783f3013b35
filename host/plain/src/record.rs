//! Records: an entry read at a place of lent bytes, and an entry written into a lent buffer.

use crate::entry::{Entry, Fill, Order};
use crate::require;
use crate::terms::{within, Class, Contract, Kind, Right, Underlying, CONTRACTS, UNDERLYINGS};

/// What stands at the place: an entry with its length, or 1, 2 or 3 in the order of "Reading".
pub fn read(bytes: &[u8], place: usize) -> Result<(Entry, usize), u8> {
    let record = bytes.get(place..).unwrap_or(&[]);
    require(4 <= record.len(), 1)?;
    let mut head = Fields(record);
    let length = usize::from(head.two());
    let kind = head.two();
    length_fits(kind, length)?;
    if kind == 8 {
        require(8 <= record.len(), 1)?;
        let (n, m) = (head.two(), head.two());
        require(counts_allowed(n.into(), m.into()), 3)?;
        require(length == day_end_length(n.into(), m.into()), 3)?;
    }
    require(length <= record.len(), 1)?;
    let entry = entry(kind, Fields(&record[4..length])).ok_or(3)?;
    Ok((entry, length))
}

fn length_fits(kind: u16, length: usize) -> Result<(), u8> {
    let fits = match kind {
        1 | 2 | 18 => length == 12,
        3 | 4 => length == 10,
        5 | 17 => length == 20,
        6 | 16 => length == 16,
        7 => length == 8,
        8 => length % 4 == 0 && (day_end_length(1, 1)..=day_end_length(64, 8)).contains(&length),
        9 | 10 => length == 4,
        _ => return Err(2),
    };
    require(fits, 3)
}

const fn day_end_length(n: usize, m: usize) -> usize {
    8 + 4 * n + 4 * m
}

fn counts_allowed(n: usize, m: usize) -> bool {
    within(n as u64, CONTRACTS) && within(m as u64, UNDERLYINGS)
}

/// Whole fields of a record, taken from the front.
struct Fields<'a>(&'a [u8]);

impl Fields<'_> {
    fn take(&mut self, width: usize) -> u64 {
        let (field, rest) = self.0.split_at(width);
        self.0 = rest;
        field
            .iter()
            .rev()
            .fold(0, |value, &byte| value << 8 | u64::from(byte))
    }

    fn two(&mut self) -> u16 {
        self.take(2) as u16
    }

    fn four(&mut self) -> u32 {
        self.take(4) as u32
    }

    fn eight(&mut self) -> u64 {
        self.take(8)
    }

    fn fours(&mut self, count: u16) -> Vec<u32> {
        (0..count).map(|_| self.four()).collect()
    }
}

/// Nothing where a code is not listed.
fn entry(kind: u16, mut f: Fields) -> Option<Entry> {
    Some(match kind {
        1 => Entry::Deposit { amount: f.eight() },
        2 => Entry::Withdraw { amount: f.eight() },
        3 => Entry::Lock {
            underlying: f.two(),
            units: f.four(),
        },
        4 => Entry::Unlock {
            underlying: f.two(),
            units: f.four(),
        },
        5 => Entry::Order(order(f)?),
        6 => Entry::Fill(Fill {
            number: f.four(),
            quantity: f.four(),
            price: f.four(),
        }),
        7 => Entry::Cancel { number: f.four() },
        8 => {
            let (n, m) = (f.two(), f.two());
            Entry::DayEnd {
                settlements: f.fours(n),
                closes: f.fours(m),
            }
        }
        9 => Entry::Pay,
        10 => Entry::Drop,
        16 => Entry::Underlying(underlying(f)?),
        17 => Entry::Contract(contract(f)?),
        _ => Entry::Opening { cash: f.eight() },
    })
}

fn order(mut f: Fields) -> Option<Order> {
    Some(Order {
        number: f.four(),
        contract: f.two(),
        kind: Kind::from_code(f.two())?,
        quantity: f.four(),
        price: f.four(),
    })
}

fn underlying(mut f: Fields) -> Option<Underlying> {
    Some(Underlying {
        class: Class::from_code(f.two())?,
        close: f.four(),
        rights: f.two(),
        total: f.two(),
        daily: f.two(),
    })
}

fn contract(mut f: Fields) -> Option<Contract> {
    Some(Contract {
        underlying: f.two(),
        right: Right::from_code(f.two())?,
        strike: f.four(),
        unit: f.four(),
        settlement: f.four(),
    })
}

/// Writes the record and answers its length, or refuses with 3 or 17 and writes no byte.
pub fn write(entry: &Entry, buffer: &mut [u8]) -> Result<usize, u8> {
    if let Entry::DayEnd {
        settlements,
        closes,
    } = entry
    {
        require(counts_allowed(settlements.len(), closes.len()), 3)?;
    }
    let (kind, fields) = fields(entry);
    let length = 4 + fields.iter().map(|field| field.width).sum::<usize>();
    let record = buffer.get_mut(..length).ok_or(17)?;
    let head = [two(length as u16), two(kind)];
    let bytes = head.iter().chain(&fields).flat_map(Field::bytes);
    for (place, byte) in record.iter_mut().zip(bytes) {
        *place = byte;
    }
    Ok(length)
}

/// The records of these entries, one behind the other. No record is longer than that of the longest day end.
pub fn written(entries: &[Entry]) -> Result<Vec<u8>, u8> {
    let mut bytes = Vec::new();
    for entry in entries {
        let mut buffer = [0; day_end_length(64, 8)];
        let length = write(entry, &mut buffer)?;
        bytes.extend_from_slice(&buffer[..length]);
    }
    Ok(bytes)
}

/// A field of a record: its width in bytes and its value.
#[derive(Clone, Copy, Debug, PartialEq, Eq)]
pub struct Field {
    pub width: usize,
    pub value: u64,
}

impl Field {
    fn bytes(&self) -> impl Iterator<Item = u8> {
        self.value.to_le_bytes().into_iter().take(self.width)
    }
}

fn two(value: u16) -> Field {
    Field {
        width: 2,
        value: value.into(),
    }
}

fn four(value: u32) -> Field {
    Field {
        width: 4,
        value: value.into(),
    }
}

fn eight(value: u64) -> Field {
    Field { width: 8, value }
}

/// An entry's kind, and its fields in the order of the table of records.
pub fn fields(entry: &Entry) -> (u16, Vec<Field>) {
    match entry {
        Entry::Deposit { amount } => (1, vec![eight(*amount)]),
        Entry::Withdraw { amount } => (2, vec![eight(*amount)]),
        Entry::Lock { underlying, units } => (3, vec![two(*underlying), four(*units)]),
        Entry::Unlock { underlying, units } => (4, vec![two(*underlying), four(*units)]),
        Entry::Order(o) => (5, order_fields(o)),
        Entry::Fill(f) => (6, vec![four(f.number), four(f.quantity), four(f.price)]),
        Entry::Cancel { number } => (7, vec![four(*number)]),
        Entry::DayEnd {
            settlements,
            closes,
        } => (8, day_end_fields(settlements, closes)),
        Entry::Pay => (9, Vec::new()),
        Entry::Drop => (10, Vec::new()),
        Entry::Underlying(u) => (16, underlying_fields(u)),
        Entry::Contract(c) => (17, contract_fields(c)),
        Entry::Opening { cash } => (18, vec![eight(*cash)]),
    }
}

fn order_fields(o: &Order) -> Vec<Field> {
    let kind = two(o.kind as u16);
    let contract = two(o.contract);
    vec![
        four(o.number),
        contract,
        kind,
        four(o.quantity),
        four(o.price),
    ]
}

fn day_end_fields(settlements: &[u32], closes: &[u32]) -> Vec<Field> {
    let counts = [settlements, closes].map(|figures| two(figures.len() as u16));
    let figures = settlements.iter().chain(closes).map(|&figure| four(figure));
    counts.into_iter().chain(figures).collect()
}

fn underlying_fields(u: &Underlying) -> Vec<Field> {
    let limits = [u.rights, u.total, u.daily].map(two);
    let head = [two(u.class as u16), four(u.close)];
    head.into_iter().chain(limits).collect()
}

fn contract_fields(c: &Contract) -> Vec<Field> {
    let figures = [c.strike, c.unit, c.settlement].map(four);
    let head = [two(c.underlying), two(c.right as u16)];
    head.into_iter().chain(figures).collect()
}

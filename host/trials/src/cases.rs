//! The lines of `cases`: margin, premium, net, allowed, read, cuts, write.

use crate::{day_end, Words};
use plain::account::Position;
use plain::entry::{Entry, Fill, Order};
use plain::terms::{self, Class, Contract, Kind, Right, Underlying};
use plain::{record, rules};

pub fn answer(words: &Words) -> Option<String> {
    match words.first() {
        "margin" => margin(words),
        "premium" => premium(words),
        "net" => net(words),
        "allowed" => allowed(words),
        "read" => read(words),
        "cuts" => cuts(words),
        "write" => write(words),
        _ => None,
    }
}

fn charge(fen: Result<i64, u8>) -> String {
    match fen {
        Ok(fen) => fen.to_string(),
        Err(refusal) => format!("refused {refusal}"),
    }
}

/// Class, right, settlement, close, strike, unit.
fn margin(words: &Words) -> Option<String> {
    let class = Class::from_code(words.number(1)?)?;
    let right = Right::from_code(words.number(2)?)?;
    let underlying = Underlying::new(class, words.number(4)?, [0; 3]);
    let figures = [words.number(5)?, words.number(6)?, words.number(3)?];
    let contract = Contract::new(0, right, figures);
    Some(charge(rules::margin(&contract, &underlying)))
}

fn premium(words: &Words) -> Option<String> {
    Some(charge(rules::premium(words.number(1)?, words.number(2)?)))
}

fn net(words: &Words) -> Option<String> {
    let netted = rules::net(Position {
        long: words.number::<u32>(1)?.into(),
        short: words.number::<u32>(2)?.into(),
        covered: words.number::<u32>(3)?.into(),
    });
    let Position {
        long,
        short,
        covered,
    } = netted;
    Some(format!("{long} {short} {covered}"))
}

/// A measure by its number, a value; 1 where the value is allowed.
fn allowed(words: &Words) -> Option<String> {
    let measure: usize = words.number(1)?;
    let value: u64 = words.number(2)?;
    let ranges = [
        terms::UNDERLYINGS,
        terms::CONTRACTS,
        0..=terms::PLACES as u64,
        terms::PRICE,
        terms::SETTLEMENT,
        terms::QUANTITY,
        terms::LIMIT,
        terms::TRANSFER,
        terms::OPENING_CASH,
        terms::UNITS_AT_ONCE,
        0..=terms::MONEY_CEILING as u64,
        0..=terms::LOCKED_CEILING as u64,
    ];
    let allowed = match measure {
        13 => terms::unit_allowed(value),
        _ => ranges.get(measure.checked_sub(1)?)?.contains(&value),
    };
    Some(u8::from(allowed).to_string())
}

/// Lent bytes, two digits each; `-` is none.
pub(crate) fn bytes(text: &str) -> Option<Vec<u8>> {
    let digits = if text == "-" { "" } else { text };
    let byte = |at| u8::from_str_radix(digits.get(at..at + 2)?, 16).ok();
    (0..digits.len()).step_by(2).map(byte).collect()
}

fn shown(bytes: &[u8]) -> String {
    if bytes.is_empty() {
        return "-".to_string();
    }
    bytes.iter().map(|byte| format!("{byte:02x}")).collect()
}

/// A place, and the lent bytes.
fn read(words: &Words) -> Option<String> {
    let place: usize = words.hex(1)?;
    match record::read(&bytes(words.text(2)?)?, place) {
        Ok((entry, length)) => Some(found(&entry, length)),
        Err(refusal) => Some(format!("refused {refusal} {place:016x}")),
    }
}

fn found(entry: &Entry, length: usize) -> String {
    let (kind, fields) = record::fields(entry);
    let mut text = format!("{kind} {length}");
    for field in fields {
        text += &format!(" {:0digits$x}", field.value, digits = 2 * field.width);
    }
    text
}

/// A record, read from each of its beginnings: the refusal, or 0.
fn cuts(words: &Words) -> Option<String> {
    let bytes = bytes(words.text(1)?)?;
    let verdict = |size| record::read(&bytes[..size], 0).err().unwrap_or(0);
    let verdicts = (0..=bytes.len()).map(|size| verdict(size).to_string());
    Some(verdicts.collect::<Vec<_>>().join(" "))
}

/// The size of the lent buffer, the kind, the fields. All of the buffer is shown, since the rest of it must stay as it was.
fn write(words: &Words) -> Option<String> {
    let size: usize = words.number(1)?;
    let mut buffer: Vec<u8> = (0..size)
        .map(|i| ((165 + 37 * (i % 251)) % 251) as u8)
        .collect();
    let outcome = match record::write(&asked(words)?, &mut buffer) {
        Ok(length) => format!("bytes {length}"),
        Err(refusal) => format!("refused {refusal}"),
    };
    Some(format!("{outcome} {}", shown(&buffer)))
}

/// The entry that a line asks to be written.
fn asked(words: &Words) -> Option<Entry> {
    Some(match words.number(2)? {
        1 => Entry::Deposit {
            amount: words.hex(3)?,
        },
        2 => Entry::Withdraw {
            amount: words.hex(3)?,
        },
        3 => Entry::Lock {
            underlying: words.hex(3)?,
            units: words.hex(4)?,
        },
        4 => Entry::Unlock {
            underlying: words.hex(3)?,
            units: words.hex(4)?,
        },
        5 => Entry::Order(order(words)?),
        6 => Entry::Fill(Fill {
            number: words.hex(3)?,
            quantity: words.hex(4)?,
            price: words.hex(5)?,
        }),
        7 => Entry::Cancel {
            number: words.hex(3)?,
        },
        8 => day_end(words.hex(3)?, words.hex(4)?, |i| words.hex(5 + i)),
        9 => Entry::Pay,
        10 => Entry::Drop,
        16 => Entry::Underlying(underlying(words)?),
        17 => Entry::Contract(contract(words)?),
        18 => Entry::Opening {
            cash: words.hex(3)?,
        },
        _ => return None,
    })
}

fn order(words: &Words) -> Option<Order> {
    Some(Order {
        number: words.hex(3)?,
        contract: words.hex(4)?,
        kind: Kind::from_code(words.hex(5)?)?,
        quantity: words.hex(6)?,
        price: words.hex(7)?,
    })
}

fn underlying(words: &Words) -> Option<Underlying> {
    Some(Underlying {
        class: Class::from_code(words.hex(3)?)?,
        close: words.hex(4)?,
        rights: words.hex(5)?,
        total: words.hex(6)?,
        daily: words.hex(7)?,
    })
}

fn contract(words: &Words) -> Option<Contract> {
    Some(Contract {
        underlying: words.hex(3)?,
        right: Right::from_code(words.hex(4)?)?,
        strike: words.hex(5)?,
        unit: words.hex(6)?,
        settlement: words.hex(7)?,
    })
}

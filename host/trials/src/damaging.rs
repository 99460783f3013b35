//! Damage to the records of a book: fields that say what can't be, bytes lost, changed and added, records lost, doubled and moved, and a
//! book that is cut.

use crate::chance::Chance;

pub(crate) fn damage(chance: &mut Chance, records: &mut Vec<Vec<u8>>) {
    if records.is_empty() {
        return;
    }
    let last = records.len() as i64 - 1;
    let at = chance.between(0, last) as usize;
    let other = chance.between(0, last) as usize;
    match chance.weighted(&[10, 10, 10, 15, 10, 10, 8, 8, 8, 20]) {
        0 => wrong_length(chance, &mut records[at]),
        1 => wrong_kind(chance, &mut records[at]),
        2 => wrong_code(chance, &mut records[at..]),
        3 => changed(chance, &mut records[at]),
        4 => shorter(chance, &mut records[at]),
        5 => longer(chance, &mut records[at]),
        6 => drop(records.remove(at)),
        7 => records.insert(at, records[other].clone()),
        8 => records.swap(at, other),
        _ => {
            records.truncate(at + 1);
            let kept = place(chance, &records[at]);
            records[at].truncate(kept);
        }
    }
}

/// A place in the record, or the one behind it.
fn place(chance: &mut Chance, record: &[u8]) -> usize {
    chance.between(0, record.len() as i64) as usize
}

/// A field of two bytes, if the record still has it.
fn set(record: &mut [u8], at: usize, value: u16) {
    if let Some(field) = record.get_mut(at..at + 2) {
        field.copy_from_slice(&value.to_le_bytes());
    }
}

fn wrong_length(chance: &mut Chance, record: &mut [u8]) {
    let own = record.len() as u16;
    let near = [own.saturating_sub(1), own + 1, own + 4, own + 256];
    let any = [0, 3, 4, 8, 10, 12, 16, 20, 296, 300, 65_535];
    let length = if chance.percent(50) {
        chance.pick(&near)
    } else {
        chance.pick(&any)
    };
    set(record, 0, length);
}

/// One that is not in the table, or another than the record's own, of the same length or not.
fn wrong_kind(chance: &mut Chance, record: &mut [u8]) {
    let unlisted = chance.pick(&[0, 11, 15, 19, 255, 256, 263, 65_535]);
    let listed = chance.pick(&[1, 2, 3, 4, 5, 6, 7, 8, 9, 10, 16, 17, 18]);
    let kind = chance.pick(&[unlisted, listed]);
    set(record, 2, kind);
}

/// In the next record that has a code or a count.
fn wrong_code(chance: &mut Chance, records: &mut [Vec<u8>]) {
    let place = |record: &[u8]| match record.get(2) {
        Some(5) => Some(10),
        Some(8 | 16) => Some(4),
        Some(17) => Some(6),
        _ => None,
    };
    let coded = records.iter_mut().find_map(|record| {
        let at = place(record)?;
        Some((record, at))
    });
    if let Some((record, at)) = coded {
        set(record, at, chance.pick(&[0, 1, 2, 3, 7, 65, 256, 65_535]));
    }
}

fn changed(chance: &mut Chance, record: &mut [u8]) {
    let at = place(chance, record);
    let bits = chance.between(1, 255) as u8;
    if let Some(byte) = record.get_mut(at) {
        *byte ^= bits;
    }
}

fn shorter(chance: &mut Chance, record: &mut Vec<u8>) {
    let start = place(chance, record);
    let lost = chance.between(1, 9) as usize;
    let end = record.len().min(start + lost);
    record.drain(start..end);
}

fn longer(chance: &mut Chance, record: &mut Vec<u8>) {
    let at = place(chance, record);
    let added: Vec<u8> = (0..chance.between(1, 9))
        .map(|_| chance.draw() as u8)
        .collect();
    record.splice(at..at, added);
}

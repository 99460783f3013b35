//! Fields straight from the bytes of a record. A record has its length in its type, so that no place in it needs a check.

use crate::limits::{require, Refusal, CONTRACTS, UNDERLYINGS};

/// The record that is to be N bytes long, where it is and all of it is there.
#[inline(always)]
pub fn whole<const N: usize>(rest: &[u8], length: usize) -> Result<&[u8; N], Refusal> {
    require(length == N, Refusal::Misshapen)?;
    let record = rest.get(..N).and_then(|record| record.try_into().ok());
    record.ok_or(Refusal::CutShort)
}

#[inline(always)]
pub fn two<const N: usize>(record: &[u8; N], at: usize) -> u16 {
    u16::from_le_bytes([record[at], record[at + 1]])
}

#[inline(always)]
pub fn four<const N: usize>(record: &[u8; N], at: usize) -> u32 {
    let [a, b] = two(record, at).to_le_bytes();
    let [c, d] = two(record, at + 2).to_le_bytes();
    u32::from_le_bytes([a, b, c, d])
}

#[inline(always)]
pub fn eight<const N: usize>(record: &[u8; N], at: usize) -> u64 {
    u64::from(four(record, at)) | u64::from(four(record, at + 4)) << 32
}

/// A day end's settlements and closes, which stay where they are.
pub struct Figures<'a> {
    pub settlements: &'a [u8],
    pub closes: &'a [u8],
}

impl<'a> Figures<'a> {
    /// The counts are judged as soon as they are there, before the figures are.
    pub fn read(rest: &'a [u8], length: usize) -> Result<Figures<'a>, Refusal> {
        let fits = length % 4 == 0 && (16..=296).contains(&length);
        require(fits, Refusal::Misshapen)?;
        let head = whole::<8>(rest, 8)?;
        let (n, m) = (usize::from(two(head, 4)), usize::from(two(head, 6)));
        let allowed = (1..=CONTRACTS).contains(&n) && (1..=UNDERLYINGS).contains(&m);
        require(allowed && length == 8 + 4 * (n + m), Refusal::Misshapen)?;
        let figures = rest.get(8..length).ok_or(Refusal::CutShort)?;
        let (settlements, closes) = figures.split_at(4 * n);
        Ok(Figures {
            settlements,
            closes,
        })
    }
}

pub fn fours(bytes: &[u8]) -> impl Iterator<Item = u32> + '_ {
    let number = |four: &[u8]| u32::from_le_bytes([four[0], four[1], four[2], four[3]]);
    bytes.chunks_exact(4).map(number)
}

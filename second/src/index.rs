//! The index of a catalogue's pair dot products, kept beside the catalogue.

use crate::answer::Refusal;
use crate::catalogue::{self, Star};
use crate::{dot, narrow};

pub const RECORD_BYTES: usize = 12;

/// An index as it is lent, with the floor it is said to have.
#[derive(Debug, Clone, Copy)]
pub struct Index<'a> {
    pub bytes: &'a [u8],
    pub floor: i128,
}

/// Two stars and their dot product. The order of the fields is the order of the index.
#[derive(Debug, Clone, Copy, PartialEq, Eq, PartialOrd, Ord)]
pub struct Pair {
    pub dot: i128,
    pub first: usize,
    pub second: usize,
}

/// Writes the index into the beginning of the room and gives its number of records.
pub fn index(catalogue: &[u8], floor: i128, room: &mut [u8]) -> Result<usize, Refusal> {
    let stars = catalogue::read(catalogue)?;
    let index = bytes_of(&stars, floor);
    if room.len() < index.len() {
        return Err(Refusal::new(16));
    }
    room[..index.len()].copy_from_slice(&index);
    Ok(index.len() / RECORD_BYTES)
}

/// The whole index of these stars.
fn bytes_of(stars: &[Star], floor: i128) -> Vec<u8> {
    pairs(stars, floor).iter().flat_map(record).collect()
}

/// Each pair whose dot product is at least the floor, in rising order.
fn pairs(stars: &[Star], floor: i128) -> Vec<Pair> {
    let mut pairs = Vec::new();
    for second in 0..stars.len() {
        for first in 0..second {
            let dot = dot(&stars[first].direction, &stars[second].direction);
            if dot >= floor {
                pairs.push(Pair { dot, first, second });
            }
        }
    }
    pairs.sort();
    pairs
}

fn record(pair: &Pair) -> [u8; RECORD_BYTES] {
    let mut bytes = [0; RECORD_BYTES];
    bytes[..8].copy_from_slice(&narrow(pair.dot).to_be_bytes());
    bytes[8..10].copy_from_slice(&(pair.first as u16).to_be_bytes());
    bytes[10..].copy_from_slice(&(pair.second as u16).to_be_bytes());
    bytes
}

/// The pair a record stands for.
pub fn read_record(record: &[u8]) -> Pair {
    let unsigned = |bytes: &[u8]| bytes.iter().fold(0, |n, &byte| n << 8 | u64::from(byte));
    Pair {
        dot: i128::from(unsigned(&record[..8]) as i64),
        first: unsigned(&record[8..10]) as usize,
        second: unsigned(&record[10..12]) as usize,
    }
}

/// Rule 17: the bytes are those of the index for these stars and this floor, no more and no less.
pub fn check(index: Index, stars: &[Star]) -> Result<(), Refusal> {
    if index.bytes != bytes_of(stars, index.floor) {
        return Err(Refusal::new(17));
    }
    Ok(())
}

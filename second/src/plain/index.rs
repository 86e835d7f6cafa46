//! The index of pair dot products: building it, testing it, and votes by it.

use super::{dot, read_catalogue, Votes};
use crate::answer::{Refusal, Vector};

const RECORD_BYTES: usize = 12;

/// An index as it is lent, with the floor it is said to have.
#[derive(Clone, Copy)]
pub struct Index<'a> {
    pub bytes: &'a [u8],
    pub floor: i64,
}

/// A dot product, then the two record numbers in one: the order of these is the order of the index.
type Record = (i64, u32);

pub fn index(catalogue: &[u8], floor: i64, room: &mut [u8]) -> Result<usize, Refusal> {
    let mut records = records(&read_catalogue(catalogue)?, floor);
    if room.len() < RECORD_BYTES * records.len() {
        return Err(Refusal::new(16));
    }
    records.sort_unstable();
    for (bytes, (product, numbers)) in room.chunks_exact_mut(RECORD_BYTES).zip(&records) {
        bytes[..8].copy_from_slice(&product.to_be_bytes());
        bytes[8..].copy_from_slice(&numbers.to_be_bytes());
    }
    Ok(records.len())
}

/// The records of all pairs at or above the floor, in no order.
fn records(stars: &[Vector], floor: i64) -> Vec<Record> {
    let mut records = Vec::with_capacity(stars.len() * (stars.len() - 1) / 2);
    for (b, second) in stars.iter().enumerate() {
        for (a, first) in stars[..b].iter().enumerate() {
            let product = dot(first, second);
            if product >= floor {
                records.push((product, (a as u32) << 16 | b as u32));
            }
        }
    }
    records
}

/// The stars of a record.
fn stars_of((_, numbers): Record) -> (usize, usize) {
    ((numbers >> 16) as usize, (numbers & 0xFFFF) as usize)
}

impl Index<'_> {
    /// The index has as many records as there are pairs at or above the floor, every record is that of such a
    /// pair, and they rise, so that no pair is there twice: then each of the pairs is there.
    pub fn check(&self, stars: &[Vector]) -> Result<(), Refusal> {
        let pairs = |(b, second): (usize, &Vector)| {
            stars[..b].iter().filter(|first| dot(first, second) >= self.floor).count()
        };
        let count: usize = stars.iter().enumerate().map(pairs).sum();
        if self.bytes.len() != RECORD_BYTES * count || !self.rises_through_pairs(stars) {
            return Err(Refusal::new(17));
        }
        Ok(())
    }

    fn rises_through_pairs(&self, stars: &[Vector]) -> bool {
        let mut previous = None;
        (0..self.len()).map(|k| self.record(k)).all(|record| {
            let rises = previous < Some(record);
            previous = Some(record);
            let (a, b) = stars_of(record);
            rises
                && a < b
                && b < stars.len()
                && record.0 >= self.floor
                && record.0 == dot(&stars[a], &stars[b])
        })
    }

    fn len(&self) -> usize {
        self.bytes.len() / RECORD_BYTES
    }

    fn record(&self, k: usize) -> Record {
        let bytes = &self.bytes[RECORD_BYTES * k..RECORD_BYTES * (k + 1)];
        let (product, numbers) = bytes.split_at(8);
        let product = i64::from_be_bytes(product.try_into().expect("eight bytes"));
        (product, u32::from_be_bytes(numbers.try_into().expect("four bytes")))
    }

    /// Whether all star pairs that may agree with a pair of directions that has this product are at or above the floor.
    pub fn reaches(&self, product: i64, tolerance: i64) -> bool {
        product - tolerance >= self.floor
    }

    /// The votes of a pair of directions that has this product: the first record that agrees by halving, then up to the last.
    pub fn vote(&self, product: i64, tolerance: i64, votes: &mut Votes) {
        let (mut low, mut high) = (0, self.len());
        while low < high {
            let middle = (low + high) / 2;
            if self.record(middle).0 < product - tolerance {
                low = middle + 1;
            } else {
                high = middle;
            }
        }
        let agreeing =
            (low..self.len()).map(|k| self.record(k)).take_while(|&(stars, _)| stars <= product + tolerance);
        for record in agreeing {
            let (a, b) = stars_of(record);
            votes[a] += 1;
            votes[b] += 1;
        }
    }
}

//! The catalogue's records.

use crate::answer::Refusal;
use crate::{dot, UNIT};
use std::ops::RangeInclusive;

pub const RECORD_BYTES: usize = 20;
const MOST_RECORDS: usize = 512;
const MAGNITUDES: RangeInclusive<i32> = -2_000..=12_000;

#[derive(Debug, Clone, Copy, PartialEq, Eq)]
pub struct Star {
    pub identity: u32,
    pub direction: [i128; 3],
    /// In thousandths. Votes, rankings and searches do not look at it.
    pub magnitude: i32,
}

/// The number of records of a valid catalogue.
pub fn catalogue(bytes: &[u8]) -> Result<usize, Refusal> {
    Ok(read(bytes)?.len())
}

/// The stars of a catalogue that keeps rules 6 and 7.
pub fn read(bytes: &[u8]) -> Result<Vec<Star>, Refusal> {
    let records = bytes.len() / RECORD_BYTES;
    if bytes.len() % RECORD_BYTES != 0 || !(1..=MOST_RECORDS).contains(&records) {
        return Err(Refusal::new(6));
    }
    let stars: Vec<Star> = bytes.chunks(RECORD_BYTES).map(star).collect();
    for place in 0..records {
        // The first record has none before it to rise from.
        let rises = place == 0 || stars[place - 1].identity < stars[place].identity;
        let star = &stars[place];
        if !rises || !is_direction(&star.direction) || !MAGNITUDES.contains(&star.magnitude) {
            return Err(Refusal::at(7, place));
        }
    }
    Ok(stars)
}

fn star(record: &[u8]) -> Star {
    let word = |k: usize| [record[k], record[k + 1], record[k + 2], record[k + 3]];
    let component = |k: usize| i128::from(i32::from_be_bytes(word(k)));
    Star {
        identity: u32::from_be_bytes(word(0)),
        direction: [component(4), component(8), component(12)],
        magnitude: i32::from_be_bytes(word(16)),
    }
}

fn is_direction(v: &[i128; 3]) -> bool {
    v.iter().all(|component| component.abs() <= UNIT) && (dot(v, v) - UNIT * UNIT).abs() <= 4 * UNIT
}

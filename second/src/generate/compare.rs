//! Two catalogues, the second most often come out of the first.

use super::any_stars;
use crate::call::{Buffer, Call, Entry};
use crate::catalogue::{self, RECORD_BYTES};
use crate::compare;
use crate::random::Random;
use crate::sky;

/// Most records a catalogue may have.
const MOST_RECORDS: usize = 512;

/// The two catalogues compared, with this much room beyond the list.
pub fn compare_of(first: &[u8], second: &[u8], spare: usize) -> Call {
    let mut call = Call::new(Entry::Compare);
    call.catalogue = Buffer::of(first);
    call.other = Buffer::of(second);
    call.bytes = Buffer::repeat(list_length(first, second) + spare, &[0xC3, 5, 255]);
    call
}

/// The bytes of the list; none where a catalogue breaks its rules.
pub fn list_length(first: &[u8], second: &[u8]) -> usize {
    compare::changes(first, second).map_or(0, |changes| compare::RECORD_BYTES * changes.len())
}

pub fn any_compare(random: &Random) -> Call {
    let most = if random.below(100) == 0 { MOST_RECORDS } else { random.pick(&[1, 3, 12, 40]) };
    let first = sky::catalogue(random, &any_stars(random, most));
    let second = match random.below(10) {
        0 => first.clone(),
        1 => sky::catalogue(random, &any_stars(random, most)),
        _ => changed(random, &first),
    };
    let spare = random.pick(&[0, 0, 1, 8, 50]);
    match random.chance(50) {
        true => compare_of(&first, &second, spare),
        false => compare_of(&second, &first, spare),
    }
}

/// The catalogue after stars were taken away, put in, moved and dimmed, more or fewer of them.
pub fn changed(random: &Random, first: &[u8]) -> Vec<u8> {
    let percent = random.pick(&[5, 30, 90]);
    let mut second = Vec::new();
    for record in first.chunks(RECORD_BYTES) {
        match random.below(3) {
            _ if !random.chance(percent) => second.extend(record),
            0 => {}
            1 => second.extend(moved(random, record)),
            _ => {
                second.extend(record);
                second.extend(next_identity(random, record));
            }
        }
    }
    second.truncate(MOST_RECORDS * RECORD_BYTES);
    // At least one star, and every change must leave the catalogue valid.
    match catalogue::read(&second) {
        Ok(_) => second,
        Err(_) => first[..RECORD_BYTES].to_vec(),
    }
}

/// The record with one component or the magnitude a little larger or smaller, if it is still a star then.
fn moved(random: &Random, record: &[u8]) -> Vec<u8> {
    let mut moved = record.to_vec();
    let at = 4 + 4 * random.below(4);
    let number = i32::from_be_bytes([moved[at], moved[at + 1], moved[at + 2], moved[at + 3]]);
    let step = random.pick(&[1, -1, 256, -65_536]);
    moved[at..at + 4].copy_from_slice(&number.wrapping_add(step).to_be_bytes());
    match catalogue::read(&moved) {
        Ok(_) => moved,
        Err(_) => record.to_vec(),
    }
}

/// A star whose identity is one more.
fn next_identity(random: &Random, record: &[u8]) -> Vec<u8> {
    let identity = u32::from_be_bytes([record[0], record[1], record[2], record[3]]);
    sky::record_of(identity.saturating_add(1), sky::anywhere(random), sky::any_magnitude(random)).to_vec()
}

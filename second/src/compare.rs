//! What changed between two catalogues.

use crate::answer::Refusal;
use crate::catalogue::{self, Star};
use std::collections::BTreeMap;

pub const RECORD_BYTES: usize = 8;

#[derive(Debug, Clone, Copy, PartialEq, Eq)]
pub enum Change {
    /// The star is only in the first catalogue.
    Removed = 1,
    /// It is only in the second.
    Added = 2,
    /// It is in both, but not the same.
    Changed = 3,
}

/// Writes a record for each change into the beginning of the room and gives their number.
pub fn compare(first: &[u8], second: &[u8], room: &mut [u8]) -> Result<usize, Refusal> {
    let changes = changes(first, second)?;
    let bytes: Vec<u8> = changes.iter().flat_map(record).collect();
    if room.len() < bytes.len() {
        return Err(Refusal::new(20));
    }
    room[..bytes.len()].copy_from_slice(&bytes);
    Ok(changes.len())
}

/// The changed stars by rising identity. The second catalogue is looked at only if the first is valid.
pub fn changes(first: &[u8], second: &[u8]) -> Result<Vec<(u32, Change)>, Refusal> {
    let (first, second) = (catalogue::read(first)?, catalogue::read(second)?);
    // For each identity the star of the first catalogue and that of the second.
    let mut stars: BTreeMap<u32, [Option<&Star>; 2]> = BTreeMap::new();
    for (side, catalogue) in [&first, &second].into_iter().enumerate() {
        for star in catalogue {
            stars.entry(star.identity).or_default()[side] = Some(star);
        }
    }
    let changed = |(identity, sides)| Some((identity, change(sides)?));
    Ok(stars.into_iter().filter_map(changed).collect())
}

fn change(sides: [Option<&Star>; 2]) -> Option<Change> {
    match sides {
        [Some(_), None] => Some(Change::Removed),
        [None, Some(_)] => Some(Change::Added),
        [first, second] if first != second => Some(Change::Changed),
        _ => None,
    }
}

fn record(&(identity, change): &(u32, Change)) -> [u8; RECORD_BYTES] {
    let mut bytes = [0; RECORD_BYTES];
    bytes[..4].copy_from_slice(&identity.to_be_bytes());
    bytes[4..].copy_from_slice(&(change as u32).to_be_bytes());
    bytes
}

//! A burst: many frames of one size in one call, each answered by a record.

use crate::answer::{Refusal, Solution};
use crate::chain::{chain_within, Settings};
use crate::search::{Effort, GaveUp};

pub const RECORD_BYTES: usize = 80;
const MOST_FRAMES: usize = 64;

pub fn burst(
    samples: &[u16],
    settings: &Settings,
    catalogue: &[u8],
    room: &mut [u16],
    records: &mut [u8],
) -> Result<usize, Refusal> {
    burst_within(samples, settings, catalogue, room, records, &mut Effort::unlimited())
        .expect("an unlimited search ends with an answer")
}

/// Runs the chain over the frames in order, all of them with the same ranking room, and gives the number of
/// records. One frame's refusal stands in its own record and stops nothing.
pub fn burst_within(
    samples: &[u16],
    settings: &Settings,
    catalogue: &[u8],
    room: &mut [u16],
    records: &mut [u8],
    effort: &mut Effort,
) -> Result<Result<usize, Refusal>, GaveUp> {
    let size = match frame_size(samples.len(), settings, records.len()) {
        Ok(size) => size,
        Err(refusal) => return Ok(Err(refusal)),
    };
    for (k, frame) in samples.chunks(size).enumerate() {
        let answer = chain_within(frame, settings, catalogue, room, effort)?;
        records[RECORD_BYTES * k..RECORD_BYTES * (k + 1)].copy_from_slice(&record(&answer));
    }
    Ok(Ok(samples.len() / size))
}

/// The samples of a frame, where the whole burst is not refused.
fn frame_size(samples: usize, settings: &Settings, record_room: usize) -> Result<usize, Refusal> {
    if !(7..=1_024).contains(&settings.width) || !(7..=1_024).contains(&settings.height) {
        return Err(Refusal::new(1));
    }
    let size = (settings.width * settings.height) as usize;
    let frames = samples / size;
    if samples % size != 0 || frames > MOST_FRAMES {
        return Err(Refusal::new(2));
    }
    if record_room < RECORD_BYTES * frames {
        return Err(Refusal::new(18));
    }
    Ok(size)
}

/// Refusal number and place, then the matrix by rows; 0 where there is none.
fn record(answer: &Result<Solution, Refusal>) -> [u8; RECORD_BYTES] {
    let (refusal, matrix) = match answer {
        Ok(solution) => (Refusal::new(0), solution.matrix),
        Err(refusal) => (*refusal, [[0; 3]; 3]),
    };
    let mut bytes = [0; RECORD_BYTES];
    bytes[..4].copy_from_slice(&u32::from(refusal.number).to_be_bytes());
    bytes[4..8].copy_from_slice(&(refusal.place as u32).to_be_bytes());
    for (k, entry) in matrix.as_flattened().iter().enumerate() {
        bytes[8 + 8 * k..16 + 8 * k].copy_from_slice(&entry.to_be_bytes());
    }
    bytes
}

//! A burst: what does not change from frame to frame is tested once.

use super::{Settings, Sky, SIDES};
use crate::answer::{Refusal, Solution};

const MOST_FRAMES: usize = 64;
const RECORD_BYTES: usize = 80;

pub fn burst(
    samples: &[u16],
    settings: &Settings,
    catalogue: &[u8],
    room: &mut [u16],
    records: &mut [u8],
) -> Result<usize, Refusal> {
    let Settings { width, height, .. } = *settings;
    if !SIDES.contains(&width) || !SIDES.contains(&height) {
        return Err(Refusal::new(1));
    }
    let size = width * height;
    let frames = samples.len() / size;
    if samples.len() % size != 0 || frames > MOST_FRAMES {
        return Err(Refusal::new(2));
    }
    if records.len() < RECORD_BYTES * frames {
        return Err(Refusal::new(18));
    }
    let sky = Sky::check(settings, catalogue, None, room.len());
    for (frame, record) in samples.chunks_exact(size).zip(records.chunks_exact_mut(RECORD_BYTES)) {
        let answer = settings
            .frame(frame)
            .and_then(|frame| sky.as_ref().map_err(|refusal| *refusal)?.solve(&frame, room));
        write_record(&answer, record);
    }
    Ok(frames)
}

fn write_record(answer: &Result<Solution, Refusal>, record: &mut [u8]) {
    let (refusal, matrix) = match answer {
        Ok(solution) => (Refusal::new(0), solution.matrix),
        Err(refusal) => (*refusal, [[0; 3]; 3]),
    };
    record[..4].copy_from_slice(&u32::from(refusal.number).to_be_bytes());
    record[4..8].copy_from_slice(&(refusal.place as u32).to_be_bytes());
    for (bytes, entry) in record[8..].chunks_exact_mut(8).zip(matrix.as_flattened()) {
        bytes.copy_from_slice(&entry.to_be_bytes());
    }
}

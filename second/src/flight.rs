//! What the example in C prints for a burst behind the listing: the stars that were named, followed by a guider.

use crate::answer::{numbers, Refusal, Solution};
use crate::burst::{burst_within, RECORD_BYTES};
use crate::chain::{chain_within, Settings, CHAIN_ROOM};
use crate::guider::{guider_frame, Guider, GUIDER_NUMBERS};
use crate::listing::refused;
use crate::search::{Effort, GaveUp};
use crate::{catalogue, files, frame};

/// Four pixels.
const HALF_WIDTH: i64 = 1_024;
const MOST_GUIDES: usize = 4;
const MOST_FRAMES: usize = 64;

/// The lines for a burst file, unless a search goes beyond the effort; none where the chain over the three files is
/// refused.
pub fn burst_lines(
    settings: &[u8],
    catalogue: &[u8],
    frame: &[u8],
    burst: &[u8],
    effort: &mut Effort,
) -> Result<String, GaveUp> {
    let Ok((settings, samples)) = files::read(settings, frame) else {
        return Ok(String::new());
    };
    let mut room = vec![0; CHAIN_ROOM];
    let Ok(solution) = chain_within(&samples, &settings, catalogue, &mut room, effort)? else {
        return Ok(String::new());
    };
    let samples = match burst.len() % 2 {
        0 => burst.chunks(2).map(|word| u16::from_be_bytes([word[0], word[1]])).collect(),
        _ => Vec::new(),
    };
    let mut records = vec![0; MOST_FRAMES * RECORD_BYTES];
    match burst_within(&samples, &settings, catalogue, &mut room, &mut records, effort)? {
        Err(refusal) => Ok(refused(refusal)),
        Ok(_) => Ok(lines(&settings, &guider_of(&solution, catalogue), &samples, &records)),
    }
}

/// A guider for the first stars that have a name.
fn guider_of(solution: &Solution, catalogue: &[u8]) -> Guider {
    let records = catalogue::read(catalogue).expect("the chain accepted the catalogue");
    let guides: Vec<i64> = solution
        .list
        .stars
        .iter()
        .zip(&solution.assignment)
        .filter_map(|(star, record)| Some([records[(*record)?].identity.into(), star.x, star.y]))
        .take(MOST_GUIDES)
        .flatten()
        .collect();
    Guider::start(HALF_WIDTH, &guides).expect("a listed star is on the frame, and no name is given twice")
}

/// A line for each frame: its number, number and place of its refusal, then identity, x, y and misses of each guide.
fn lines(settings: &Settings, start: &Guider, samples: &[u16], records: &[u8]) -> String {
    let size = (settings.width * settings.height) as usize;
    let mut numbers_kept = [0; GUIDER_NUMBERS];
    start.write(&mut numbers_kept);
    let mut text = String::new();
    for (k, (samples, record)) in samples.chunks(size).zip(records.chunks(RECORD_BYTES)).enumerate() {
        let list = frame::list(samples, settings.width, settings.height, settings.threshold);
        guider_frame(&mut numbers_kept, &numbers(&list)).expect("a frame's list keeps its rules");
        let Refusal { number, place } = refusal_in(record);
        text += &format!("{k} {number} {place}");
        for guide in Guider::read(&numbers_kept).expect("a guider stays one").guides {
            let [x, y] = guide.position;
            text += &format!(" {} {x} {y} {}", guide.identity, guide.misses);
        }
        text.push('\n');
    }
    text
}

fn refusal_in(record: &[u8]) -> Refusal {
    let word = |from: usize| record[from..from + 4].iter().fold(0, |n, &byte| 256 * n + usize::from(byte));
    Refusal::at(word(0) as u8, word(4))
}

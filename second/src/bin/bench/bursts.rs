//! A burst, and the single calls of its frames. The catalogue is small, so that the votes leave the frames a
//! part of the time.

use crate::rankings;
use second::call::{Buffer, Call, Entry};
use second::random::Random;

const FRAMES: usize = 64;

pub fn inputs(random: &Random) -> Vec<(&'static str, Vec<Call>)> {
    let single = rankings::solved_chain(random, 160, 120, 100);
    vec![
        ("burst, 64 frames of 160 x 120, 100 stars", vec![burst(&single)]),
        ("chain, the burst's 64 frames one by one", vec![single; FRAMES]),
    ]
}

/// The same frame over and over.
fn burst(single: &Call) -> Call {
    let mut call = Call { entry: Entry::Burst, ..single.clone() };
    call.samples = Buffer::of(&single.samples.values().repeat(FRAMES));
    call.bytes = Buffer::repeat(80 * FRAMES, &[0]);
    call
}

//! Bursts.

use super::chain::{crowded_scene, document_chain, scene};
use super::{damaged, lens, vary};
use crate::call::{Buffer, Call, Entry};
use crate::generate::{burst_of, dark_frame, HUGE};
use crate::random::Random;

/// The patches of a frame of the burst of 160 x 120 frames below: the document's stars.
fn document_burst(frames: usize) -> Call {
    let document = document_chain();
    let mut call = Call { entry: Entry::Burst, ..document.clone() };
    let size = document.samples.len;
    call.samples = Buffer::repeat(size * frames, &[0]);
    for k in 0..frames {
        for &(index, sample) in &document.samples.patches {
            call.samples.set(size * k + index, sample);
        }
    }
    call.bytes = Buffer::repeat(80 * frames + 7, &[0x5A, 3, 255]);
    call
}

/// A burst of the smallest frames, each with a pixel or none: all their refusals are their own.
fn tiny_burst(random: &Random, frames: usize) -> Call {
    let mut call = dark_frame(Entry::Burst, 7, 7, 50);
    let document = document_chain();
    (call.cx, call.cy, call.lens) = (document.cx, document.cy, document.lens);
    (call.catalogue, call.needed, call.room) = (document.catalogue, 3, document.room);
    call.samples = Buffer::repeat(49 * frames, &[0]);
    for k in 0..frames {
        if random.chance(40) {
            call.samples.set(49 * k + random.below(49), random.pick(&[100, 4_095, 4_096, 65_535]));
        }
    }
    call.bytes = Buffer::repeat(80 * frames, &[0x5A, 3, 255]);
    call
}

pub fn bursts(random: &Random, calls: &mut Vec<Call>) {
    document_bursts(calls);
    empty_bursts(calls);
    longest(random, calls);
    skies(random, calls);
    let sound = || {
        let first = scene(random, 30, 24, 3 + random.below(2), 4 + random.below(3));
        burst_of(random, &first, 1 + random.below(4))
    };
    damaged(random, Entry::Burst, 6, 30, sound, calls);
    lens::through(random, &document_burst(2), calls);
}

/// The document's frame: one of it, several, and with one bad neighbour at each place.
fn document_bursts(calls: &mut Vec<Call>) {
    for frames in 0..=5 {
        calls.push(document_burst(frames));
    }
    let document = document_burst(4);
    let size = document.samples.len / 4;
    for bad in 0..4 {
        for place in [0, size / 2, size - 1] {
            vary(calls, &document, &[(bad * size + place, 4_096)], |call, (place, sample)| {
                call.samples.set(place, sample)
            });
        }
        // A star less in one of them.
        vary(calls, &document, &[bad], |call, bad| call.samples.set(bad * size + 160 * 60 + 32, 0));
    }
    vary(calls, &document, &[0, 79, 80, 239, 240, 319, 320, 321, 400], |call, len| {
        call.bytes = call.bytes.resized(len)
    });
    vary(calls, &document, &[0, 1, 4_095, 4_096, 4_200], |call, len| call.room = call.room.resized(len));
    vary(calls, &document, &[2, 3, 4, 8, 9], |call, needed| call.needed = needed);
    vary(calls, &document, &[0, 1, 50, 101, 4_096], |call, threshold| call.threshold = threshold);
    vary(calls, &document, &[-1, 20_481, 261_889], |call, cx| call.cx = cx);
    vary(calls, &document, &[0, 40, 59, 60, 61], |call, len| call.catalogue = call.catalogue.resized(len));
    vary(calls, &document, &[-1, 1, 100, 19_199], |call, off| {
        call.samples = call.samples.resized((call.samples.len as i64 + off) as usize)
    });
    // As many samples as four frames, but of another size: two frames, one, or none.
    vary(calls, &document, &[(160, 240), (320, 240), (120, 160), (320, 480), (6, 120)], |call, sides| {
        (call.width, call.height) = sides
    });
    vary(calls, &document, &HUGE, |call, width| call.width = width);
    vary(calls, &document, &HUGE, |call, height| call.height = height);
}

/// Nothing lent: no record, whatever else is wrong, but for the sides.
fn empty_bursts(calls: &mut Vec<Call>) {
    let mut nothing = document_burst(0);
    nothing.bytes = Buffer::repeat(0, &[]);
    calls.push(nothing.clone());
    vary(calls, &nothing, &[0, 5, 4_096], |call, threshold| call.threshold = threshold);
    vary(calls, &nothing, &[0, 9], |call, needed| call.needed = needed);
    vary(calls, &nothing, &[0, 1, 80], |call, len| call.bytes = Buffer::repeat(len, &[9]));
    vary(calls, &nothing, &[6, 7, 1_024, 1_025], |call, width| call.width = width);
    vary(calls, &nothing, &[0, 19], |call, len| call.catalogue = call.catalogue.resized(len));
    vary(calls, &nothing, &[0, 4_095], |call, len| call.room = call.room.resized(len));
}

/// The most frames and more.
fn longest(random: &Random, calls: &mut Vec<Call>) {
    for frames in [1, 2, 63, 64, 65, 66, 128] {
        let tiny = tiny_burst(random, frames);
        calls.push(tiny.clone());
        vary(calls, &tiny, &[80 * frames - 1, 80 * frames + 5], |call, len| {
            call.bytes = Buffer::repeat(len, &[1, 2])
        });
        vary(calls, &tiny, &[49 * frames - 1, 49 * frames + 1], |call, len| {
            call.samples = call.samples.resized(len)
        });
    }
}

/// Skies: frames of many kinds side by side, each with a ranking of its own length.
fn skies(random: &Random, calls: &mut Vec<Call>) {
    for frames in 1..=8 {
        for (width, height) in [(40, 30), (64, 64), (24, 24)] {
            let first = scene(random, width, height, 3 + random.below(3), 4 + random.below(5));
            calls.push(burst_of(random, &first, frames));
        }
    }
    let first = scene(random, 24, 24, 3, 5);
    calls.push(burst_of(random, &first, 64));
    let first = scene(random, 64, 48, 8, 60);
    calls.push(burst_of(random, &first, 5));
    for _ in 0..20 {
        let first = crowded_scene(random);
        calls.push(burst_of(random, &first, 1 + random.below(3)));
    }
}

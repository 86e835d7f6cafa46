//! The chain.

use super::{damaged, lens, vary};
use crate::call::{Buffer, Call, Entry};
use crate::catalogue::RECORD_BYTES;
use crate::generate::{
    add_hot_pixels, any_call, dark_frame, mirrored_catalogue, random_stars, set_pixel, Scene, MOST_TOLERANCE,
};
use crate::lens::Plate;
use crate::random::Random;
use crate::sky::{self, record};

/// The chain of the document's listing.
pub(super) fn document_chain() -> Call {
    let mut call = dark_frame(Entry::Chain, 160, 120, 50);
    for (row, column) in [(60, 32), (60, 128), (108, 80)] {
        set_pixel(&mut call, row, column - 1, 50);
        set_pixel(&mut call, row, column, 100);
        set_pixel(&mut call, row, column + 1, 50);
    }
    (call.cx, call.cy, call.lens) = (20_480, 15_360, Plate::of_focal(16_384));
    let stars =
        [[-600_000_000, 0, 800_000_000], [600_000_000, 0, 800_000_000], [0, 600_000_000, 800_000_000]];
    let bytes: Vec<u8> =
        [11, 22, 33].into_iter().zip(stars).flat_map(|(identity, star)| record(identity, star)).collect();
    call.catalogue = Buffer::of(&bytes);
    call.needed = 3;
    call.room = Buffer::repeat(4_096, &[5, 6, 7]);
    call
}

pub(super) fn scene(random: &Random, width: usize, height: usize, visible: usize, records: usize) -> Call {
    let scene = Scene {
        width,
        height,
        visible,
        unknown: random.pick(&[0, 0, 0, 1, 2]),
        records,
        equal_brightness: random.chance(25),
        background: random.chance(40),
    };
    scene.call(random)
}

/// A narrow view of a crowded patch of sky where all pairs agree, some stars standing in one place.
pub(super) fn crowded_scene(random: &Random) -> Call {
    let mut call = scene(random, 64, 64, 3 + random.below(4), 3);
    let patch = sky::anywhere(random);
    let places = [patch, patch, sky::near(random, patch, 1_000), sky::near(random, patch, 1_000_000_000)];
    let stars: Vec<[i32; 3]> = (0..3 + random.below(5)).map(|_| random.pick(&places)).collect();
    call.catalogue = Buffer::of(&sky::catalogue(random, &stars));
    call.lens = Plate::of_focal(random.pick(&[4_194_304, 1_000_000]));
    call.tolerance = MOST_TOLERANCE;
    call
}

pub fn chains(random: &Random, calls: &mut Vec<Call>) {
    document_limits(calls);
    scenes(random, calls);
    spoilt_scenes(random, calls);
    hot_and_mirrored(random, calls);
}

/// The document's chain, with each of its numbers and buffers at a limit and beyond.
fn document_limits(calls: &mut Vec<Call>) {
    let document = document_chain();
    calls.push(document.clone());
    vary(calls, &document, &[2, 3, 4, 8, 9], |call, needed| call.needed = needed);
    vary(calls, &document, &[0, 1, 4_095, 4_096, 4_097, 4_200], |call, len| {
        call.room = call.room.resized(len)
    });
    vary(
        calls,
        &document,
        &[0, 1, 262_144, MOST_TOLERANCE, MOST_TOLERANCE + 1, 1 << 63, u64::MAX],
        |call, t| call.tolerance = t,
    );
    vary(calls, &document, &[-1, 0, 1, 20_481, 261_888, 261_889, i64::MIN, i64::MAX], |call, cx| {
        call.cx = cx
    });
    vary(calls, &document, &[-1, 0, 1, 15_361, 261_888, 261_889, i64::MIN, i64::MAX], |call, cy| {
        call.cy = cy
    });
    vary(calls, &document, &[0, 16_383, 16_384, 16_385, 4_194_304, 4_194_305, i64::MAX], |call, focal| {
        call.lens = Plate::of_focal(focal)
    });
    vary(calls, &document, &[0, 1, 100, 101, 4_095, 4_096], |call, threshold| call.threshold = threshold);
    vary(calls, &document, &[0, 20, 40, 59, 60, 61], |call, len| {
        call.catalogue = call.catalogue.resized(len)
    });
}

/// Skies in frames of every size.
fn scenes(random: &Random, calls: &mut Vec<Call>) {
    for visible in 3..=8 {
        for (width, height) in [(160, 120), (120, 160), (80, 60), (64, 64), (40, 30), (200, 160)] {
            for records in [visible, 20, 40] {
                calls.push(scene(random, width, height, visible, records));
            }
        }
        for _ in 0..4 {
            calls.push(scene(random, 160, 120, visible, 100));
        }
        for _ in 0..3 {
            calls.push(scene(random, 160, 120, visible, 512));
        }
    }
    calls.push(scene(random, 200, 160, 8, 512));
    calls.push(scene(random, 200, 160, 12, 300));
    // The smallest frames have place for a star or two.
    for (width, height) in [(9, 9), (13, 13), (20, 10), (24, 24)] {
        for visible in 1..=4 {
            calls.push(scene(random, width, height, visible, 6));
        }
    }
    // Large frames, with a star in each corner's reach.
    calls.push(scene(random, 1_024, 7, 5, 30));
    calls.push(scene(random, 512, 400, 8, 60));
    let mut full = scene(random, 1_024, 1_024, 8, 40);
    full.lens = Plate::of_focal(300_000);
    full.tolerance = MOST_TOLERANCE;
    calls.push(full);
}

/// Skies that the catalogue does not have, crowded ones, and damaged calls.
fn spoilt_scenes(random: &Random, calls: &mut Vec<Call>) {
    // Another sky, or a true star less.
    for _ in 0..25 {
        let mut call = scene(random, 80, 60, 3 + random.below(4), 8);
        let stars = random_stars(random, 3 + random.below(12));
        call.catalogue = Buffer::of(&sky::catalogue(random, &stars));
        calls.push(call);
        let mut call = scene(random, 80, 60, 3 + random.below(3), 6);
        call.catalogue = call.catalogue.resized(call.catalogue.len - RECORD_BYTES);
        calls.push(call);
    }
    for _ in 0..60 {
        calls.push(crowded_scene(random));
    }
    // The ranking stays, or is written, beside any of the earlier reasons.
    for _ in 0..60 {
        calls.push(any_call(random, Entry::Chain));
    }
    let sound = || scene(random, 40, 30, 3 + random.below(2), 4 + random.below(3));
    damaged(random, Entry::Chain, 14, 120, sound, calls);
    let crowded = || crowded_scene(random);
    damaged(random, Entry::Chain, 2, 20, crowded, calls);
}

/// Hot pixels, skies in a mirror, and other lenses.
fn hot_and_mirrored(random: &Random, calls: &mut Vec<Call>) {
    // Hot pixels take no star's place.
    for hot in [1, 4, 20] {
        for visible in 3..=8 {
            let mut call = scene(random, 80, 60, visible, 12);
            add_hot_pixels(random, &mut call, hot);
            calls.push(call);
        }
    }
    // The sky in a mirror, and the document's with two stars exchanged.
    for visible in 3..=8 {
        for records in [visible, 20] {
            let mut call = scene(random, 80, 60, visible, records);
            call.catalogue = mirrored_catalogue(&call.catalogue);
            calls.push(call);
        }
    }
    let document = document_chain();
    let mut exchanged = document.clone();
    exchanged.catalogue = mirrored_catalogue(&exchanged.catalogue);
    calls.push(exchanged);
    lens::through(random, &document, calls);
}

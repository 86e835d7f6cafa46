//! Rankings.

use super::{damaged, vary};
use crate::call::{Buffer, Call, Entry};
use crate::generate::{any_call, flat, random_stars, simple_stars, View, MOST_TOLERANCE};
use crate::random::Random;
use crate::sky;

pub(super) fn ranking_call(
    random: &Random,
    directions: &[[i32; 3]],
    stars: &[[i32; 3]],
    tolerance: u64,
    spare: usize,
) -> Call {
    let mut call = Call::new(Entry::Ranking);
    call.directions = Buffer::of(&flat(directions));
    call.catalogue = Buffer::of(&sky::catalogue(random, stars));
    call.tolerance = tolerance;
    call.room = Buffer::repeat(directions.len() * stars.len() + spare, &[9_999, 3, 65_535]);
    call
}

/// A view of a random sky with a ranking asked for.
pub(super) fn ranked_view(random: &Random, records: usize, known: usize, unknown: usize) -> Call {
    let view = View::of(random, random_stars(random, records), known, unknown);
    let tolerance = (view.least_tolerance() + random.pick(&[0, 1_000_000_000, 1_000_000_000_000_000]))
        .min(MOST_TOLERANCE);
    ranking_call(random, &view.directions, &view.stars, tolerance, random.pick(&[0, 0, 1, 40]))
}

pub fn rankings(random: &Random, calls: &mut Vec<Call>) {
    for known in 0..=8 {
        for records in [8, 9, 20, 33] {
            calls.push(ranked_view(random, records, known, 0));
        }
        calls.push(ranked_view(random, 12, known / 2, known - known / 2));
    }
    largest(random, calls);
    few(random, calls);
    ranking_limits(random, calls);
}

/// The largest catalogue, with the most directions and with few, and with as many votes as can be.
fn largest(random: &Random, calls: &mut Vec<Call>) {
    // The largest catalogue, with the most directions and with few.
    for (known, unknown) in [(8, 0), (6, 2), (2, 0), (0, 0), (1, 0), (8, 0)] {
        calls.push(ranked_view(random, 512, known, unknown));
    }
    let exact = random_stars(random, 512);
    calls.push(ranking_call(random, &exact[100..108], &exact, 0, 104));
    // Every vote there can be: 7 x 511 for each star.
    calls.push(ranking_call(random, &[exact[0]; 8], &[exact[0]; 512], MOST_TOLERANCE, 0));
    // A crowded patch in a full sky: votes of many different sizes.
    for crowd in [100, 300, 480] {
        let middle = sky::anywhere(random);
        let mut stars: Vec<[i32; 3]> = (0..crowd).map(|_| sky::near(random, middle, 8)).collect();
        stars.extend(random_stars(random, 512 - crowd));
        random.shuffle(&mut stars);
        let directions: Vec<[i32; 3]> = (0..8).map(|_| sky::near(random, middle, 8)).collect();
        calls.push(ranking_call(random, &directions, &stars, MOST_TOLERANCE, 0));
    }
}

/// One star only; equal stars; all pairs agree; none does; the largest dot products.
fn few(random: &Random, calls: &mut Vec<Call>) {
    // One star only; equal stars; all pairs agree; none does.
    let axes = [[1_000_000_000, 0, 0], [0, 1_000_000_000, 0], [0, 0, 1_000_000_000]];
    for tolerance in [0, MOST_TOLERANCE] {
        calls.push(ranking_call(random, &axes, &axes[..1], tolerance, 2));
        calls.push(ranking_call(random, &axes, &axes, tolerance, 0));
        calls.push(ranking_call(random, &axes[..1], &axes, tolerance, 0));
        calls.push(ranking_call(random, &axes, &[axes[0]; 12], tolerance, 0));
        calls.push(ranking_call(random, &[axes[2]; 8], &[axes[0]; 12], tolerance, 0));
        calls.push(ranking_call(random, &[[0; 3]; 4], &axes, tolerance, 0));
    }
    // Largest dot products on both sides.
    let unit = 1_000_000_000;
    let corners = [[unit; 3], [-unit; 3], [unit, -unit, unit], [unit, unit, -unit], [-unit, unit, unit]];
    for tolerance in [0, 1, MOST_TOLERANCE - 1, MOST_TOLERANCE] {
        let stars = simple_stars(random, 14);
        calls.push(ranking_call(random, &corners, &stars, tolerance, 1));
        calls.push(ranking_call(random, &simple_stars(random, 8), &stars, tolerance, 0));
    }
    // A pair that differs by exactly the tolerance, and by one more.
    for (tolerance, seen) in [(600_000_000, 6), (599_999_999, 6), (0, 0)] {
        let stars = [[unit, 0, 0], [0, unit, 0], [0, 0, unit]];
        let seen = [[100_000_000, seen, 0], [0, 100_000_000, 0]];
        calls.push(ranking_call(random, &seen, &stars, tolerance, 0));
    }
}

/// The room, the tolerance and the directions at their limits and beyond.
fn ranking_limits(random: &Random, calls: &mut Vec<Call>) {
    for _ in 0..150 {
        calls.push(any_call(random, Entry::Ranking));
    }
    // The room: short by one, exact, longer.
    let sound = ranked_view(random, 7, 4, 1);
    let words = sound.directions.len / 3 * 7;
    vary(calls, &sound, &[0, 1, 7, words - 1, words, words + 1, 4_200], |call, len| {
        call.room = call.room.resized(len)
    });
    let tolerances = [0, 1, MOST_TOLERANCE, MOST_TOLERANCE + 1, (1 << 63) - 1, 1 << 63, u64::MAX];
    vary(calls, &sound, &tolerances, |call, tolerance| call.tolerance = tolerance);
    direction_lists(calls, &sound);
    let sound = || ranked_view(random, 8 + random.below(5), random.below(7), random.below(2));
    damaged(random, Entry::Ranking, 25, 80, sound, calls);
}

/// Lists of directions of every length, and with a component at and beyond the limit at every place.
pub(super) fn direction_lists(calls: &mut Vec<Call>, sound: &Call) {
    for len in (0..=40).filter(|&len| len % 3 != 0 || len > 21) {
        vary(calls, sound, &[len], |call, len| {
            call.directions = Buffer::repeat(len, &[600_000_000, 0, -800_000_000, 5])
        });
    }
    for component in [1_000_000_000, 1_000_000_001, -1_000_000_000, -1_000_000_001, i32::MAX, i32::MIN] {
        vary(calls, sound, &[0, 1, 2, sound.directions.len - 1], |call, place| {
            call.directions.set(place, component)
        });
    }
}

//! Indexes, and rankings and chains by them.

use super::chain::{crowded_scene, document_chain, scene};
use super::ranking::{ranked_view, ranking_call};
use super::{damaged, lens, vary};
use crate::call::{Buffer, Call, Entry};
use crate::catalogue::RECORD_BYTES;
use crate::generate::{
    any_floor, by_index, index_bytes, index_call, lend_index, mirrored_catalogue, random_stars, simple_stars,
    MOST_TOLERANCE,
};
use crate::random::Random;
use crate::sky;

const UNIT: i32 = 1_000_000_000;
const AXES: [[i32; 3]; 3] = [[UNIT, 0, 0], [0, UNIT, 0], [0, 0, UNIT]];
/// Stars with two pairs of the dot product 0.6, and two of 0.8.
const STARS: [[i32; 3]; 5] =
    [[UNIT, 0, 0], [600_000_000, 800_000_000, 0], [0, UNIT, 0], [0, 0, UNIT], [0, 600_000_000, 800_000_000]];

/// The stars' index asked for with this floor and this much room beyond it.
fn index_with(random: &Random, stars: &[[i32; 3]], floor: i64, spare: usize) -> Call {
    let mut call = index_call(random, stars);
    call.floor = floor;
    let len = index_bytes(&call.catalogue.values(), floor).len();
    call.bytes = Buffer::repeat(len + spare, &[0xA5, 7, 255]);
    call
}

/// The dot products of the stars' pairs.
pub(super) fn pair_dots(stars: &[[i32; 3]]) -> Vec<i64> {
    let mut dots = Vec::new();
    for (second, star) in stars.iter().enumerate() {
        for other in &stars[..second] {
            dots.push((0..3).map(|k| i64::from(star[k]) * i64::from(other[k])).sum());
        }
    }
    dots.sort_unstable();
    dots
}

pub fn indexes(random: &Random, calls: &mut Vec<Call>) {
    index_floors(random, calls);
    tied_and_many(random, calls);
    // The room: every length about the index's.
    let sound = index_with(random, &random_stars(random, 4), i64::MIN, 0);
    for len in [0, 1, 12, 59, 60, 61, 70, 71, 72, 73, 83, 84, 200] {
        vary(calls, &sound, &[len], |call, len| call.bytes = call.bytes.resized(len));
    }
    let sound = || index_call(random, &random_stars(random, 2 + random.below(6)));
    damaged(random, Entry::Index, 25, 40, sound, calls);
}

/// Every floor that makes a difference, with the largest dot products too.
fn index_floors(random: &Random, calls: &mut Vec<Call>) {
    // No pair, one pair, and three of equal dot products.
    for stars in [&AXES[..1], &AXES[..2], &AXES] {
        for floor in [i64::MIN, -1, 0, 1, i64::MAX] {
            calls.push(index_with(random, stars, floor, random.pick(&[0, 5])));
        }
    }
    // Every floor that makes a difference: at each dot product and beside it.
    for stars in [random_stars(random, 5), simple_stars(random, 6), vec![AXES[1]; 4]] {
        let mut floors: Vec<i64> =
            pair_dots(&stars).into_iter().flat_map(|dot| [dot - 1, dot, dot + 1]).collect();
        floors.sort_unstable();
        floors.dedup();
        for floor in floors {
            calls.push(index_with(random, &stars, floor, 3));
        }
    }
    // The largest dot products there are, of either sign.
    let opposite = |star: [i32; 3]| star.map(|component| -component);
    for star in [AXES[0], sky::LONGEST, sky::SHORTEST] {
        let stars = [star, star, opposite(star), star, opposite(star)];
        for floor in [i64::MIN, 0, 1_000_000_004_000_000_000, 1_000_000_004_000_000_001] {
            calls.push(index_with(random, &stars, floor, 1));
        }
    }
}

/// Pairs of equal dot products, and many stars.
fn tied_and_many(random: &Random, calls: &mut Vec<Call>) {
    // Ties everywhere: the numbers decide.
    for count in [2, 3, 12, 24] {
        calls.push(index_with(random, &vec![[600_000_000, 0, -800_000_000]; count], i64::MIN, 0));
        calls.push(index_with(random, &simple_stars(random, count), i64::MIN, 12));
        calls.push(index_with(random, &simple_stars(random, count), 0, 12));
    }
    // Numbers beyond a byte, with a floor that keeps few pairs, and with all pairs of a smaller catalogue.
    let many = random_stars(random, 512);
    let dots = pair_dots(&many);
    for kept in [0, 1, 40] {
        let floor = dots.get(dots.len() - kept).copied().unwrap_or(i64::MAX);
        calls.push(index_with(random, &many, floor, 30));
    }
    calls.push(index_with(random, &random_stars(random, 45), i64::MIN, 0));
    for _ in 0..60 {
        let count = 1 + random.below(20);
        let stars = random.pick(&[0, 1]);
        let stars = if stars == 0 { random_stars(random, count) } else { simple_stars(random, count) };
        calls.push(index_call(random, &stars));
    }
}

/// A view of a random sky with a ranking asked for by an index.
fn view_by_index(random: &Random, records: usize, known: usize, unknown: usize) -> Call {
    by_index(random, ranked_view(random, records, known, unknown))
}

pub fn rankings_by_index(random: &Random, calls: &mut Vec<Call>) {
    for known in 0..=8 {
        for records in [8, 12, 17] {
            calls.push(view_by_index(random, records, known, 0));
        }
        calls.push(view_by_index(random, 10, known / 2, known - known / 2));
    }
    at_the_floor(random, calls);
    any_floors(random, calls);
    by_index_limits(random, calls);
}

/// Pairs at the floor, and pairs that differ by the tolerance, or nearly.
fn at_the_floor(random: &Random, calls: &mut Vec<Call>) {
    // A pair that passes from the catalogue to the index just at the floor, for every tolerance about it.
    let half = 600_000_000_000_000_000;
    for tolerance in [0, 1, 1_000_000, MOST_TOLERANCE] {
        for beside in [-2, -1, 0, 1, 2] {
            let mut call = ranking_call(random, &STARS[..3], &STARS, tolerance, 1);
            call.entry = Entry::RankingByIndex;
            lend_index(&mut call, half - tolerance as i64 + beside);
            calls.push(call);
        }
    }
    // Pairs that differ by exactly the tolerance and by one more, in the index and beside it.
    for seen in [[600_000_001, 800_000_000, 0], [599_999_999, 800_000_000, 0]] {
        for tolerance in [999_999_999, 1_000_000_000, 1_000_000_001] {
            for floor in [i64::MIN, half - 2_000_000_000, half, half + 1, i64::MAX] {
                let mut call = ranking_call(random, &[STARS[0], seen], &STARS, tolerance, 0);
                call.entry = Entry::RankingByIndex;
                lend_index(&mut call, floor);
                calls.push(call);
            }
        }
    }
}

/// Every floor, few and many stars, and the largest dot products.
fn any_floors(random: &Random, calls: &mut Vec<Call>) {
    // Every floor that makes a difference to a small view.
    let view = ranked_view(random, 6, 4, 1);
    let numbers = view.catalogue.values();
    for _ in 0..30 {
        let mut call = view.clone();
        call.entry = Entry::RankingByIndex;
        lend_index(&mut call, any_floor(random, &numbers));
        calls.push(call);
    }
    // One star, equal stars, and directions of the largest dot products.
    let corners = [[UNIT; 3], [-UNIT; 3], [UNIT, -UNIT, UNIT], [UNIT, UNIT, -UNIT]];
    for floor in [i64::MIN, -1, 0, 1, i64::MAX] {
        for (directions, stars) in [
            (&STARS[..3], &STARS[..1]),
            (&STARS[..1], &STARS[..]),
            (&STARS[..0], &STARS[..]),
            (&corners[..], &STARS[..]),
            (&[[UNIT, 0, 0]; 8][..], &[[UNIT, 0, 0]; 10][..]),
        ] {
            for tolerance in [0, MOST_TOLERANCE] {
                let mut call = ranking_call(random, directions, stars, tolerance, 2);
                call.entry = Entry::RankingByIndex;
                lend_index(&mut call, floor);
                calls.push(call);
            }
        }
    }
    // The largest catalogue: a floor that keeps few pairs, some directions close enough to be voted by them.
    let many = random_stars(random, 512);
    let dots = pair_dots(&many);
    let mut directions = many[..4].to_vec();
    directions.extend((0..4).map(|_| sky::near(random, many[9], 1_000)));
    let mut call = ranking_call(random, &directions, &many, 1_000_000_000_000, 0);
    call.entry = Entry::RankingByIndex;
    lend_index(&mut call, dots[dots.len() - 300]);
    calls.push(call);
}

/// The room, the tolerance, the directions and the index at their limits and beyond.
fn by_index_limits(random: &Random, calls: &mut Vec<Call>) {
    // The room, the tolerance, the directions.
    let sound = view_by_index(random, 7, 4, 1);
    let words = sound.directions.len / 3 * 7;
    vary(calls, &sound, &[0, 1, words - 1, words, words + 1, 4_200], |call, len| {
        call.room = call.room.resized(len)
    });
    let tolerances = [0, MOST_TOLERANCE, MOST_TOLERANCE + 1, 1 << 63, u64::MAX];
    vary(calls, &sound, &tolerances, |call, tolerance| call.tolerance = tolerance);
    index_faults(random, calls);
    let sound = || view_by_index(random, 3 + random.below(6), random.below(7), random.below(2));
    damaged(random, Entry::RankingByIndex, 12, 60, sound, calls);
}

/// A small index with a fault at every byte, every record left out, and every length.
fn index_faults(random: &Random, calls: &mut Vec<Call>) {
    let stars =
        [[1_000_000_000, 0, 0], [0, 0, 1_000_000_000], [0, 1_000_000_000, 0], [600_000_000, 0, 800_000_000]];
    let mut sound = ranking_call(random, &stars[1..], &stars, 1_000_000, 0);
    sound.entry = Entry::RankingByIndex;
    lend_index(&mut sound, 0);
    let whole = sound.index.values();
    for (place, byte) in whole.iter().enumerate() {
        vary(calls, &sound, &[1, 128], |call, bit| call.index.set(place, byte ^ bit));
    }
    for at in (0..whole.len()).step_by(12) {
        let without = [&whole[..at], &whole[at + 12..]].concat();
        vary(calls, &sound, &[&without[..]], |call, bytes| call.index = Buffer::of(bytes));
        let twice = [&whole[..at + 12], &whole[at..]].concat();
        vary(calls, &sound, &[&twice[..]], |call, bytes| call.index = Buffer::of(bytes));
        if at > 0 {
            let mut exchanged = whole.clone();
            exchanged[at - 12..at + 12].rotate_left(12);
            vary(calls, &sound, &[&exchanged[..]], |call, bytes| call.index = Buffer::of(bytes));
        }
    }
    let lengths = [0, 1, 11, 12, 71, 72, 73, 84, 600];
    vary(calls, &sound, &lengths, |call, len| call.index = call.index.resized(len));
    // Floors that ask for another index, and floors that ask for the same.
    let floors = [i64::MIN, -1, 0, 1, 599_999_999_999_999_999, 600_000_000_000_000_001, i64::MAX];
    vary(calls, &sound, &floors, |call, floor| call.floor = floor);
    let empty: &[u8] = &[];
    vary(calls, &sound, &[800_000_000_000_000_000, 800_000_000_000_000_001, i64::MAX], |call, floor| {
        call.floor = floor;
        call.index = Buffer::of(empty);
    });
    // The index before the directions, the tolerance and the room, and after the catalogue.
    vary(calls, &sound, &[0, 1, 2, 3, 4], |call, fault| {
        call.index.set(3, 1);
        match fault {
            0 => call.directions = call.directions.resized(8),
            1 => call.tolerance = MOST_TOLERANCE + 1,
            2 => call.room = call.room.resized(1),
            3 => call.catalogue = call.catalogue.resized(4 * RECORD_BYTES - 1),
            _ => call.catalogue.set(RECORD_BYTES, 255),
        }
    });
}

/// The dot products of the document's stars are 0.28 and twice 0.64 of the unit's square.
const WIDE: i64 = 280_000_000_000_000_000;
const NEAR: i64 = 640_000_000_000_000_000;

pub fn chains_by_index(random: &Random, calls: &mut Vec<Call>) {
    document_by_index(calls);
    scenes_by_index(random, calls);
    let sound = || {
        let call = scene(random, 40, 30, 3 + random.below(2), 4 + random.below(3));
        by_index(random, call)
    };
    damaged(random, Entry::ChainByIndex, 10, 60, sound, calls);
    let crowded = || {
        let call = crowded_scene(random);
        by_index(random, call)
    };
    damaged(random, Entry::ChainByIndex, 2, 10, crowded, calls);
    let mut document = Call { entry: Entry::ChainByIndex, ..document_chain() };
    lend_index(&mut document, WIDE);
    lens::through(random, &document, calls);
}

/// The document's chain with every floor that makes a difference, and other limits.
fn document_by_index(calls: &mut Vec<Call>) {
    let mut document = Call { entry: Entry::ChainByIndex, ..document_chain() };
    for floor in [i64::MIN, 0, WIDE - 1, WIDE, WIDE + 1, NEAR - 1, NEAR, NEAR + 1, i64::MAX] {
        for tolerance in [0, 1, MOST_TOLERANCE] {
            let mut call = document.clone();
            call.tolerance = tolerance;
            lend_index(&mut call, floor);
            calls.push(call);
        }
    }
    lend_index(&mut document, WIDE);
    vary(calls, &document, &[0, 1, 12, 35, 36, 37, 48], |call, len| call.index = call.index.resized(len));
    vary(calls, &document, &[0, WIDE, WIDE + 1, i64::MIN, i64::MAX], |call, floor| call.floor = floor);
    vary(calls, &document, &[2, 3, 4, 8, 9], |call, needed| call.needed = needed);
    vary(calls, &document, &[0, 4_095, 4_096, 4_200], |call, len| call.room = call.room.resized(len));
}

/// Skies: small, the largest, crowded and mirrored.
fn scenes_by_index(random: &Random, calls: &mut Vec<Call>) {
    for visible in 3..=8 {
        for records in [visible, 15] {
            let call = scene(random, 80, 60, visible, records);
            calls.push(by_index(random, call));
        }
    }
    let mut largest = scene(random, 160, 120, 8, 512);
    largest.entry = Entry::ChainByIndex;
    lend_index(&mut largest, 999_800_000_000_000_000);
    calls.push(largest);
    for _ in 0..40 {
        let call = crowded_scene(random);
        calls.push(by_index(random, call));
    }
    for _ in 0..12 {
        let mut mirrored = scene(random, 64, 64, 4, 6);
        mirrored.catalogue = mirrored_catalogue(&mirrored.catalogue);
        calls.push(by_index(random, mirrored));
    }
}

//! Searches.

use super::ranking::direction_lists;
use super::{damaged, vary};
use crate::call::{Buffer, Call, Entry};
use crate::generate::{
    any_call, flat, random_stars, rising_ranking, shuffled_ranking, simple_stars, voted_ranking, View,
    MOST_TOLERANCE,
};
use crate::random::Random;
use crate::sky;

pub(super) fn search_call(
    random: &Random,
    directions: &[[i32; 3]],
    stars: &[[i32; 3]],
    needed: u64,
    tolerance: u64,
    ranking: &[u16],
) -> Call {
    let mut call = Call::new(Entry::Search);
    call.directions = Buffer::of(&flat(directions));
    call.catalogue = Buffer::of(&sky::catalogue(random, stars));
    call.needed = needed;
    call.tolerance = tolerance;
    call.ranking = Buffer::of(ranking);
    call
}

/// The bench set's searches, L to O.
pub(super) fn bench_searches(random: &Random) -> Vec<Call> {
    let unit = 1_000_000_000;
    let axes = [[unit, 0, 0], [0, unit, 0], [0, 0, unit]];
    let led = [[600_000_000, 800_000_000, 0], axes[0], axes[1], axes[2]];
    vec![
        search_call(random, &axes, &axes, 3, 0, &[0, 1, 2, 0, 1, 2, 0, 1, 2]),
        search_call(random, &axes, &axes, 3, 0, &[2, 1, 0, 0, 1, 2, 0, 1, 2]),
        search_call(random, &axes[..2], &axes, 3, 0, &[0, 1, 2, 0, 1, 2]),
        search_call(random, &led, &axes, 3, 0, &[0, 1, 2, 0, 1, 2, 0, 1, 2, 0, 1, 2]),
    ]
}

/// A view and a search over it, with rows of one of the kinds.
pub(super) fn viewed_search(
    random: &Random,
    stars: Vec<[i32; 3]>,
    known: usize,
    unknown: usize,
    rows: usize,
) -> Call {
    view_search(random, View::of(random, stars, known, unknown), known, rows)
}

fn view_search(random: &Random, view: View, known: usize, rows: usize) -> Call {
    let needed = random.between(3, known.clamp(3, 8) as i64) as u64;
    let mut call = view.search(random, needed);
    let (directions, records) = (view.directions.len(), view.stars.len());
    let mut ranking = match rows {
        0 => voted_ranking(&view.directions, &call.catalogue.values(), call.tolerance),
        1 => rising_ranking(directions, records),
        2 => shuffled_ranking(random, directions, records),
        3 => view.ranking_with_truth_last(random),
        _ => voted_ranking(&view.directions, &call.catalogue.values(), call.tolerance),
    };
    match rows {
        // The vote's rows backwards: the best star last.
        4 => ranking.chunks_mut(records).for_each(|row| row.reverse()),
        // The vote's rows, each moved on by one place.
        5 => ranking.chunks_mut(records).for_each(|row| row.rotate_right(1)),
        _ => {}
    }
    call.ranking = Buffer::of(&ranking);
    call
}

/// The same search after one of its true stars has been taken out of the catalogue.
pub(super) fn without_a_star(random: &Random, known: usize, records: usize) -> Call {
    let mut view = View::of(random, random_stars(random, records), known, 0);
    let lost = view.truth[random.below(known)].unwrap();
    view.stars.remove(lost);
    let needed = random.pick(&[3, known as u64, known as u64 - 1]).max(3);
    view.truth = vec![None; known];
    let mut call = view.search(random, needed);
    call.tolerance = random.pick(&[10_000_000_000, 1_000_000_000_000_000, MOST_TOLERANCE]);
    call.ranking = Buffer::of(&voted_ranking(&view.directions, &call.catalogue.values(), call.tolerance));
    call
}

/// A false direction before or among directions that have their stars.
pub(super) fn led_by_a_false_one(random: &Random, known: usize, records: usize) -> Call {
    let mut view = View::of(random, random_stars(random, records), known, 0);
    let place = random.pick(&[0, 0, 1, known]);
    view.directions.insert(place, sky::anywhere(random));
    view.truth.insert(place, None);
    let mut call = view.search(random, 3 + random.below(known - 2) as u64);
    call.ranking = Buffer::of(&voted_ranking(&view.directions, &call.catalogue.values(), call.tolerance));
    call
}

pub fn searches(random: &Random, calls: &mut Vec<Call>) {
    calls.extend(bench_searches(random));
    views(random, calls);
    turning_back(random, calls);
    alike(random, calls);
    search_limits(random, calls);
    mirrored_searches(random, calls);
}

/// Views of every size, with rows of every kind.
fn views(random: &Random, calls: &mut Vec<Call>) {
    for rows in 0..6 {
        for known in 3..=8 {
            for _ in 0..3 {
                let unknown = random.below(9 - known).min(2);
                let records = known + random.below(14);
                calls.push(viewed_search(random, random_stars(random, records), known, unknown, rows));
            }
            // Few angles: many assignments fit, and the order decides.
            for _ in 0..4 {
                let records = known + random.below(5);
                let mut call = viewed_search(random, simple_stars(random, records), known, 0, rows);
                call.tolerance = random.pick(&[call.tolerance, 0, 1_000_000_000_000]);
                calls.push(call);
            }
            // Straight from the catalogue's own stars, tolerance 0.
            let stars = simple_stars(random, 12);
            let ranking = shuffled_ranking(random, known, 12);
            calls.push(search_call(random, &stars[..known], &stars, 3, 0, &ranking));
        }
    }
    for rows in [0, 0, 0, 5] {
        calls.push(viewed_search(random, random_stars(random, 512), 8, 0, rows));
    }
    let mut large = viewed_search(random, random_stars(random, 512), 6, 2, 0);
    large.needed = 6;
    calls.push(large);
}

/// Searches that have to turn back, and such as find nothing.
fn turning_back(random: &Random, calls: &mut Vec<Call>) {
    for known in 3..=8 {
        for _ in 0..6 {
            calls.push(without_a_star(random, known, 10 + random.below(10)));
            calls.push(led_by_a_false_one(random, known.min(7), 10 + random.below(12)));
        }
        // The true match last in each row of a larger catalogue.
        let mut last = viewed_search(random, random_stars(random, 60), known, 0, 3);
        last.needed = known as u64;
        calls.push(last);
        for records in [30, 100] {
            calls.push(viewed_search(random, random_stars(random, records), known, 0, 3));
        }
        // Nothing fits, and every way has to be tried.
        let mut lost = viewed_search(random, random_stars(random, 40), 0, known, 1);
        lost.tolerance = 1_000_000_000_000;
        calls.push(lost);
        // Two stars stand in one place: they are still two stars.
        let mut stars = random_stars(random, 8);
        stars[1] = stars[0];
        stars[5] = stars[4];
        calls.push(viewed_search(random, stars, known.min(8), 0, 2));
    }
    // Long searches: the true match last in each row, and none at all.
    for (records, known, unknown) in [(250, 8, 0), (300, 6, 2), (150, 0, 8), (200, 0, 5)] {
        let mut long = viewed_search(random, random_stars(random, records), known, unknown, 3);
        long.tolerance = 1_000_000_000_000;
        long.needed = 3;
        calls.push(long);
    }
}

/// Few stars, and stars that are all alike.
fn alike(random: &Random, calls: &mut Vec<Call>) {
    // Fewer stars than directions: one star must not serve two.
    for count in 1..=4 {
        let stars = simple_stars(random, count);
        let directions: Vec<[i32; 3]> = (0..6).map(|_| random.pick(&stars)).collect();
        for tolerance in [0, MOST_TOLERANCE] {
            calls.push(search_call(random, &directions, &stars, 3, tolerance, &rising_ranking(6, count)));
        }
    }
    // Everything agrees: the first places that are all different.
    for _ in 0..12 {
        let middle = sky::anywhere(random);
        let stars: Vec<[i32; 3]> = (0..9).map(|_| sky::near(random, middle, 1_000)).collect();
        let ranking = shuffled_ranking(random, 8, 9);
        calls.push(search_call(
            random,
            &stars[..8],
            &stars,
            random.between(3, 8) as u64,
            MOST_TOLERANCE,
            &ranking,
        ));
    }
    // Each new direction agrees with the last one placed, but not with all.
    for _ in 0..40 {
        let stars = simple_stars(random, 8);
        let directions = simple_stars(random, 5);
        calls.push(search_call(random, &directions, &stars, 3, 0, &shuffled_ranking(random, 5, 8)));
    }
    for _ in 0..200 {
        calls.push(any_call(random, Entry::Search));
    }
}

/// Numbers and buffers at their limits and beyond.
fn search_limits(random: &Random, calls: &mut Vec<Call>) {
    let sound = viewed_search(random, random_stars(random, 6), 5, 0, 2);
    vary(
        calls,
        &sound,
        &[0, 1, 2, 3, 4, 5, 6, 7, 8, 9, 259, (1 << 32) + 3, 1 << 63, u64::MAX],
        |call, needed| {
            call.needed = needed;
        },
    );
    let tolerances = [0, 1, MOST_TOLERANCE, MOST_TOLERANCE + 1, (1 << 63) - 1, 1 << 63, u64::MAX];
    vary(calls, &sound, &tolerances, |call, tolerance| call.tolerance = tolerance);
    direction_lists(calls, &sound);
    ranking_faults(calls, &sound);
    let sound = || {
        viewed_search(
            random,
            random_stars(random, 4 + random.below(6)),
            3 + random.below(2),
            random.below(2),
            2,
        )
    };
    damaged(random, Entry::Search, 25, 120, sound, calls);
    // No directions at all: with no ranking 12, with one 11.
    let none = search_call(random, &[], &[[1_000_000_000, 0, 0]], 3, 0, &[]);
    vary(calls, &none, &[0, 1, 3], |call, len| call.ranking = Buffer::repeat(len, &[0]));
    vary(calls, &none, &[2, 9], |call, needed| call.needed = needed);
}

/// The thousandths' triple products of these directions are exactly 10^12 and 10^12 - 1; the digits beyond the
/// thousands are cut off.
const LIMIT: [[i32; 3]; 3] =
    [[1_000_000_000, 0, 0], [0, 1_000_000_000, 0], [600_000_000, 800_000_000, 1_000]];
const BELOW_LIMIT: [[i32; 3]; 3] =
    [[999_999_999, 0, 0], [0, 999_999_999, 10_999], [600_000_999, 799_999_999, 9_999]];

/// Searches that turn on mirror images.
fn mirrored_searches(random: &Random, calls: &mut Vec<Call>) {
    exchanged(random, calls);
    about_the_limit(random, calls);
    mirrored_views(random, calls);
}

/// The bench listing's search and the axes, with stars exchanged.
fn exchanged(random: &Random, calls: &mut Vec<Call>) {
    // The bench listing's search, with two stars exchanged.
    let seen = [[-600_000_000, 0, 800_000_000], [600_000_000, 0, 800_000_000], [0, 600_000_000, 800_000_000]];
    let exchanged = [seen[1], seen[0], seen[2]];
    calls.push(search_call(random, &seen, &exchanged, 3, 0, &rising_ranking(3, 3)));
    // The axes with each first row: the odd turns are passed over.
    let axes = [[1_000_000_000, 0, 0], [0, 1_000_000_000, 0], [0, 0, 1_000_000_000]];
    for first in [[0, 1, 2], [0, 2, 1], [1, 0, 2], [1, 2, 0], [2, 0, 1], [2, 1, 0]] {
        let ranking = [first, [0, 1, 2], [0, 1, 2]].concat();
        calls.push(search_call(random, &axes, &axes, 3, 0, &ranking));
        calls.push(search_call(random, &axes.map(sky::mirror), &axes, 3, 0, &ranking));
    }
}

/// Products at the limit and beside it, on both sides, with either sign.
fn about_the_limit(random: &Random, calls: &mut Vec<Call>) {
    let upside_down = |[x, y, z]: [i32; 3]| [x, y, -z];
    for seen in [LIMIT, BELOW_LIMIT, LIMIT.map(upside_down), BELOW_LIMIT.map(upside_down)] {
        for z in [-2_000, -1_999, -1_001, -1_000, -999, 0, 999, 1_000, 1_999, 2_000] {
            let stars = [LIMIT[0], LIMIT[1], [600_000_000, 800_000_000, z]];
            let tolerance = 10_000_000_000_000;
            calls.push(search_call(random, &seen, &stars, 3, tolerance, &rising_ranking(3, 3)));
            // The same three in another order of the list.
            let turned = [seen[2], seen[0], seen[1]];
            calls.push(search_call(random, &turned, &stars, 3, tolerance, &rising_ranking(3, 3)));
        }
    }
}

/// Views in a mirror, and patches so small that some threes have no say.
fn mirrored_views(random: &Random, calls: &mut Vec<Call>) {
    for rows in 0..6 {
        for known in 3..=8 {
            let unknown = random.below(9 - known).min(2);
            let stars = random_stars(random, known + random.below(8));
            calls.push(mirrored_search(random, stars, known, unknown, rows));
            let stars = simple_stars(random, known + random.below(4));
            calls.push(mirrored_search(random, stars, known, 0, rows));
        }
    }
    // A patch so small that every pair agrees and the products of its threes lie about the limit: some threes
    // have a say and some have none.
    for k in 0..90 {
        let middle = sky::anywhere(random);
        let closeness = random.pick(&[100, 300, 600, 1_000, 2_000]);
        let stars: Vec<[i32; 3]> =
            (0..4 + random.below(6)).map(|_| sky::near(random, middle, closeness)).collect();
        let known = random.between(3, stars.len().min(8) as i64) as usize;
        let rows = random.pick(&[1, 2]);
        let mut call = match k % 3 {
            0 => viewed_search(random, stars, known, 0, rows),
            _ => mirrored_search(random, stars, known, 0, rows),
        };
        call.tolerance = MOST_TOLERANCE;
        calls.push(call);
    }
}

/// A view in a mirror and a search over it.
pub(super) fn mirrored_search(
    random: &Random,
    stars: Vec<[i32; 3]>,
    known: usize,
    unknown: usize,
    rows: usize,
) -> Call {
    view_search(random, View::of(random, stars, known, unknown).mirrored(), known, rows)
}

/// Rankings of every wrong length and with a fault at every place.
pub(super) fn ranking_faults(calls: &mut Vec<Call>, sound: &Call) {
    let len = sound.ranking.len;
    vary(calls, sound, &[0, 1, len - 1, len, len + 1, len + 6, 4_200], |call, len| {
        call.ranking = call.ranking.resized(len)
    });
    for place in 0..len {
        vary(calls, sound, &[6, 65_535], |call, entry| call.ranking.set(place, entry));
        // The entry before it once more: a fault inside a row, often none where a row begins.
        let before = sound.ranking.get(place.saturating_sub(1));
        vary(calls, sound, &[before], |call, entry| call.ranking.set(place, entry));
    }
    // Two faults: the first place is given.
    vary(calls, sound, &[(20, 7), (7, 20), (29, 0)], |call, (one, other)| {
        call.ranking.set(one, 6);
        call.ranking.set(other, 600);
    });
}

//! Rivals of searches.

use super::search::{
    bench_searches, led_by_a_false_one, mirrored_search, ranking_faults, search_call, viewed_search,
    without_a_star,
};
use super::{damaged, vary};
use crate::call::{Buffer, Call, Entry};
use crate::dense;
use crate::generate::{
    add_doubles, any_call, any_rival, random_stars, rising_ranking, shuffled_ranking, simple_stars,
    MOST_TOLERANCE,
};
use crate::random::Random;
use crate::sky;

const UNIT: i32 = 1_000_000_000;
const AXES: [[i32; 3]; 3] = [[UNIT, 0, 0], [0, UNIT, 0], [0, 0, UNIT]];
/// Three stars whose pairs are all different: with tolerance 0 each has its own place.
const APART: [[i32; 3]; 3] = [[UNIT, 0, 0], [600_000_000, 800_000_000, 0], [0, 600_000_000, 800_000_000]];

pub fn rivals(random: &Random, calls: &mut Vec<Call>) {
    let mut searches = bench_searches(random);
    turned_axes(random, &mut searches);
    none_is_no_difference(random, &mut searches);
    late_doubles(random, &mut searches);
    skies(random, &mut searches);
    crowds(random, &mut searches);
    calls.extend(searches.into_iter().map(|call| Call { entry: Entry::Rival, ..call }));
    for _ in 0..120 {
        calls.push(any_call(random, Entry::Rival));
    }
    refusals(random, calls);
}

/// The axes take each other's place in turns; odd turns are mirror images. With each first row another is ours.
fn turned_axes(random: &Random, calls: &mut Vec<Call>) {
    for first in [[0, 1, 2], [0, 2, 1], [1, 0, 2], [1, 2, 0], [2, 0, 1], [2, 1, 0]] {
        for last in [[0, 1, 2], [2, 1, 0]] {
            let ranking = [first, [0, 1, 2], last].concat();
            calls.push(search_call(random, &AXES, &AXES, 3, 0, &ranking));
            calls.push(search_call(random, &AXES.map(sky::mirror), &AXES, 3, 0, &ranking));
        }
    }
}

/// Assignments that fit and differ only where one of the two has none: fewer stars of ours, or another direction
/// that stands for the same star.
fn none_is_no_difference(random: &Random, calls: &mut Vec<Call>) {
    for twice in APART {
        for place in 0..=3 {
            let mut directions = APART.to_vec();
            directions.insert(place, twice);
            for needed in [3, 4] {
                calls.push(search_call(
                    random,
                    &directions,
                    &APART,
                    needed,
                    0,
                    &shuffled_ranking(random, 4, 3),
                ));
            }
        }
    }
    // All eight have their stars, and any three of them would do.
    for _ in 0..6 {
        let mut call = viewed_search(random, random_stars(random, 8), 8, 0, 2);
        call.needed = 3;
        calls.push(call);
    }
}

/// A second star in the place of the first, at each place of each row.
fn late_doubles(random: &Random, calls: &mut Vec<Call>) {
    for double in 0..3 {
        let stars = [&APART[..], &[APART[double]]].concat();
        for place in 0..4 {
            let mut rows: Vec<u16> = rising_ranking(3, 4);
            // The double at this place of its direction's row, the others behind it in their order.
            let row = &mut rows[4 * double..4 * double + 4];
            row[place..].rotate_right(1);
            calls.push(search_call(random, &APART, &stars, 3, 0, &rows));
        }
    }
    // Two doubles, of which only one can stand beside the other stars; and a double that is a mirror image.
    let below = [0, 600_000_000, -800_000_000];
    for stars in [[APART[0], APART[1], APART[2], below], [below, APART[1], APART[2], APART[0]]] {
        for tolerance in [0, 1_000_000_000_000] {
            calls.push(search_call(random, &APART, &stars, 3, tolerance, &shuffled_ranking(random, 3, 4)));
        }
    }
}

/// Skies as a camera sees them, most often alone, with doubles, without a star, behind a false direction, in a mirror.
fn skies(random: &Random, calls: &mut Vec<Call>) {
    for rows in 0..6 {
        for known in 3..=8 {
            let unknown = random.below(9 - known).min(2);
            let stars = random_stars(random, known + random.below(8));
            let mut call = viewed_search(random, stars, known, unknown, rows);
            calls.push(call.clone());
            add_doubles(random, &mut call);
            calls.push(call);
            let stars = simple_stars(random, known + random.below(4));
            let mut call = viewed_search(random, stars, known, 0, rows);
            call.tolerance = random.pick(&[call.tolerance, 0, 1_000_000_000_000]);
            calls.push(call);
            let stars = simple_stars(random, known + random.below(3));
            calls.push(mirrored_search(random, stars, known, 0, rows));
        }
    }
    for known in 3..=8 {
        calls.push(without_a_star(random, known, 10 + random.below(6)));
        calls.push(led_by_a_false_one(random, known.min(7), 10 + random.below(6)));
    }
    // The largest catalogue, alone and with doubles.
    let mut large = viewed_search(random, random_stars(random, 500), 8, 0, 0);
    calls.push(large.clone());
    add_doubles(random, &mut large);
    calls.push(large);
}

/// Everything agrees, or much does; fewer stars than directions; a patch whose threes tell just about their way.
fn crowds(random: &Random, calls: &mut Vec<Call>) {
    for count in 1..=5 {
        let stars = simple_stars(random, count);
        let directions: Vec<[i32; 3]> = (0..6).map(|_| random.pick(&stars)).collect();
        for tolerance in [0, MOST_TOLERANCE] {
            calls.push(search_call(random, &directions, &stars, 3, tolerance, &rising_ranking(6, count)));
        }
    }
    for k in 0..40 {
        let middle = sky::anywhere(random);
        let closeness = random.pick(&[100, 300, 600, 1_000, 2_000]);
        let stars: Vec<[i32; 3]> =
            (0..3 + random.below(5)).map(|_| sky::near(random, middle, closeness)).collect();
        let known = random.between(3, stars.len().min(8) as i64) as usize;
        let mut call = match k % 2 {
            0 => viewed_search(random, stars, known, 0, 2),
            _ => mirrored_search(random, stars, known, 0, 2),
        };
        call.tolerance = MOST_TOLERANCE;
        calls.push(call);
    }
    for _ in 0..60 {
        calls.push(dense::search(random, 4 + random.below(4), 4 + random.below(8)));
    }
}

fn refusals(random: &Random, calls: &mut Vec<Call>) {
    let mut sound = viewed_search(random, random_stars(random, 6), 5, 0, 2);
    sound.entry = Entry::Rival;
    vary(calls, &sound, &[0, 2, 3, 5, 6, 8, 9, u64::MAX], |call, needed| call.needed = needed);
    let tolerances = [0, MOST_TOLERANCE, MOST_TOLERANCE + 1, 1 << 63, u64::MAX];
    vary(calls, &sound, &tolerances, |call, tolerance| call.tolerance = tolerance);
    ranking_faults(calls, &sound);
    let none = search_call(random, &[], &AXES, 3, 0, &[]);
    let none = Call { entry: Entry::Rival, ..none };
    vary(calls, &none, &[0, 1, 3], |call, len| call.ranking = Buffer::repeat(len, &[0]));
    damaged(random, Entry::Rival, 10, 40, || any_rival(random), calls);
}

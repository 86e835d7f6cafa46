//! Searches that are hard for any exact search: 512 stars and 8 directions for which much agrees and little
//! or nothing fits. The benchmark times them.

use crate::call::{Buffer, Call, Entry};
use crate::generate::{flat, random_stars, shuffled_ranking, voted_ranking, View, MOST_TOLERANCE};
use crate::random::Random;
use crate::root;
use crate::sky;

const STARS: usize = 512;
/// Lengths below are in millionths of the sphere's radius.
const MILLION: i64 = 1_000_000;
const SINE_1: i64 = 17_452;
const SINE_2: i64 = 34_899;
const SINE_5: i64 = 87_156;
const SINE_10: i64 = 173_648;
const SINE_20: i64 = 342_020;

const TRILLION: u64 = 1_000_000_000_000;

/// How far the directions of unrelated searches lie from the axis: 20, 10 and 5 degrees.
pub const REACHES: [i64; 3] = [SINE_20, SINE_10, SINE_5];

/// The searches by name, each with its needed count. The first two and the last find a match.
pub fn searches(random: &Random) -> Vec<(&'static str, Call)> {
    vec![
        ("search, true match first in each row, 3", truth_first(random)),
        ("search, true match last in each row, 3", truth_last(random)),
        ("search, no match, 3", without_match(random)),
        (
            "search, eight unrelated directions, T 10^14, 5",
            unrelated(random, 5, 100_000_000_000_000, SINE_20),
        ),
        ("search, seven agree widely, the eighth with nothing, 8", lone_direction(random)),
        ("search, two hopeless directions last, 7", hopeless_pair(random, false)),
        ("search, the same, two stars elsewhere agree, 7", hopeless_pair(random, true)),
        ("search, pairs agree, threes do not, 7", no_three(random)),
        (
            "search, two groups and their mirror images, T 10^12, 5",
            mirrored_groups(random, 5, TRILLION, 2_000),
        ),
        ("search, the same, denser, 6", mirrored_groups(random, 6, TRILLION, 1_000)),
        ("search, the same, T 4 x 10^12, 7", mirrored_groups(random, 7, 4 * TRILLION, 2_000)),
        (
            "search, the same, T 10^15: threes decide alone, 5",
            mirrored_groups(random, 5, 1_000 * TRILLION, 1_000),
        ),
    ]
}

/// Seven directions close together, which nearly any seven stars agree with, and one a quarter turn away.
fn lone_direction(random: &Random) -> Call {
    let mut directions = made(7, || in_cap(random, SINE_1));
    directions.push(at(MILLION, 0, 0));
    let stars = made(STARS, || in_cap(random, SINE_5));
    search(random, &directions, &stars, 8, MOST_TOLERANCE)
}

/// Five directions close together, two on either side 20 degrees away, and one far off: seven have to stand,
/// so the two on either side must, and they are last. Most stars are close together, the rest 20 degrees
/// away on one side. With `elsewhere`, two more stars far off agree with that pair and with nothing else.
fn hopeless_pair(random: &Random, elsewhere: bool) -> Call {
    let mut directions = made(5, || about(random, [0, 0], 10_000));
    directions.extend([at(SINE_20, 0, 939_693), at(-SINE_20, 0, 939_693), at(530_000, 830_000, -170_000)]);
    let mut stars = made(STARS - 62, || in_cap(random, SINE_2));
    stars.extend(made(60, || about(random, [260_000, 220_000], 10_000)));
    stars.extend(match elsewhere {
        true => [at(173_648, 0, -984_808), at(-500_000, 0, -866_025)],
        false => [in_cap(random, SINE_2), in_cap(random, SINE_2)],
    });
    search(random, &directions, &stars, 7, MOST_TOLERANCE)
}

/// The same directions. The stars are two dense groups 80 degrees apart and two sparse ones between them, 20
/// degrees from the nearer group and 40 from each other: any two directions have their stars, but beside a
/// star of one group the far sparse one is 60 degrees away.
fn no_three(random: &Random) -> Call {
    let mut directions = made(5, || about(random, [0, 0], 5_000));
    directions.extend([at(SINE_20, 0, 939_693), at(-SINE_20, 0, 939_693), at(530_000, 830_000, -170_000)]);
    let mut stars = Vec::new();
    for side in [1, -1] {
        stars.extend(made(226, || about(random, [side * 642_788, 0], 5_000)));
        stars.extend(made(30, || about(random, [side * SINE_20, 0], 5_000)));
    }
    search(random, &directions, &stars, 7, MOST_TOLERANCE / 2)
}

/// Eight stars of two dense groups that the catalogue has in a mirror alone: every two of them agree with their images, and
/// no three does.
pub fn mirrored_groups(random: &Random, needed: u64, tolerance: u64, reach: i64) -> Call {
    let (seen, stars) = groups(random, reach);
    search(random, &seen, &stars, needed, tolerance)
}

/// The same sky, and the images of those eight, which it has.
pub fn true_groups(random: &Random, needed: u64, tolerance: u64, reach: i64) -> Call {
    let (seen, stars) = groups(random, reach);
    let images: Vec<[i32; 3]> = seen.into_iter().map(sky::mirror).collect();
    search(random, &images, &stars, needed, tolerance)
}

/// Eight stars of two groups 20 degrees apart, and a sky of others of these groups, their images in a mirror, and the images
/// of the eight.
fn groups(random: &Random, reach: i64) -> (Vec<[i32; 3]>, Vec<[i32; 3]>) {
    let both =
        |count: usize| [1, -1].map(|side| made(count, || about(random, [side * SINE_10, 0], reach))).concat();
    let (eight, mut stars) = (both(4), both(STARS / 4 - 4));
    let images: Vec<[i32; 3]> = stars.iter().chain(&eight).map(|star| sky::mirror(*star)).collect();
    stars.extend(images);
    (eight, stars)
}

/// Directions that have nothing to do with the stars, within the given reach of the axis; stars within 20
/// degrees.
pub fn unrelated(random: &Random, needed: u64, tolerance: u64, reach: i64) -> Call {
    let directions = made(8, || in_cap(random, reach));
    let stars = made(STARS, || in_cap(random, SINE_20));
    search(random, &directions, &stars, needed, tolerance)
}

/// Eight stars of a sky of 512, in the vote's order.
fn truth_first(random: &Random) -> Call {
    let view = View::of(random, random_stars(random, STARS), 8, 0);
    let mut call = view.search(random, 3);
    let catalogue = call.catalogue.values();
    call.ranking = Buffer::of(&voted_ranking(&view.directions, &catalogue, call.tolerance));
    call
}

/// Eight stars of a sky of 512, each the last of its direction's row.
fn truth_last(random: &Random) -> Call {
    let view = View::of(random, random_stars(random, STARS), 8, 0);
    let mut call = view.search(random, 3);
    call.ranking = Buffer::of(&view.ranking_with_truth_last(random));
    call
}

/// Eight directions that belong to no star of the whole sky, in the vote's order.
fn without_match(random: &Random) -> Call {
    let view = View::of(random, random_stars(random, STARS), 0, 8);
    let mut call = view.search(random, 3);
    call.tolerance = 1_000_000_000_000;
    let catalogue = call.catalogue.values();
    call.ranking = Buffer::of(&voted_ranking(&view.directions, &catalogue, call.tolerance));
    call
}

fn search(random: &Random, directions: &[[i32; 3]], stars: &[[i32; 3]], needed: u64, tolerance: u64) -> Call {
    let mut call = Call::new(Entry::Search);
    call.directions = Buffer::of(&flat(directions));
    call.catalogue = Buffer::of(&sky::catalogue(random, stars));
    call.needed = needed;
    call.tolerance = tolerance;
    call.ranking = Buffer::of(&shuffled_ranking(random, directions.len(), stars.len()));
    call
}

fn made(count: usize, direction: impl Fn() -> [i32; 3]) -> Vec<[i32; 3]> {
    (0..count).map(|_| direction()).collect()
}

fn at(x: i64, y: i64, z: i64) -> [i32; 3] {
    sky::unit([x, y, z].map(i128::from))
}

/// On the near half of the sphere, above a point of the plane across its axis.
fn above(x: i64, y: i64) -> [i32; 3] {
    let height = root(i128::from(MILLION * MILLION - x * x - y * y));
    sky::unit([x.into(), y.into(), height])
}

/// Above a disc about the axis.
fn in_cap(random: &Random, sine: i64) -> [i32; 3] {
    loop {
        let [x, y] = [0; 2].map(|_| random.between(-sine, sine));
        if x * x + y * y <= sine * sine {
            return above(x, y);
        }
    }
}

/// Above a small square about a point.
fn about(random: &Random, [x, y]: [i64; 2], reach: i64) -> [i32; 3] {
    above(x + random.between(-reach, reach), y + random.between(-reach, reach))
}

//! Dense searches: crowded skies and wide tolerances, where much agrees and a search has to turn back often
//! before it knows its answer.

use crate::call::{Buffer, Call, Entry};
use crate::generate::{flat, rising_ranking, shuffled_ranking, voted_ranking, MOST_TOLERANCE};
use crate::random::Random;
use crate::sky::{self, Turn};

/// A dense search of a size that can be answered without looking far ahead.
pub fn any_search(random: &Random) -> Call {
    let stars = random.pick(&[6, 12, 25, 40]);
    search(random, 5 + random.below(4), 3 + random.below(stars))
}

/// A dense search with so many directions and stars.
pub fn search(random: &Random, directions: usize, stars: usize) -> Call {
    let crowd = Crowd::of(random);
    let mut stars: Vec<[i32; 3]> = (0..stars).map(|_| crowd.member(random)).collect();
    repeat_some(random, &mut stars);
    let true_percent = random.pick(&[0, 50, 90]);
    let mut directions: Vec<[i32; 3]> = (0..directions)
        .map(|_| if random.chance(true_percent) { random.pick(&stars) } else { crowd.member(random) })
        .collect();
    set_apart(random, &mut directions);
    if random.chance(30) {
        set_apart(random, &mut stars);
    }
    if random.chance(50) {
        let turn = Turn::random(random);
        directions.iter_mut().for_each(|direction| *direction = turn.to_camera(*direction));
    }

    let mut call = Call::new(Entry::Search);
    call.directions = Buffer::of(&flat(&directions));
    call.catalogue = Buffer::of(&sky::catalogue(random, &stars));
    call.needed = 3 + random.below(directions.len() - 2) as u64;
    call.tolerance = tolerance(random);
    call.ranking = Buffer::of(&match random.below(3) {
        0 => rising_ranking(directions.len(), stars.len()),
        1 => shuffled_ranking(random, directions.len(), stars.len()),
        _ => voted_ranking(&directions, &call.catalogue.values(), call.tolerance),
    });
    call
}

/// From 10^14 to the most there may be, or nothing.
fn tolerance(random: &Random) -> u64 {
    match random.below(8) {
        0 => 0,
        1 => MOST_TOLERANCE,
        _ => MOST_TOLERANCE >> random.below(7),
    }
}

/// Groups of stars: pairs within a group look alike, and so do pairs across the same two groups.
struct Crowd {
    middles: Vec<[i32; 3]>,
    closeness: i64,
}

impl Crowd {
    fn of(random: &Random) -> Crowd {
        let first = sky::anywhere(random);
        let spread = random.pick(&[1, 3, 10, 30]);
        let mut middles = vec![first];
        for _ in 0..random.below(5) {
            middles.push(sky::near(random, first, spread));
        }
        if random.chance(25) {
            middles = (0..6).map(|_| sky::simple(random)).collect();
        }
        Crowd { middles, closeness: random.pick(&[10, 30, 100, 1_000, 1_000_000_000]) }
    }

    fn member(&self, random: &Random) -> [i32; 3] {
        sky::near(random, random.pick(&self.middles), self.closeness)
    }
}

/// Some stars stand in the very place of another.
fn repeat_some(random: &Random, stars: &mut [[i32; 3]]) {
    let percent = random.pick(&[0, 10, 60]);
    for k in 0..stars.len() {
        if random.chance(percent) {
            stars[k] = stars[random.below(stars.len())];
        }
    }
}

/// Up to two move somewhere else, where few or none agree with them.
fn set_apart(random: &Random, vectors: &mut [[i32; 3]]) {
    for _ in 0..random.below(3) {
        let k = random.below(vectors.len());
        vectors[k] = match random.chance(50) {
            true => sky::anywhere(random),
            false => vectors[k].map(|component| -component),
        };
    }
}

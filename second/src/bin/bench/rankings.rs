//! The ranking and the whole chain, and both by an index.

use crate::indexes;
use second::call::{Buffer, Call, Entry};
use second::dot;
use second::generate::{flat, random_stars, Scene, View, MOST_TOLERANCE};
use second::random::Random;
use second::search::Effort;
use second::sky;
use std::cmp::Reverse;

pub fn inputs(random: &Random) -> Vec<(&'static str, Call)> {
    let (ranking, chain) = (anywhere(random), solved_chain(random, 200, 160, 512));
    let by_index = indexes::inputs(&ranking, &field(random, 512), &chain);
    let plain = vec![
        ("ranking, 8 directions, 512 stars", ranking),
        ("chain, 200 x 160 star field, 512 stars", chain),
    ];
    [plain, by_index].concat()
}

/// Eight stars of a sky of 512.
pub fn anywhere(random: &Random) -> Call {
    let view = View::of(random, random_stars(random, 512), 8, 0);
    let mut call = Call::new(Entry::Ranking);
    call.directions = Buffer::of(&flat(&view.directions));
    call.catalogue = Buffer::of(&sky::catalogue(random, &view.stars));
    call.tolerance = 1_000_000_000_000_000;
    call.room = Buffer::repeat(4_096, &[0]);
    call
}

/// A star of a sky of so many and its seven nearest.
pub fn field(random: &Random, stars: usize) -> Call {
    let stars = random_stars(random, stars);
    let wide = |v: [i32; 3]| v.map(i128::from);
    let mut near = stars.clone();
    near.sort_by_key(|star| Reverse(dot(&wide(*star), &wide(stars[0]))));
    near.truncate(8);
    let view = View::of(random, near, 8, 0);
    let mut call = Call::new(Entry::Ranking);
    call.directions = Buffer::of(&flat(&view.directions));
    call.catalogue = Buffer::of(&sky::catalogue(random, &stars));
    call.tolerance = indexes::NARROW;
    call.room = Buffer::repeat(4_096, &[0]);
    call
}

/// The first scene of its kind that is solved.
pub fn solved_chain(random: &Random, width: usize, height: usize, records: usize) -> Call {
    let scene =
        Scene { width, height, visible: 8, unknown: 0, records, equal_brightness: false, background: true };
    loop {
        let call = scene.call(random);
        let solved = call.run_wide(&mut Effort::up_to(1_000_000)).is_ok_and(|outcome| outcome.out[0] == 0);
        if solved && call.tolerance < MOST_TOLERANCE {
            return call;
        }
    }
}

//! Directions, attitudes, direction cosines, turned targets, lens plates and guiders, many at a time: one alone is too short
//! to be timed.

use second::call::Call;
use second::float::Float;
use second::generate::{
    any_attitude, any_direction, any_focal, any_guider_frame, any_guider_start, attitude_matrix, cosines_of,
    lens_of, plate_of, turned_of,
};
use second::gimbal::cosines;
use second::random::Random;

const MANY: usize = 1_000;

pub fn inputs(random: &Random) -> Vec<(&'static str, Vec<Call>)> {
    vec![
        ("direction, 1000 positions", many(|| any_direction(random))),
        ("attitude, 1000 pairs of pairs", many(|| any_attitude(random))),
        ("cosines, 1000 matrices", many(|| cosines_of(&attitude_matrix(random)))),
        ("row by target, 1000 targets", many(|| turned(random))),
        ("guider start, 1000 guiders", many(|| any_guider_start(random))),
        ("guider frame, 1000 guiders", many(|| any_guider_frame(random))),
        ("lens, 1000 plates of either form", many(|| lens_of(plate_of(random, any_focal(random))))),
    ]
}

fn many(call: impl Fn() -> Call) -> Vec<Call> {
    (0..MANY).map(|_| call()).collect()
}

/// The rows of an attitude and a direction of about unit length.
fn turned(random: &Random) -> Call {
    let rows = |random: &Random| cosines(&attitude_matrix(random)).expect("no matrix reaches the limit");
    let target: [Float; 3] = std::array::from_fn(|k| rows(random)[k]);
    turned_of(&rows(random), &target)
}

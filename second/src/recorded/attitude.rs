//! Attitudes.

use crate::call::{Call, Entry};
use crate::generate::{any_call, attitude_of};
use crate::random::Random;
use crate::sky;

const UNIT: i64 = 1_000_000_000;
const X: [i64; 3] = [UNIT, 0, 0];
const Y: [i64; 3] = [0, UNIT, 0];
const Z: [i64; 3] = [0, 0, UNIT];

pub fn attitudes(random: &Random, calls: &mut Vec<Call>) {
    too_close(calls);
    powers_of_two(calls);
    component_limits(calls);
    // A turned pair of random stars, as the chain gives them.
    for _ in 0..150 {
        let turn = sky::Turn::random(random);
        let first = sky::anywhere(random);
        let second = match random.below(3) {
            0 => sky::near(random, first, random.pick(&[100, 1_000_000, 100_000_000, 1_000_000_000])),
            _ => sky::anywhere(random),
        };
        let camera = [first, second].map(|star| turn.to_camera(star).map(i64::from));
        calls.push(attitude_of([camera[0], camera[1], first.map(i64::from), second.map(i64::from)]));
    }
    for _ in 0..500 {
        calls.push(any_call(random, Entry::Attitude));
    }
}

/// Pairs at right angles, and such as are too close.
fn too_close(calls: &mut Vec<Call>) {
    calls.push(attitude_of([Z, X, Z, X]));
    calls.push(attitude_of([Z, Y, Z, X]));
    for vector in [X, Y, Z, [600_000_000, 800_000_000, 0]] {
        let back = vector.map(|component| -component);
        for too_close in [[vector, vector], [vector, back], [back, vector]] {
            calls.push(attitude_of([too_close[0], too_close[1], Z, [0, -UNIT, 0]]));
            calls.push(attitude_of([Z, [0, UNIT, 0], too_close[0], too_close[1]]));
            calls.push(attitude_of([too_close[0], too_close[1], too_close[0], too_close[1]]));
        }
    }
}

/// Cross products whose largest magnitude is a power of two, one less, or one more.
fn powers_of_two(calls: &mut Vec<Call>) {
    for bits in 28..60 {
        let half = bits / 2;
        let (one, other) = (1_i64 << half, 1_i64 << (bits - half));
        if other > UNIT {
            continue;
        }
        for sign in [1, -1] {
            calls.push(attitude_of([[one, 0, 0], [0, sign * other, 0], Z, X]));
            calls.push(attitude_of([Z, X, [0, one, 0], [0, 0, sign * other]]));
            // one x other - 1 and + 1, as a difference of two products.
            calls.push(attitude_of([[one, 1, 0], [1, sign * other, 0], Z, X]));
            calls.push(attitude_of([Z, X, [one, 1, 0], [-1, sign * other, 0]]));
        }
    }
    calls.push(attitude_of([[32_767, 0, 0], [0, 32_769, 0], Z, X]));
    calls.push(attitude_of([Z, X, [32_769, 0, 0], [0, 0, 32_767]]));
}

/// Every component at its limit, and each beyond it in turn.
fn component_limits(calls: &mut Vec<Call>) {
    // Every component at its limit.
    for signs in 0..64_usize {
        let component = |k: usize| if signs >> (k % 6) & 1 == 1 { UNIT } else { -UNIT };
        let vectors = std::array::from_fn(|v| std::array::from_fn(|k| component(3 * v + k + v / 2)));
        calls.push(attitude_of(vectors));
    }
    // Each component beyond its limit in turn.
    for place in 0..12 {
        for beyond in [UNIT, UNIT + 1, -UNIT, -UNIT - 1, i64::MIN, i64::MAX, (1 << 32) + 5] {
            let mut call = attitude_of([[3, UNIT, 5], X, [7, 9, UNIT], Y]);
            call.vectors.set(place, beyond);
            calls.push(call);
        }
    }
}

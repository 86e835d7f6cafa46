//! Directions.

use super::lens;
use crate::call::{Call, Entry};
use crate::generate::any_call;
use crate::lens::Plate;
use crate::random::Random;

fn direction_call([cx, cy, focal, x, y]: [i64; 5]) -> Call {
    let mut call = Call::new(Entry::Direction);
    (call.cx, call.cy, call.lens, call.x, call.y) = (cx, cy, Plate::of_focal(focal), x, y);
    call
}

/// A sound direction's centre, focal number and position.
const MIDDLE: [i64; 5] = [130_000, 120_000, 50_000, 100_000, 200_000];

pub fn directions(random: &Random, calls: &mut Vec<Call>) {
    calls.push(direction_call([0, 0, 16_384, 0, 0]));
    calls.push(direction_call([12_288, 0, 16_384, 0, 0]));
    calls.push(direction_call([20_480, 15_360, 16_384, 8_192, 15_360]));
    limits(random, calls);
    // Close to the axis, where each part of a direction is small, and on either side of it.
    for right in -3..=3 {
        for down in -3..=3 {
            calls.push(direction_call([
                1_000,
                1_000,
                random.between(16_384, 4_194_304),
                1_000 + right,
                1_000 + down,
            ]));
        }
    }
    for _ in 0..600 {
        calls.push(any_call(random, Entry::Direction));
    }
    lens::through(random, &direction_call(MIDDLE), calls);
}

/// Each number at its limits and beyond, alone and two at once.
fn limits(random: &Random, calls: &mut Vec<Call>) {
    let limits = [[0, 261_888], [0, 261_888], [16_384, 4_194_304], [0, 261_888], [0, 261_888]];
    for corner in 0..32_usize {
        calls.push(direction_call(std::array::from_fn(|k| limits[k][corner >> k & 1])));
    }
    for k in 0..5 {
        let [low, high] = limits[k];
        let wrapped = (1_i64 << 32) + MIDDLE[k];
        for value in [
            low - 1,
            low,
            low + 1,
            high - 1,
            high,
            high + 1,
            -low,
            -high,
            i64::MIN,
            i64::MAX,
            wrapped,
            -wrapped,
        ] {
            let mut numbers = MIDDLE;
            numbers[k] = value;
            calls.push(direction_call(numbers));
        }
    }
    // Two numbers just beyond their limits.
    for _ in 0..30 {
        let mut numbers = MIDDLE;
        for _ in 0..2 {
            let k = random.below(5);
            numbers[k] = random.pick(&[limits[k][0] - 1, limits[k][1] + 1]);
        }
        calls.push(direction_call(numbers));
    }
}

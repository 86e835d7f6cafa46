//! Matrices as direction cosines, and rows by target.

use super::{damaged, vary};
use crate::call::{Call, Entry};
use crate::float::{negated, Float, INFINITY};
use crate::generate::{
    any_call, any_cosines, attitude_matrix, cosines_of, near_middle, power, turned_of, FARTHEST_ENTRY,
    NON_NUMBERS, SPECIAL,
};
use crate::random::Random;

const UNIT: i64 = 1_000_000_000;
const IDENTITY: [i64; 9] = [UNIT, 0, 0, 0, UNIT, 0, 0, 0, UNIT];

pub fn matrices(random: &Random, calls: &mut Vec<Call>) {
    // The matrices of the bench set's cases I and J.
    calls.push(cosines_of(&IDENTITY));
    calls.push(cosines_of(&[0, -UNIT, 0, UNIT, 0, 0, 0, 0, UNIT]));
    // Every place at every limit and beyond.
    for place in 0..9 {
        let entries = [0, 1, UNIT - 1, FARTHEST_ENTRY - 1, FARTHEST_ENTRY, FARTHEST_ENTRY + 1, i64::MAX];
        for sign in [1, -1] {
            vary(calls, &cosines_of(&IDENTITY), &entries, |call, entry| call.matrix.set(place, sign * entry));
        }
        let wrapped = [i64::MIN, (1 << 32) + UNIT, -(1 << 32) - UNIT, 1 << 62];
        vary(calls, &cosines_of(&IDENTITY), &wrapped, |call, entry| call.matrix.set(place, entry));
    }
    // Quotients as near to the middle between two floats as there are.
    for _ in 0..30 {
        calls.push(cosines_of(&std::array::from_fn(|_| near_middle(random) * random.pick(&[1, -1]))));
    }
    // Powers of two and of five, and of ten.
    for (base, most) in [(2_i64, 32), (5, 14), (10, 9)] {
        let powers: Vec<i64> = (0..=most).map(|k| base.pow(k)).collect();
        for nine in powers.chunks(9) {
            calls.push(cosines_of(&std::array::from_fn(|k| nine.get(k).copied().unwrap_or(-1))));
        }
    }
    for _ in 0..60 {
        calls.push(cosines_of(&attitude_matrix(random)));
        calls.push(any_cosines(random));
    }
    damaged(random, Entry::Cosines, 30, 20, || any_cosines(random), calls);
}

pub fn targets(random: &Random, calls: &mut Vec<Call>) {
    let one = power(0);
    let identity = [one, 0, 0, 0, one, 0, 0, 0, one];
    // Each special float and non-number alone, through rows of ones and zeros, and against each other.
    for float in SPECIAL.into_iter().chain(NON_NUMBERS).flat_map(|float| [float, negated(float)]) {
        calls.push(turned_of(&identity, &[float, one, negated(one)]));
        calls.push(turned_of(&[one; 9], &[one, float, one]));
    }
    for first in SPECIAL {
        for second in SPECIAL {
            calls.push(special_pair(random, first, second));
        }
    }
    // Infinities that meet, and that meet a zero.
    let (inf, minus) = (INFINITY, negated(INFINITY));
    for target in [[inf, minus, 0], [inf, inf, minus], [0, inf, inf], [minus, 0, inf], [minus, minus, minus]]
    {
        calls.push(turned_of(&identity, &target));
        calls.push(turned_of(&[one, one, 0, one, 0, one, 0, one, one], &target));
        calls.push(turned_of(&[one; 9], &target));
        calls.push(turned_of(&[1, 1, 1, negated(1), 1, 1, inf, inf, inf], &target));
    }
    left_to_right(calls);
    for _ in 0..700 {
        calls.push(any_call(random, Entry::Turned));
    }
}

/// The sum, the difference and the product of two floats, and the second by the first times two.
fn special_pair(random: &Random, first: Float, second: Float) -> Call {
    let (one, two) = (power(0), power(1));
    let rows = [one, one, 0, one, negated(one), 0, 0, 0, second];
    let sign = |float: Float| if random.chance(50) { float } else { negated(float) };
    turned_of(&rows.map(sign), &[first, second, random.pick(&[first, two])].map(sign))
}

/// Sums that are another number when added right to left, or with a product that is not rounded.
fn left_to_right(calls: &mut Vec<Call>) {
    let (one, tiny, large) = (power(0), power(-53), power(1_000));
    let rows = [one, one, one, one, negated(one), one, one, one, negated(one)];
    for target in
        [[one, tiny, tiny], [tiny, tiny, one], [tiny, one, tiny], [large, large, one], [one, large, large]]
    {
        calls.push(turned_of(&rows, &target));
    }
    // (1 + 2^-30)^2 is rounded to 1 + 2^-29; what is cut off is 2^-60.
    let a = one + (1 << 22);
    let square = one + (1 << 23);
    for last in [0, one, negated(power(-60))] {
        calls.push(turned_of(
            &[a, negated(square), one, a, square, one, negated(square), a, one],
            &[a, one, last],
        ));
        calls.push(turned_of(&[negated(square), a, one, one, a, a, a, one, one], &[one, a, last]));
    }
}

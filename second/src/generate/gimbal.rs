//! Floats of every class, matrices and targets.

use super::{any_attitude, flat};
use crate::attitude::attitude;
use crate::call::{exactly, Buffer, Call, Entry};
use crate::float::{self, Float, INFINITY};
use crate::random::Random;

pub const FARTHEST_ENTRY: i64 = 8_000_000_000;

/// What the rooms hold before a call: 7.5, -0 and a subnormal.
const FILL: [Float; 3] = [0x401E_0000_0000_0000, 1 << 63, 5];

// Floats.

/// The ends of every class, without their signs.
pub const SPECIAL: [Float; 14] = [
    0,
    1,
    2,
    0x000F_FFFF_FFFF_FFFF,
    0x0010_0000_0000_0000,
    0x0010_0000_0000_0001,
    0x3FEF_FFFF_FFFF_FFFF,
    0x3FF0_0000_0000_0000,
    0x3FF0_0000_0000_0001,
    0x4000_0000_0000_0000,
    0x7FE0_0000_0000_0000,
    0x7FEF_FFFF_FFFF_FFFE,
    0x7FEF_FFFF_FFFF_FFFF,
    INFINITY,
];

/// Quiet and signalling, with little and with much behind.
pub const NON_NUMBERS: [Float; 4] =
    [0x7FF8_0000_0000_0000, 0x7FF0_0000_0000_0001, 0x7FFF_FFFF_FFFF_FFFF, 0x7FF4_DEAD_BEEF_0000];

/// A float of any class: the ends, non-numbers, any bits, ordinary sizes, few bits, subnormals.
pub fn any_float(random: &Random) -> Float {
    let bits = match random.below(8) {
        0 => random.pick(&SPECIAL),
        1 if random.chance(30) => random.pick(&NON_NUMBERS),
        1 | 2 => random.next(),
        3 | 4 => ordinary(random),
        5 => odd(random, 27, random.between(-40, 10) as i32),
        6 => power(random.between(-1_074, 1_023) as i32),
        _ => random.next() >> random.between(12, 63),
    };
    with_any_sign(random, bits)
}

fn with_any_sign(random: &Random, bits: Float) -> Float {
    bits ^ (random.next() & 1 << 63)
}

/// Between 2^-8 and 2^8.
pub(super) fn ordinary(random: &Random) -> Float {
    let exponent = (1_015 + random.below(16)) as u64;
    exponent << 52 | random.next() >> 12
}

pub fn power(exponent: i32) -> Float {
    float::nearest(false, 1, exponent)
}

/// An odd size of so many bits: the product of two of 27 bits lies between two floats as often as not, and then
/// exactly in the middle.
fn odd(random: &Random, bits: u32, exponent: i32) -> Float {
    let size = 1 << (bits - 1) | random.next() >> (65 - bits) | 1;
    float::nearest(false, size.into(), exponent)
}

/// Half of the last bit of an ordinary float.
fn half_of_last_bit(a: Float) -> Float {
    let (_, exponent) = float::parts(a);
    power(exponent - 1)
}

// Matrices.

pub fn cosines_of(matrix: &[i64; 9]) -> Call {
    let mut call = Call::new(Entry::Cosines);
    call.matrix = Buffer::of(matrix);
    call.rows = Buffer::repeat(9, &FILL);
    call
}

pub fn any_cosines(random: &Random) -> Call {
    cosines_of(&match random.below(3) {
        0 => attitude_matrix(random),
        _ => std::array::from_fn(|_| any_entry(random)),
    })
}

/// The matrix of some attitude, or of the identity where there is none.
pub fn attitude_matrix(random: &Random) -> [i64; 9] {
    let vectors = any_attitude(random).vectors.values();
    let unit = 1_000_000_000;
    let matrix = attitude(&exactly(&vectors)).unwrap_or([[unit, 0, 0], [0, unit, 0], [0, 0, unit]]);
    exactly(&flat(&matrix))
}

fn any_entry(random: &Random) -> i64 {
    let size = match random.below(6) {
        0 => random.pick(&[0, 1, 2, 512, 1_000_000_000, FARTHEST_ENTRY, FARTHEST_ENTRY - 1]),
        1 => near_middle(random),
        2 => random.between(0, 1 << random.between(1, 32)),
        _ => random.between(0, FARTHEST_ENTRY),
    };
    size * random.pick(&[1, -1])
}

/// An entry whose quotient by 10^9 lies as near to the middle between two floats as any does.
pub fn near_middle(random: &Random) -> i64 {
    // From 2^j x 10^9 on the last bit that is kept of the quotient is 2^(j - 52). In such bits the quotient is
    // entry x 2^(43 - j) / 5^9, nearest to a middle where (5^9 - 1) / 2 or (5^9 + 1) / 2 is left over.
    const FIVES: i64 = 1_953_125;
    let j = random.between(-8, 2);
    let low = if j < 0 { 1_000_000_000 >> -j } else { 1_000_000_000 << j };
    let mut rest = random.pick(&[(FIVES - 1) / 2, (FIVES + 1) / 2]);
    for _ in 0..43 - j {
        // The half, among what may be left over.
        rest = rest * ((FIVES + 1) / 2) % FIVES;
    }
    let entry = low + 1 + (rest - low - 1).rem_euclid(FIVES);
    entry + FIVES * random.below(((2 * low).min(FARTHEST_ENTRY) - entry) as usize / FIVES as usize + 1) as i64
}

// Targets.

pub fn turned_of(rows: &[Float; 9], target: &[Float; 3]) -> Call {
    let mut call = Call::new(Entry::Turned);
    call.rows = Buffer::of(rows);
    call.target = Buffer::of(target);
    call.turned = Buffer::repeat(3, &FILL);
    call
}

pub fn any_turned(random: &Random) -> Call {
    let (rows, target) = match random.below(6) {
        0 => (std::array::from_fn(|_| any_float(random)), [0; 3].map(|_| any_float(random))),
        1 => (cosine_rows(random), [0; 3].map(|_| any_float(random))),
        2 => products_in_the_middle(random),
        3 => sums_in_the_middle(random),
        4 => nearly_cancelled(random),
        _ => (cosine_rows(random), [0; 3].map(|_| with_any_sign(random, ordinary(random)))),
    };
    turned_of(&rows, &target)
}

fn cosine_rows(random: &Random) -> [Float; 9] {
    crate::gimbal::cosines(&attitude_matrix(random)).expect("no matrix reaches the limit")
}

/// Products that lie in the middle between two floats, of ordinary size or where floats are smallest.
fn products_in_the_middle(random: &Random) -> ([Float; 9], [Float; 3]) {
    let small = random.chance(30);
    let factor = |low: i64, high: i64| {
        let exponent = random.between(low, high) as i32;
        let size = if small {
            odd(random, 2 + random.below(25) as u32, exponent)
        } else {
            odd(random, 27, exponent)
        };
        with_any_sign(random, size)
    };
    // The product of two last bits is the half of the smallest float, or near it.
    let rows = std::array::from_fn(|_| if small { factor(-539, -537) } else { factor(-30, -26) });
    let target = [0; 3].map(|_| if small { factor(-537, -535) } else { factor(-30, -26) });
    (rows, target)
}

/// Sums that lie in the middle between two floats or just beside it, also at the largest float.
fn sums_in_the_middle(random: &Random) -> ([Float; 9], [Float; 3]) {
    let first =
        random.pick(&[ordinary(random), ordinary(random), 0x7FEF_FFFF_FFFF_FFFF, 0x3FF0_0000_0000_0000]);
    let half = half_of_last_bit(first);
    let second = random.pick(&[half, half, half + 1, half - 1]);
    let third = random.pick(&[0, 1, half, power(-300)]);
    let one = power(0);
    let rows = std::array::from_fn(|_| with_any_sign(random, random.pick(&[one, one, one, power(1)])));
    let target = [first, second, third].map(|float| with_any_sign(random, float));
    (rows, target)
}

/// The second product is the first, rounded, with the other sign: only the roundings are left, if they are kept.
fn nearly_cancelled(random: &Random) -> ([Float; 9], [Float; 3]) {
    let scale = random.between(-3, 3) as i32;
    let target = [ordinary(random), power(scale), random.pick(&[0, ordinary(random), power(-60)])];
    let row = |_: usize| {
        let first = with_any_sign(random, ordinary(random));
        let product = float::multiply(first, target[0]);
        let beside = random.pick(&[0, 0, 0, 1]);
        let second = float::negated(float::multiply(product, power(-scale))) + beside;
        [first, second, any_float(random)]
    };
    (exactly(&flat(&[0, 1, 2].map(row))), target)
}

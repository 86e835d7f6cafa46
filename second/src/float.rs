//! Floats of 64 bits, worked out on their bits with whole numbers: sum, product and quotient, each rounded once to
//! the nearest float, and to the even one where two are equally near (IEEE 754). The machine's floats are not used.

/// A float, by its bits: sign, 11 bits of exponent, 52 of fraction.
pub type Float = u64;

const SIGN: Float = 1 << 63;
pub const INFINITY: Float = 0x7FF << 52;

/// Stands for every non-number: which of them an operation gives is left free.
pub const NO_NUMBER: Float = Float::MAX;

/// The exponent of the last bit of the smallest floats.
const LEAST_EXPONENT: i32 = -1_074;

/// A finite float whose exponent is larger by more than this is not changed by a sum: what is added is less than a
/// quarter of its last bit.
const FAR: i32 = 64;

pub fn is_number(a: Float) -> bool {
    a & !SIGN <= INFINITY
}

pub fn is_infinite(a: Float) -> bool {
    a & !SIGN == INFINITY
}

pub fn is_zero(a: Float) -> bool {
    a & !SIGN == 0
}

pub fn is_negative(a: Float) -> bool {
    a & SIGN != 0
}

pub fn negated(a: Float) -> Float {
    a ^ SIGN
}

/// The same float, and for a non-number the one that stands for all of them.
pub fn settled(a: Float) -> Float {
    if is_number(a) {
        a
    } else {
        NO_NUMBER
    }
}

/// A finite float without its sign as size x 2^exponent; the size has at most 53 bits.
pub fn parts(a: Float) -> (u128, i32) {
    let (field, fraction) = ((a >> 52 & 0x7FF) as i32, u128::from(a & ((1 << 52) - 1)));
    match field {
        0 => (fraction, LEAST_EXPONENT),
        _ => (fraction | 1 << 52, field + LEAST_EXPONENT - 1),
    }
}

/// The float nearest to size x 2^exponent, with this sign; beyond the largest it is infinite.
pub fn nearest(negative: bool, size: u128, exponent: i32) -> Float {
    let length = 128 - size.leading_zeros() as i32;
    // The exponent of the last bit that is kept.
    let last = (exponent + length - 53).max(LEAST_EXPONENT);
    let kept = nearest_whole(size, last - exponent) as u64;
    // A size that was rounded up to 2^53 carries into the exponent by itself.
    let bits = match kept >> 52 {
        0 => kept,
        _ => (((last - LEAST_EXPONENT) as u64) << 52) + kept,
    };
    bits.min(INFINITY) | if negative { SIGN } else { 0 }
}

/// The whole number nearest to size / 2^drop, and of two equally near the even one.
fn nearest_whole(size: u128, drop: i32) -> u128 {
    if drop <= 0 {
        return size << -drop;
    }
    if drop > 127 {
        // Less than a half, for no size here has more than 126 bits.
        return 0;
    }
    let (kept, half) = (size >> drop, 1 << (drop - 1));
    let rest = size - (kept << drop);
    kept + u128::from(rest > half || (rest == half && kept % 2 == 1))
}

/// A whole number as a float; it must have at most 53 bits, so that nothing is lost.
pub fn of_whole(n: i64) -> Float {
    assert!(n.unsigned_abs() <= 1 << 53);
    nearest(n < 0, n.unsigned_abs().into(), 0)
}

pub fn add(a: Float, b: Float) -> Float {
    if !is_number(a) || !is_number(b) {
        return NO_NUMBER;
    }
    match (is_infinite(a), is_infinite(b)) {
        (true, true) if a != b => NO_NUMBER,
        (true, _) => a,
        (_, true) => b,
        _ => add_finite(a, b),
    }
}

fn add_finite(a: Float, b: Float) -> Float {
    let (larger, smaller) = if parts(a).1 >= parts(b).1 { (a, b) } else { (b, a) };
    let (exponent, apart) = (parts(smaller).1, parts(larger).1 - parts(smaller).1);
    if apart > FAR {
        return larger;
    }
    let sum = (signed_size(larger) << apart) + signed_size(smaller);
    // Nothing left is +0, unless both were negative zeros.
    let negative = sum < 0 || (sum == 0 && is_negative(a) && is_negative(b));
    nearest(negative, sum.unsigned_abs(), exponent)
}

fn signed_size(a: Float) -> i128 {
    let size = parts(a).0 as i128;
    if is_negative(a) {
        -size
    } else {
        size
    }
}

pub fn multiply(a: Float, b: Float) -> Float {
    let negative = is_negative(a) != is_negative(b);
    if !is_number(a) || !is_number(b) {
        return NO_NUMBER;
    }
    if is_infinite(a) || is_infinite(b) {
        return if is_zero(a) || is_zero(b) { NO_NUMBER } else { infinite(negative) };
    }
    let ((size_a, exponent_a), (size_b, exponent_b)) = (parts(a), parts(b));
    nearest(negative, size_a * size_b, exponent_a + exponent_b)
}

pub fn divide(a: Float, b: Float) -> Float {
    let negative = is_negative(a) != is_negative(b);
    let none = (is_infinite(a) && is_infinite(b)) || (is_zero(a) && is_zero(b));
    if !is_number(a) || !is_number(b) || none {
        return NO_NUMBER;
    }
    if is_infinite(a) || is_zero(b) {
        return infinite(negative);
    }
    if is_infinite(b) || is_zero(a) {
        return nearest(negative, 0, 0);
    }
    let ((size_a, exponent_a), (size_b, exponent_b)) = (parts(a), parts(b));
    // The dividend gets 120 bits, so the quotient has far more than are kept. One bit behind it says whether
    // anything is left over.
    let shift = size_a.leading_zeros() as i32 - 8;
    let dividend = size_a << shift;
    let quotient = 2 * (dividend / size_b) + u128::from(dividend % size_b != 0);
    nearest(negative, quotient, exponent_a - exponent_b - shift - 1)
}

fn infinite(negative: bool) -> Float {
    INFINITY | if negative { SIGN } else { 0 }
}

//! Floats on their bits, direction cosines and rows by target: by hand, and against the machine's floats.

use second::answer::Refusal;
use second::float::{add, divide, multiply, of_whole, parts, settled, Float, INFINITY, NO_NUMBER};
use second::generate::{any_float, attitude_matrix, near_middle};
use second::gimbal::{cosines, turned};
use second::random::Random;

const UNIT: i64 = 1_000_000_000;
const ONE: Float = 0x3FF0_0000_0000_0000;
const MINUS_ONE: Float = 0xBFF0_0000_0000_0000;
const MINUS_ZERO: Float = 1 << 63;
const LARGEST: Float = 0x7FEF_FFFF_FFFF_FFFF;
const IDENTITY: [Float; 9] = [ONE, 0, 0, 0, ONE, 0, 0, 0, ONE];

/// 2^k, for k from -1,022 to 1,023.
fn power(k: i64) -> Float {
    ((k + 1_023) as u64) << 52
}

#[test]
fn cosines_by_hand() {
    // Cases I and J: exactly ones and zeros, and no zero has a sign.
    assert_eq!(cosines(&[UNIT, 0, 0, 0, UNIT, 0, 0, 0, UNIT]), Ok(IDENTITY));
    let quarter_turn = [0, MINUS_ONE, 0, ONE, 0, 0, 0, 0, ONE];
    assert_eq!(cosines(&[0, -UNIT, 0, UNIT, 0, 0, 0, 0, UNIT]), Ok(quarter_turn));
    // 0.6 = 1.2 / 2, and 0.2 is 0.333... with base 16; 0.8 = 1.6 / 2, and 0.6 is 0.999..., rounded up.
    // 0.5, 8, -8, 6 and 0.001 (1.024 / 1,024, and 0.024 is 0.0624DD2F1A9FBE76...).
    let matrix =
        [600_000_000, -800_000_000, 500_000_000, 8 * UNIT, -8 * UNIT, 6 * UNIT, 1_000_000, -1_000_000, 0];
    let expected = [
        0x3FE3_3333_3333_3333,
        0xBFE9_9999_9999_999A,
        0x3FE0_0000_0000_0000,
        0x4020_0000_0000_0000,
        0xC020_0000_0000_0000,
        0x4018_0000_0000_0000,
        0x3F50_624D_D2F1_A9FC,
        0xBF50_624D_D2F1_A9FC,
        0,
    ];
    assert_eq!(cosines(&matrix), Ok(expected));
}

#[test]
fn an_entry_beyond_the_limit_is_refused_at_every_place() {
    for place in 0..9 {
        let with = |entry: i64| {
            let mut matrix = [UNIT; 9];
            matrix[place] = entry;
            cosines(&matrix).map(|rows| rows[place])
        };
        assert_eq!(with(8_000_000_000), Ok(0x4020_0000_0000_0000));
        assert_eq!(with(-8_000_000_000), Ok(0xC020_0000_0000_0000));
        for beyond in [8_000_000_001, -8_000_000_001, i64::MAX, i64::MIN, i64::MIN + 1] {
            assert_eq!(with(beyond), Err(Refusal::new(23)));
        }
    }
}

#[test]
fn no_attitude_is_refused_and_no_entry_loses_anything() {
    let random = Random::new(41);
    for _ in 0..3_000 {
        let matrix = attitude_matrix(&random);
        assert!(matrix.iter().all(|entry| entry.abs() <= 6 * UNIT));
        assert!(cosines(&matrix).is_ok());
    }
    for _ in 0..3_000 {
        let entry = random.between(-8 * UNIT, 8 * UNIT);
        let (size, exponent) = parts(of_whole(entry));
        let whole = if exponent < 0 { size >> -exponent } else { size << exponent };
        assert_eq!(whole, entry.unsigned_abs().into());
        assert!(exponent >= 0 || size.trailing_zeros() as i32 >= -exponent);
    }
}

/// The first of the three numbers, for a first row and a target.
fn sum(row: [Float; 3], target: [Float; 3]) -> Float {
    turned(&[row[0], row[1], row[2], 0, 0, 0, 0, 0, 0], &target)[0]
}

#[test]
fn rows_by_target_by_hand() {
    assert_eq!(turned(&IDENTITY, &[power(1), power(2), power(3)]), [power(1), power(2), power(3)]);
    // 1, 2, 4 by rows: 1 + 2 x 2 + 4 x 4, and so on; rows, not columns.
    let rows = [ONE, power(1), power(2), power(3), ONE, 0, 0, MINUS_ONE, 0];
    let expected = [0x4035_0000_0000_0000, 0x4024_0000_0000_0000, 0xC000_0000_0000_0000];
    assert_eq!(turned(&rows, &[ONE, power(1), power(2)]), expected);
    // A sum of zeros is -0 only where all are.
    assert_eq!(sum([ONE, ONE, ONE], [MINUS_ZERO; 3]), MINUS_ZERO);
    assert_eq!(sum([ONE, ONE, ONE], [MINUS_ZERO, MINUS_ZERO, 0]), 0);
    assert_eq!(sum([ONE, 0, 0], [MINUS_ZERO, ONE, ONE]), 0);
    assert_eq!(sum([ONE, ONE, MINUS_ONE], [ONE, MINUS_ONE, 0]), 0);
    assert_eq!(sum([MINUS_ONE, MINUS_ONE, MINUS_ONE], [0; 3]), MINUS_ZERO);
}

#[test]
fn every_operation_is_rounded_once_from_the_left() {
    let ones = [ONE; 3];
    // 1 + 2^-53 is in the middle and goes to the even 1, twice; the other way round they make 2^-52.
    assert_eq!(sum(ones, [ONE, power(-53), power(-53)]), ONE);
    assert_eq!(sum(ones, [power(-53), power(-53), ONE]), ONE + 1);
    // The middle above an odd float goes up; just below the middle does not.
    assert_eq!(sum(ones, [ONE + 1, power(-53), 0]), ONE + 2);
    assert_eq!(sum(ones, [ONE + 1, power(-53) - 1, 0]), ONE + 1);
    assert_eq!(sum(ones, [ONE, power(-53) + 1, 0]), ONE + 1);
    // Below 1 floats lie closer: 1 - 2^-54 is a middle, 1 - 2^-53 a float.
    assert_eq!(sum(ones, [ONE, power(-54) | MINUS_ZERO, 0]), ONE);
    assert_eq!(sum(ones, [ONE, power(-53) | MINUS_ZERO, 0]), ONE - 1);
    // (1 + 2^-30)^2 = 1 + 2^-29 + 2^-60, and the last part is gone before the sum.
    let (a, square) = (ONE + (1 << 22), ONE + (1 << 23));
    assert_eq!(sum([a, MINUS_ONE, 0], [a, square, 0]), 0);
    assert_eq!(sum([MINUS_ONE, a, 0], [square, a, 0]), 0);
    assert_eq!(sum([0, MINUS_ONE, a], [0, square, a]), 0);
}

#[test]
fn the_ends_of_the_range() {
    let ones = [ONE; 3];
    // The middle above the largest float is infinite, and just below it is not.
    assert_eq!(sum(ones, [LARGEST, power(970), 0]), INFINITY);
    assert_eq!(sum(ones, [LARGEST, power(970) - 1, 0]), LARGEST);
    assert_eq!(sum(ones, [LARGEST, LARGEST, LARGEST | MINUS_ZERO]), INFINITY);
    assert_eq!(sum([power(1), 0, 0], [LARGEST, 0, 0]), INFINITY);
    assert_eq!(sum([power(512), 0, 0], [power(512) | MINUS_ZERO, 0, 0]), INFINITY | MINUS_ZERO);
    // The smallest float is 1: its half goes to 0, three halves to 2, five halves to 2.
    let half = power(-1);
    assert_eq!([1, 2, 3, 5, 7].map(|n| multiply(n, half)), [0, 1, 2, 2, 4]);
    assert_eq!(multiply(1, MINUS_ONE - (1 << 52)), MINUS_ZERO);
    assert_eq!(multiply(power(-540), power(-540)), 0);
    assert_eq!(multiply(power(-537), power(-537)), 1);
    assert_eq!(multiply(power(-537), power(-538)), 0);
    assert_eq!(multiply(power(-537) + 1, power(-538)), 1);
    // The largest subnormal and 1 are the smallest ordinary float.
    assert_eq!(add(0x000F_FFFF_FFFF_FFFF, 1), 0x0010_0000_0000_0000);
}

#[test]
fn infinities_and_non_numbers() {
    let minus = INFINITY | MINUS_ZERO;
    assert_eq!(sum([ONE; 3], [INFINITY, INFINITY, ONE]), INFINITY);
    assert_eq!(sum([ONE; 3], [INFINITY, minus, ONE]), NO_NUMBER);
    assert_eq!(sum([ONE; 3], [LARGEST, LARGEST, minus]), NO_NUMBER);
    assert_eq!(sum([ONE, 0, 0], [ONE, INFINITY, 0]), NO_NUMBER);
    assert_eq!(sum([ONE, 1, 1], [ONE, INFINITY, 1]), INFINITY);
    assert_eq!(sum([ONE; 3], [ONE, ONE, 0x7FF0_0000_0000_0001]), NO_NUMBER);
    assert_eq!([divide(ONE, 0), divide(MINUS_ONE, 0), divide(0, 0)], [INFINITY, minus, NO_NUMBER]);
    assert_eq!([divide(ONE, minus), divide(INFINITY, minus), divide(0, ONE)], [MINUS_ZERO, NO_NUMBER, 0]);
}

#[test]
fn the_machine_gives_the_same() {
    let random = Random::new(42);
    for _ in 0..400_000 {
        let (a, b) = (any_float(&random), any_float(&random));
        let (x, y) = (f64::from_bits(a), f64::from_bits(b));
        assert_eq!(add(a, b), settled((x + y).to_bits()), "{a:#x} + {b:#x}");
        assert_eq!(multiply(a, b), settled((x * y).to_bits()), "{a:#x} x {b:#x}");
        assert_eq!(divide(a, b), settled((x / y).to_bits()), "{a:#x} / {b:#x}");
    }
}

#[test]
fn quotients_near_the_middle() {
    let random = Random::new(43);
    for _ in 0..300 {
        let entry = near_middle(&random);
        assert!((1..=8 * UNIT).contains(&entry));
        // With 54 bits before the point the quotient is an odd number but for less than two millionths.
        let wide = i128::from(entry) << 80;
        let length = 128 - (wide / i128::from(UNIT)).leading_zeros();
        let half = i128::from(UNIT) << (length - 54);
        let nearest = (wide + half / 2) / half;
        assert_eq!(nearest % 2, 1, "{entry}");
        assert!((wide - nearest * half).abs() * 500_000 < half, "{entry}");
    }
}

//! Lens plates in both forms.

use super::gimbal::{any_float, ordinary};
use crate::call::{Call, Entry};
use crate::float::{self, divide, multiply, of_whole, Float};
use crate::lens::{Plate, MILLIMETRES, PIXELS};
use crate::random::Random;

pub fn lens_of(lens: Plate) -> Call {
    Call { lens, ..Call::new(Entry::Lens) }
}

pub fn pixels(first: Float) -> Plate {
    Plate { kind: PIXELS, first, second: 0 }
}

pub fn any_focal(random: &Random) -> i64 {
    match random.below(4) {
        0 => random.pick(&[16_384, 16_385, 4_194_303, 4_194_304]),
        1 => random.between(16_384, 100_000),
        _ => random.between(16_384, 4_194_304),
    }
}

/// A plate of either form that gives this focal number, most often that of the program's settings.
pub fn plate_of(random: &Random, focal: i64) -> Plate {
    let fraction = with_fraction(random, focal);
    let plate = match random.below(5) {
        0 => Plate { second: any_float(random), ..pixels(fraction) },
        1 => in_millimetres(random, fraction),
        _ => Plate::of_focal(focal),
    };
    // The roundings of millimetres may lead just beside it.
    match plate.focal() {
        Ok(given) if given == focal.into() => plate,
        _ => Plate::of_focal(focal),
    }
}

/// A length in pixels that gives this focal number and leaves something behind the point.
fn with_fraction(random: &Random, focal: i64) -> Float {
    let behind = 1 + random.below((1 << 30) - 1);
    float::nearest(false, (focal as u128) << 30 | behind as u128, -38)
}

/// A plate of about this length in pixels.
pub fn in_millimetres(random: &Random, length: Float) -> Plate {
    let pitch = match random.below(3) {
        0 => float::nearest(false, 1 + random.below(40) as u128, -1),
        1 => divide(of_whole(random.between(1, 2_000)), of_whole(100)),
        _ => ordinary(random),
    };
    Plate { kind: MILLIMETRES, first: divide(multiply(length, pitch), of_whole(1_000)), second: pitch }
}

/// A length that gives a limit, or any whole focal number, with nothing behind the point.
pub fn whole_length(random: &Random) -> Float {
    let focal = random.pick(&[16_384, 4_194_304, 4_194_305, any_focal(random), any_focal(random)]);
    Plate::of_focal(focal).first
}

pub fn any_lens(random: &Random) -> Call {
    let beside = |float: Float| random.pick(&[float, float, float + 1, float - 1]);
    lens_of(match random.below(6) {
        0 => plate_of(random, any_focal(random)),
        1 => pixels(beside(whole_length(random))),
        2 | 3 => {
            let plate = in_millimetres(random, whole_length(random));
            Plate { first: beside(plate.first), ..plate }
        }
        4 => in_millimetres(random, any_float(random)),
        _ => Plate {
            kind: random.pick(&[MILLIMETRES, PIXELS, 2]),
            first: any_float(random),
            second: any_float(random),
        },
    })
}

//! Lens plates by themselves, and directions and chains seen through them.

use super::{damaged, vary};
use crate::call::{Call, Entry};
use crate::float::{negated, of_whole, Float, INFINITY};
use crate::generate::{
    any_call, in_millimetres, lens_of, pixels, plate_of, power, whole_length, NON_NUMBERS, SPECIAL,
};
use crate::lens::{Plate, MILLIMETRES, PIXELS};
use crate::random::Random;

const SEVEN_AND_A_HALF: Float = 0x401E_0000_0000_0000;

fn millimetres(first: Float, second: Float) -> Plate {
    Plate { kind: MILLIMETRES, first, second }
}

pub fn plates(random: &Random, calls: &mut Vec<Call>) {
    calls.push(lens_of(millimetres(of_whole(12), SEVEN_AND_A_HALF)));
    calls.push(lens_of(millimetres(SEVEN_AND_A_HALF, of_whole(12))));
    calls.push(lens_of(pixels(of_whole(1_600))));
    // At the limits, at whole numbers and at halves, and the floats beside them.
    for quarter in [4 * 16_384, 4 * 16_385, 4 * 4_194_304, 4 * 4_194_305, 4 * 4_194_303, 4 * 300_000] {
        for behind in 0..4 {
            let length = Plate::of_focal(quarter + behind).first - (2 << 52);
            for near in [length - 1, length, length + 1] {
                calls.push(lens_of(pixels(near)));
            }
        }
    }
    // About the same in millimetres: where the roundings lead decides.
    for _ in 0..120 {
        let plate = in_millimetres(random, whole_length(random));
        for near in [plate.first - 1, plate.first, plate.first + 1] {
            calls.push(lens_of(Plate { first: near, ..plate }));
        }
    }
    special_plates(calls);
    for kind in [2, 3, 4, 255, 256, 257, 1 << 16, 1 << 31, u32::MAX] {
        vary(calls, &lens_of(Plate { kind, ..pixels(of_whole(100)) }), &[0, power(0)], |call, second| {
            call.lens.second = second
        });
    }
    for _ in 0..200 {
        calls.push(any_call(random, Entry::Lens));
    }
    damaged(random, Entry::Lens, 60, 0, || lens_of(plate_of(random, 50_000)), calls);
}

/// Every class of floats at each place of a sound plate; and sizes that meet only in the quotient.
fn special_plates(calls: &mut Vec<Call>) {
    for float in SPECIAL.into_iter().chain(NON_NUMBERS).flat_map(|float| [float, negated(float)]) {
        let one_each = [
            pixels(float),
            Plate { second: float, ..pixels(of_whole(100)) },
            millimetres(float, power(0)),
            millimetres(power(0), float),
            millimetres(float, float),
            // A pitch eight times as large, where both are of ordinary size: 125 pixels.
            millimetres(float, float.saturating_add(3 << 52)),
        ];
        calls.extend(one_each.map(lens_of));
    }
    let (length, pitch) = (of_whole(12), SEVEN_AND_A_HALF);
    for (first, second) in
        [(negated(length), negated(pitch)), (negated(length), pitch), (length, negated(pitch))]
    {
        calls.push(lens_of(millimetres(first, second)));
    }
    // Subnormals: 1 x 1,000 / 10 and its like.
    for (first, second) in [(1, 10), (1, 15), (1, 16), (3, 2), (16_384, 1_000), (16_384, 999), (2, 1)] {
        calls.push(lens_of(millimetres(first, second)));
    }
    // 1,000 times the length is infinite, though the quotient of the two is in range.
    for exponent in [1_013, 1_014, 1_015, 1_023] {
        calls.push(lens_of(millimetres(power(exponent), power(exponent))));
        calls.push(lens_of(millimetres(power(exponent), power(exponent + 3).min(INFINITY - 1))));
    }
    calls.push(lens_of(Plate { kind: PIXELS, first: of_whole(64), second: INFINITY }));
}

/// The call through plates of both forms; and with a lens and a centre, or a catalogue, that break their rules.
pub fn through(random: &Random, sound: &Call, calls: &mut Vec<Call>) {
    let plates = [
        millimetres(of_whole(12), SEVEN_AND_A_HALF),
        millimetres(SEVEN_AND_A_HALF, of_whole(12)),
        millimetres(power(-4), power(0)),
        pixels(of_whole(64)),
        pixels(of_whole(64) + 1),
        pixels(of_whole(64) - 1),
        pixels(of_whole(16_384)),
        pixels(Plate::of_focal(4_194_305).first - 1),
        pixels(Plate::of_focal(4_194_305).first),
        pixels(0),
        Plate { kind: 2, ..pixels(of_whole(64)) },
    ];
    vary(calls, sound, &plates, |call, lens| call.lens = lens);
    vary(calls, sound, &plates, |call, lens| {
        call.lens = lens;
        call.cx = -1;
    });
    for _ in 0..10 {
        let plates = [0; 3].map(|_| plate_of(random, 16_384 + random.between(0, 200_000)));
        vary(calls, sound, &plates, |call, lens| call.lens = lens);
    }
}

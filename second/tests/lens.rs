//! The lens plate: both forms by hand, the refusals, and that the program's pixel form loses nothing.

use second::answer::Refusal;
use second::call::{Call, Entry};
use second::direction::direction;
use second::float::{divide, multiply, of_whole, parts};
use second::generate::{any_lens, dark_frame};
use second::lens::{Plate, MILLIMETRES, PIXELS};
use second::random::Random;
use second::search::Effort;

fn plate(kind: u32, first: f64, second: f64) -> Plate {
    Plate { kind, first: first.to_bits(), second: second.to_bits() }
}

/// The focal number, or the refusal's.
fn focal(plate: Plate) -> Result<i128, u8> {
    plate.focal().map_err(|refusal| {
        assert_eq!(refusal, Refusal::new(19));
        refusal.number
    })
}

fn pixels(length: f64) -> Result<i128, u8> {
    focal(plate(PIXELS, length, 0.0))
}

fn millimetres(length: f64, pitch: f64) -> Result<i128, u8> {
    focal(plate(MILLIMETRES, length, pitch))
}

#[test]
fn millimetres_by_hand() {
    // 12,000 / 7.5 = 1,600 pixels.
    assert_eq!(millimetres(12.0, 7.5), Ok(409_600));
    // 7,500 / 12 = 625 pixels.
    assert_eq!(millimetres(7.5, 12.0), Ok(160_000));
    // 62.5 and 65 pixels; 16,384 pixels and two more.
    assert_eq!(millimetres(1.0, 16.0), Err(19));
    assert_eq!(millimetres(1.04, 16.0), Ok(16_640));
    assert_eq!(millimetres(16.384, 1.0), Ok(4_194_304));
    assert_eq!(millimetres(16.386, 1.0), Err(19));
    // 1,000 / 3 pixels: 85,333.3.
    assert_eq!(millimetres(1.0, 3.0), Ok(85_333));
    // 2,000 / 3 pixels: 170,666.7, not rounded up.
    assert_eq!(millimetres(2.0, 3.0), Ok(170_666));
}

#[test]
fn pixels_by_hand() {
    assert_eq!(pixels(64.0), Ok(16_384));
    assert_eq!(pixels(64.0_f64.next_down()), Err(19));
    assert_eq!(pixels(1_600.0), Ok(409_600));
    // 4,194,304, and a half more, and all up to 4,194,305, which is refused.
    assert_eq!(pixels(16_384.0), Ok(4_194_304));
    assert_eq!(pixels(16_384.001953125), Ok(4_194_304));
    assert_eq!(pixels(16_384.00390625_f64.next_down()), Ok(4_194_304));
    assert_eq!(pixels(16_384.00390625), Err(19));
    // Just below a whole number, and a float above it.
    assert_eq!(pixels(100.0_f64.next_down()), Ok(25_599));
    assert_eq!(pixels(100.0_f64.next_up()), Ok(25_600));
    // No second number is given.
    assert_eq!(focal(plate(PIXELS, 64.0, f64::NAN)), Ok(16_384));
    assert_eq!(focal(plate(PIXELS, 64.0, -1.0)), Ok(16_384));
}

#[test]
fn every_given_number_is_above_zero() {
    for none in [0.0, -0.0, -12.0, f64::NAN, f64::INFINITY, f64::NEG_INFINITY, f64::MAX, f64::MIN_POSITIVE] {
        assert_eq!(millimetres(none, 7.5), Err(19));
        assert_eq!(millimetres(12.0, none), Err(19));
        assert_eq!(pixels(none), Err(19));
    }
    assert_eq!(millimetres(-12.0, -7.5), Err(19));
    assert_eq!(millimetres(f64::INFINITY, f64::INFINITY), Err(19));
    assert_eq!(millimetres(0.0, 0.0), Err(19));
    for kind in [2, 3, 256, 257, u32::MAX] {
        assert_eq!(focal(plate(kind, 100.0, 1.0)), Err(19));
    }
}

#[test]
fn each_step_is_rounded_once() {
    // The smallest float times 1,000, by ten of them.
    let smallest = f64::from_bits(1);
    assert_eq!(millimetres(smallest, 10.0 * smallest), Ok(25_600));
    // 1,000 x 2^1014 is a float, 1,000 x 2^1015 is infinite, though the quotient would be 1,000 too.
    let power = |exponent: u64| f64::from_bits((exponent + 1_023) << 52);
    assert_eq!(millimetres(power(1_014), power(1_014)), Ok(256_000));
    assert_eq!(millimetres(power(1_015), power(1_015)), Err(19));
}

#[test]
fn the_settings_form_gives_every_focal_number_back() {
    for number in 16_384..=4_194_304 {
        assert_eq!(Plate::of_focal(number).focal(), Ok(number.into()));
    }
    for beyond in [0, 1, 16_383, 4_194_305, 4_194_306, u32::MAX.into(), -16_384] {
        assert_eq!(Plate::of_focal(beyond).focal(), Err(Refusal::new(19)));
    }
}

#[test]
fn the_focal_number_is_the_greatest_within() {
    let random = Random::new(51);
    let mut accepted = 0;
    for _ in 0..20_000 {
        let plate = any_lens(&random).lens;
        let Ok(focal) = plate.focal() else {
            continue;
        };
        accepted += 1;
        let length = match plate.kind {
            MILLIMETRES => divide(multiply(plate.first, of_whole(1_000)), plate.second),
            _ => plate.first,
        };
        // 256 x length is size x 2^(exponent + 8), and all of these exponents are far below zero.
        let (size, exponent) = parts(length);
        let unit = 1_i128 << -(exponent + 8);
        assert!(focal * unit <= size as i128 && (size as i128) < (focal + 1) * unit);
    }
    assert!(accepted > 8_000, "{accepted}");
}

#[test]
fn the_order_of_the_roundings_matters() {
    // What other orders give often enough: the quotient first, or 1,000 / pitch first.
    let random = Random::new(52);
    let (mut quotient_first, mut factor_first) = (0, 0);
    for _ in 0..20_000 {
        let plate = any_lens(&random).lens;
        let given = |length: u64| Plate { kind: PIXELS, first: length, second: 0 }.focal();
        if plate.kind == MILLIMETRES && plate.focal().is_ok() {
            let (length, pitch, thousand) = (plate.first, plate.second, of_whole(1_000));
            quotient_first += u32::from(given(multiply(divide(length, pitch), thousand)) != plate.focal());
            factor_first += u32::from(given(multiply(length, divide(thousand, pitch))) != plate.focal());
        }
    }
    assert!(quotient_first > 200 && factor_first > 400, "{quotient_first} {factor_first}");
}

#[test]
fn the_lens_comes_after_the_frame_and_before_the_centre() {
    let none = Plate::default();
    let sound = plate(PIXELS, 64.0, 0.0);
    assert_eq!(direction(-1, 0, none, -1, 0), Err(Refusal::new(19)));
    assert_eq!(direction(-1, 0, sound, 0, 0), Err(Refusal::new(5)));
    assert_eq!(direction(0, 0, sound, 0, 261_889), Err(Refusal::new(5)));
    assert_eq!(direction(0, 0, sound, 0, 0), Ok([0, 0, 1_000_000_000]));

    let refused = |entry: Entry, change: &dyn Fn(&mut Call)| {
        let mut call = dark_frame(entry, 7, 7, 50);
        (call.lens, call.cx) = (none, -1);
        change(&mut call);
        call.run_wide(&mut Effort::unlimited()).unwrap().out[0]
    };
    for entry in [Entry::Chain, Entry::ChainByIndex] {
        assert_eq!(refused(entry, &|call| call.samples.set(3, 4_096)), 4);
        assert_eq!(refused(entry, &|_| ()), 19);
        assert_eq!(refused(entry, &|call| call.lens = sound), 5);
        assert_eq!(refused(entry, &|call| (call.lens, call.cx) = (sound, 0)), 6);
    }
}

//! The lens plate, with the machine's floats.

use crate::answer::Refusal;
use crate::lens::{MILLIMETRES, PIXELS};

/// A plate as a call is handed it.
#[derive(Clone, Copy)]
pub struct Plate {
    pub kind: u32,
    pub first: f64,
    pub second: f64,
}

/// The whole focal number.
pub fn lens(plate: Plate) -> Result<i64, Refusal> {
    let length = match plate.kind {
        MILLIMETRES if plate.first > 0.0 && plate.second > 0.0 => plate.first * 1_000.0 / plate.second,
        PIXELS if plate.first > 0.0 => plate.first,
        _ => return Err(Refusal::new(19)),
    };
    // Nothing is lost by a power of two, unless the length is far too large.
    let focal = 256.0 * length;
    if !(16_384.0..4_194_305.0).contains(&focal) {
        return Err(Refusal::new(19));
    }
    Ok(focal as i64)
}

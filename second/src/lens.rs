//! The lens plate, as its maker states it, and the whole focal number it gives.

use crate::answer::Refusal;
use crate::float::{self, divide, is_infinite, is_negative, is_number, is_zero, multiply, of_whole, Float};

/// The first number is the focal length in millimetres, the second the pitch of the pixels in micrometres.
pub const MILLIMETRES: u32 = 0;
/// The first number is the focal length in pixels, and no second one is given.
pub const PIXELS: u32 = 1;

/// A plate as a call is handed it.
#[derive(Debug, Clone, Copy, Default, PartialEq, Eq)]
pub struct Plate {
    pub kind: u32,
    pub first: Float,
    pub second: Float,
}

impl Plate {
    /// The pixel form of a whole focal number: the number divided by 256.
    pub fn of_focal(focal: i64) -> Plate {
        Plate { kind: PIXELS, first: float::nearest(focal < 0, focal.unsigned_abs().into(), -8), second: 0 }
    }

    /// The whole number that is at most 256 times the focal length in pixels and less than one below it.
    pub fn focal(self) -> Result<i128, Refusal> {
        self.length()
            .and_then(floor_256)
            .filter(|focal| (16_384..=4_194_304).contains(focal))
            .ok_or(Refusal::new(19))
    }

    /// The focal length in pixels, where the kind is one of the two and every number given is above zero.
    fn length(self) -> Option<Float> {
        match self.kind {
            MILLIMETRES if above_zero(self.first) && above_zero(self.second) => {
                Some(divide(multiply(self.first, of_whole(1_000)), self.second))
            }
            PIXELS if above_zero(self.first) => Some(self.first),
            _ => None,
        }
    }
}

fn above_zero(a: Float) -> bool {
    is_number(a) && !is_negative(a) && !is_zero(a)
}

/// 256 times a float that is not negative, without what is behind the point; nothing where it is far too large or no
/// number.
fn floor_256(a: Float) -> Option<i128> {
    if !is_number(a) || is_infinite(a) {
        return None;
    }
    let (size, exponent) = float::parts(a);
    match exponent + 8 {
        shift if shift > 64 => None,
        shift if shift >= 0 => Some((size << shift) as i128),
        shift => Some((size >> (-shift).min(64)) as i128),
    }
}

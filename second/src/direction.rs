//! The direction of a position, seen through the camera's settings.

use crate::answer::{Refusal, Vector};
use crate::lens::Plate;
use crate::{narrow, root, UNIT};

/// The largest position and centre, in 1/256 pixel.
const FARTHEST: i128 = 261_888;

/// The centre and the focal length, within rules 5 and 19.
pub struct Optics {
    cx: i128,
    cy: i128,
    focal: i128,
}

pub fn direction(cx: i128, cy: i128, lens: Plate, x: i128, y: i128) -> Result<Vector, Refusal> {
    let optics = Optics::check(cx, cy, lens)?;
    if !(0..=FARTHEST).contains(&x) || !(0..=FARTHEST).contains(&y) {
        return Err(Refusal::new(5));
    }
    Ok(optics.direction(x, y))
}

impl Optics {
    /// The lens comes before the centre.
    pub fn check(cx: i128, cy: i128, lens: Plate) -> Result<Self, Refusal> {
        let focal = lens.focal()?;
        if !(0..=FARTHEST).contains(&cx) || !(0..=FARTHEST).contains(&cy) {
            return Err(Refusal::new(5));
        }
        Ok(Optics { cx, cy, focal })
    }

    /// Right, down, out to the sky. Rust's `/` rounds toward zero, as the rules ask.
    pub fn direction(&self, x: i128, y: i128) -> Vector {
        let (right, down) = (x - self.cx, y - self.cy);
        let length = root(65_536 * (right * right + down * down + self.focal * self.focal));
        [right, down, self.focal].map(|part| narrow(256 * UNIT * part / length))
    }
}

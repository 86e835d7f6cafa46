//! Made-up skies: star directions within the catalogue's rules, and camera turns, all in whole numbers.

use crate::catalogue::RECORD_BYTES;
use crate::random::Random;
use crate::{dot, root, UNIT};

/// The vector brought to length 10^9, close enough for the catalogue's rule: the two smaller components
/// are scaled, the largest one is the root of what they leave, at most 2 x 10^9 + 1 short in the square.
pub fn unit(v: [i128; 3]) -> [i32; 3] {
    let length = root(dot(&v, &v) << 40);
    assert!(length > 0, "a direction needs a length");
    let mut scaled = v.map(|component| ((UNIT * component) << 20) / length);
    let largest = (0..3).max_by_key(|&k| scaled[k].abs()).unwrap();
    let rest: i128 = (0..3).filter(|&k| k != largest).map(|k| scaled[k] * scaled[k]).sum();
    scaled[largest] = root(UNIT * UNIT - rest) * scaled[largest].signum();
    scaled.map(|component| component as i32)
}

/// A star anywhere on the sky: a point of a ball, so that no direction is favoured.
pub fn anywhere(random: &Random) -> [i32; 3] {
    const REACH: i64 = 1_000_000;
    loop {
        let v = [0; 3].map(|_| i128::from(random.between(-REACH, REACH)));
        let square = dot(&v, &v);
        if square > 1_000_000 && square <= i128::from(REACH * REACH) {
            return unit(v);
        }
    }
}

/// A star within about 1 / `closeness` of the given one.
pub fn near(random: &Random, star: [i32; 3], closeness: i64) -> [i32; 3] {
    let reach = (UNIT as i64 / closeness).max(1);
    unit(star.map(|component| i128::from(i64::from(component) + random.between(-reach, reach))))
}

/// The star seen in a mirror.
pub fn mirror([x, y, z]: [i32; 3]) -> [i32; 3] {
    [-x, y, z]
}

/// The stars of the bench set's kind: few angles, so that many pairs agree exactly.
pub fn simple(random: &Random) -> [i32; 3] {
    let mut star = random.pick(&[[1_000_000_000, 0, 0], [600_000_000, 800_000_000, 0]]);
    random.shuffle(&mut star);
    star.map(|component| if random.chance(50) { component } else { -component })
}

/// A camera turn, from a quaternion of whole numbers: the matrix is exact over the quaternion's square.
pub struct Turn {
    matrix: [[i128; 3]; 3],
    scale: i128,
}

impl Turn {
    pub fn random(random: &Random) -> Self {
        loop {
            let q = [0; 4].map(|_| i128::from(random.between(-100, 100)));
            if q != [0; 4] {
                return Turn::quaternion(q);
            }
        }
    }

    fn quaternion([w, x, y, z]: [i128; 4]) -> Self {
        Turn {
            matrix: [
                [w * w + x * x - y * y - z * z, 2 * (x * y - w * z), 2 * (x * z + w * y)],
                [2 * (x * y + w * z), w * w - x * x + y * y - z * z, 2 * (y * z - w * x)],
                [2 * (x * z - w * y), 2 * (y * z + w * x), w * w - x * x - y * y + z * z],
            ],
            scale: w * w + x * x + y * y + z * z,
        }
    }

    /// A star's direction in the camera, within ±10^9.
    pub fn to_camera(&self, star: [i32; 3]) -> [i32; 3] {
        let star = star.map(i128::from);
        let turned = [0, 1, 2].map(|row| dot(&self.matrix[row], &star) / self.scale);
        turned.map(|component| component.clamp(-UNIT, UNIT) as i32)
    }

    /// The star that stands in this direction of the camera.
    pub fn to_sky(&self, direction: [i128; 3]) -> [i32; 3] {
        let column = |k: usize| [self.matrix[0][k], self.matrix[1][k], self.matrix[2][k]];
        unit([0, 1, 2].map(|k| dot(&column(k), &direction)))
    }
}

/// The catalogue's bytes: the stars in the given order, with rising identities and any magnitudes.
pub fn catalogue(random: &Random, stars: &[[i32; 3]]) -> Vec<u8> {
    let mut identity = random.below(1_000) as u32;
    let mut bytes = Vec::with_capacity(RECORD_BYTES * stars.len());
    for star in stars {
        bytes.extend(record_of(identity, *star, any_magnitude(random)));
        identity += 1 + random.below(4_000_000) as u32;
    }
    bytes
}

/// A magnitude in thousandths, sometimes the least or the greatest there may be.
pub fn any_magnitude(random: &Random) -> i32 {
    match random.below(8) {
        0 => random.pick(&[-2_000, 12_000, -1, 0]),
        _ => random.between(-2_000, 12_000) as i32,
    }
}

/// A star of magnitude 2.5.
pub fn record(identity: u32, star: [i32; 3]) -> [u8; RECORD_BYTES] {
    record_of(identity, star, 2_500)
}

pub fn record_of(identity: u32, star: [i32; 3], magnitude: i32) -> [u8; RECORD_BYTES] {
    let mut bytes = [0; RECORD_BYTES];
    bytes[..4].copy_from_slice(&identity.to_be_bytes());
    for (k, component) in star.iter().enumerate() {
        bytes[4 + 4 * k..8 + 4 * k].copy_from_slice(&component.to_be_bytes());
    }
    bytes[16..].copy_from_slice(&magnitude.to_be_bytes());
    bytes
}

/// Directions whose squares differ from 10^18 by exactly 4 x 10^9, the most allowed.
pub const LONGEST: [i32; 3] = [247_009_888, 969_012_960, 50_816];
pub const SHORTEST: [i32; 3] = [55_421_600, 998_463_040, 2_720];

/// The next ones beyond: the square is 1 too large, or 2 too small (1 too small is not the sum of three
/// squares).
pub const TOO_LONG: [i32; 3] = [962_381_179, 271_702_906, 34_318];
pub const TOO_SHORT: [i32; 3] = [872_917_434, 487_867_961, 45_261];

//! A second implementation of the star camera's rules, written from documents 01 and 02 alone.
//!
//! The modules named after the steps, `attitude` to `search`, follow the wording of the rules and compute
//! in 128-bit integers, so that no sum or product can overflow. `plain` does the same work with ordinary
//! integers for speed. The rest makes calls, records them, and calls the proved library.

pub mod answer;

pub mod attitude;
pub mod burst;
pub mod catalogue;
pub mod chain;
pub mod compare;
pub mod cut;
pub mod desk;
pub mod direction;
pub mod files;
pub mod flight;
pub mod float;
pub mod frame;
pub mod gimbal;
pub mod guider;
pub mod index;
pub mod lens;
pub mod listing;
pub mod ranking;
pub mod search;

pub mod plain;

pub mod call;
pub mod damage;
pub mod dense;
pub mod generate;
pub mod guided;
pub mod hard;
pub mod random;
pub mod recorded;
pub mod sky;

#[cfg(feature = "linked")]
mod interface;
#[cfg(feature = "linked")]
pub mod linked;
#[cfg(feature = "stub")]
mod stub;
#[cfg(feature = "linked")]
pub mod typed;

/// 10^9: the length of a direction.
pub const UNIT: i128 = 1_000_000_000;

/// The greatest whole number whose square does not exceed `n` (0 or more).
pub fn root(n: i128) -> i128 {
    assert!((0..1 << 126).contains(&n));
    // low² <= n < high² throughout.
    let (mut low, mut high) = (0_i128, 1_i128 << 63);
    while high - low > 1 {
        let middle = (low + high) / 2;
        if middle * middle <= n {
            low = middle;
        } else {
            high = middle;
        }
    }
    low
}

pub fn dot(a: &[i128; 3], b: &[i128; 3]) -> i128 {
    a[0] * b[0] + a[1] * b[1] + a[2] * b[2]
}

pub fn cross(a: &[i128; 3], b: &[i128; 3]) -> [i128; 3] {
    [a[1] * b[2] - a[2] * b[1], a[2] * b[0] - a[0] * b[2], a[0] * b[1] - a[1] * b[0]]
}

/// The triple product a · (b x c).
pub fn triple(a: &[i128; 3], b: &[i128; 3], c: &[i128; 3]) -> i128 {
    dot(a, &cross(b, c))
}

/// A wide result as the 64-bit number the interface gives; it must fit.
pub(crate) fn narrow(n: i128) -> i64 {
    i64::try_from(n).expect("the rules keep every result within 64 bits")
}

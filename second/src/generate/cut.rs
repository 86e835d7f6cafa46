//! Catalogues to be cut.

use super::{any_floor, any_stars};
use crate::call::{Buffer, Call, Entry};
use crate::catalogue;
use crate::random::Random;
use crate::sky;

pub fn cut_of(catalogue: &[u8], limit: i32, closeness: i64) -> Call {
    Call { catalogue: Buffer::of(catalogue), limit, closeness, ..Call::new(Entry::Cut) }
}

/// The limit is often exactly a star's magnitude, and the closeness exactly a pair's dot product.
pub fn any_cut(random: &Random) -> Call {
    let most = if random.below(100) == 0 { 512 } else { random.pick(&[1, 3, 8, 30]) };
    let bytes = sky::catalogue(random, &any_stars(random, most));
    let limit = any_limit(random, &bytes);
    let closeness = any_floor(random, &bytes);
    cut_of(&bytes, limit, closeness)
}

pub fn any_limit(random: &Random, catalogue: &[u8]) -> i32 {
    let stars = catalogue::read(catalogue).expect("the catalogue keeps its rules");
    match random.below(6) {
        0 => random.pick(&[i32::MIN, -2_001, -2_000, 12_000, 12_001, i32::MAX]),
        1 => random.between(-2_000, 12_000) as i32,
        2 => random.pick(&stars).magnitude - 1,
        _ => random.pick(&stars).magnitude.max(random.pick(&stars).magnitude),
    }
}

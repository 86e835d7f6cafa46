//! A flight catalogue, cut out of a larger one in the same buffer.

use crate::answer::Refusal;
use crate::catalogue::{self, Star, RECORD_BYTES};
use crate::dot;

/// What the freed room is filled with.
const FREED: u8 = 255;

/// Moves the kept records to the front, in their order, and gives their number.
pub fn cut(catalogue: &mut [u8], limit: i32, closeness: i64) -> Result<usize, Refusal> {
    let kept = kept(catalogue, limit, closeness)?;
    let records: Vec<u8> =
        kept.iter().flat_map(|&k| catalogue[RECORD_BYTES * k..RECORD_BYTES * (k + 1)].to_vec()).collect();
    catalogue.fill(FREED);
    catalogue[..records.len()].copy_from_slice(&records);
    Ok(kept.len())
}

/// The numbers of the records to be kept, at least one.
pub fn kept(catalogue: &[u8], limit: i32, closeness: i64) -> Result<Vec<usize>, Refusal> {
    let stars = catalogue::read(catalogue)?;
    let within = |star: &Star| star.magnitude <= limit;
    let close = |star: &Star, other: &Star| dot(&star.direction, &other.direction) >= i128::from(closeness);
    let is_kept = |k: &usize| {
        let crowds = |(j, other): (usize, &Star)| j != *k && within(other) && close(&stars[*k], other);
        within(&stars[*k]) && !stars.iter().enumerate().any(crowds)
    };
    let kept: Vec<usize> = (0..stars.len()).filter(is_kept).collect();
    if kept.is_empty() {
        return Err(Refusal::new(21));
    }
    Ok(kept)
}

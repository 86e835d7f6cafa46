//! A catalogue cut in place: judged first, each pair once, then moved in one pass.

use super::{dot, read_catalogue, CATALOGUE_RECORD, MOST_RECORDS};
use crate::answer::{Refusal, Vector};

pub fn cut(catalogue: &mut [u8], limit: i32, closeness: i64) -> Result<usize, Refusal> {
    let stars = read_catalogue(catalogue)?;
    let mut within = [false; MOST_RECORDS];
    for (mark, record) in within.iter_mut().zip(catalogue.chunks_exact(CATALOGUE_RECORD)) {
        *mark = i32::from_be_bytes([record[16], record[17], record[18], record[19]]) <= limit;
    }
    let crowded = crowded(&stars, &within, closeness);
    let kept = |k: &usize| within[*k] && !crowded[*k];
    if !(0..stars.len()).any(|k| kept(&k)) {
        return Err(Refusal::new(21));
    }
    let mut free = 0;
    for k in (0..stars.len()).filter(kept) {
        let at = CATALOGUE_RECORD * k;
        catalogue.copy_within(at..at + CATALOGUE_RECORD, free);
        free += CATALOGUE_RECORD;
    }
    catalogue[free..].fill(255);
    Ok(free / CATALOGUE_RECORD)
}

/// The stars that are close to another within the limit.
fn crowded(stars: &[Vector], within: &[bool; MOST_RECORDS], closeness: i64) -> [bool; MOST_RECORDS] {
    let mut crowded = [false; MOST_RECORDS];
    for (b, second) in stars.iter().enumerate().filter(|&(b, _)| within[b]) {
        for (a, first) in stars[..b].iter().enumerate() {
            if within[a] && dot(first, second) >= closeness {
                (crowded[a], crowded[b]) = (true, true);
            }
        }
    }
    crowded
}

//! Catalogues cut in place.

use super::index::pair_dots;
use super::{damaged, vary};
use crate::call::{Call, Entry};
use crate::generate::{any_call, any_cut, cut_of, random_stars, simple_stars};
use crate::random::Random;
use crate::sky::{self, record_of};

const UNIT: i32 = 1_000_000_000;
const X: [i32; 3] = [UNIT, 0, 0];
const Y: [i32; 3] = [0, UNIT, 0];
const Z: [i32; 3] = [0, 0, UNIT];
/// Its dot products with the axes x and y are 0.6 and 0.8 of the unit's square.
const BETWEEN: [i32; 3] = [600_000_000, 800_000_000, 0];

/// The catalogue of these directions and magnitudes.
fn stars(records: &[([i32; 3], i32)]) -> Vec<u8> {
    records
        .iter()
        .zip(3..)
        .flat_map(|(&(star, magnitude), identity)| record_of(identity, star, magnitude))
        .collect()
}

pub fn cuts(random: &Random, calls: &mut Vec<Call>) {
    // Between x and y, close to both: all three go, or one pair, or none. With it fainter than the limit none does.
    let (near, nearer) = (600_000_000_000_000_000, 800_000_000_000_000_000);
    for order in [[0, 1, 2, 3], [1, 0, 2, 3], [3, 2, 1, 0], [0, 3, 2, 1]] {
        let records = [(X, 1_000), (BETWEEN, 2_000), (Y, 3_000), (Z, 12_000)];
        let bytes = stars(&order.map(|k: usize| records[k]));
        for closeness in [i64::MIN, -1, 0, 1, near - 1, near, near + 1, nearer, nearer + 1, i64::MAX] {
            for limit in [i32::MIN, 999, 1_000, 1_999, 2_000, 3_000, 11_999, 12_000, i32::MAX] {
                calls.push(cut_of(&bytes, limit, closeness));
            }
        }
    }
    // Equal directions are two stars; a star alone is not close to itself.
    for closeness in [i64::MIN, 1_000_000_000_000_000_000, 1_000_000_000_000_000_001, i64::MAX] {
        for magnitudes in [[500, 500, 500], [500, 500, 501], [500, 501, 501], [-2_000, 0, 12_000]] {
            let twins = stars(&[(X, magnitudes[0]), (X, magnitudes[1]), (Y, magnitudes[2])]);
            vary(calls, &cut_of(&twins, 0, closeness), &[-2_000, 499, 500, 501], |call, limit| {
                call.limit = limit
            });
        }
        calls.push(cut_of(&stars(&[(Z, 700)]), 700, closeness));
        calls.push(cut_of(&stars(&[(Z, 700)]), 699, closeness));
    }
    every_closeness(random, calls);
    large(random, calls);
    for _ in 0..120 {
        calls.push(any_call(random, Entry::Cut));
    }
    damaged(random, Entry::Cut, 20, 30, || any_cut(random), calls);
}

/// Every closeness that makes a difference to a few stars, for limits that take in more and more of them.
fn every_closeness(random: &Random, calls: &mut Vec<Call>) {
    for directions in [random_stars(random, 5), simple_stars(random, 6)] {
        let records: Vec<([i32; 3], i32)> =
            directions.iter().copied().zip([900, 300, 600, 900, 100, 12_000]).collect();
        let bytes = stars(&records);
        let mut closenesses: Vec<i64> =
            pair_dots(&directions).into_iter().flat_map(|dot| [dot - 1, dot, dot + 1]).collect();
        closenesses.sort_unstable();
        closenesses.dedup();
        for closeness in closenesses {
            vary(calls, &cut_of(&bytes, 0, closeness), &[600, 900, 12_000], |call, limit| call.limit = limit);
        }
    }
}

/// As many stars as there may be: nearly all kept, about half, few, and none.
fn large(random: &Random, calls: &mut Vec<Call>) {
    let directions = random_stars(random, 512);
    let bytes = sky::catalogue(random, &directions);
    let dots = pair_dots(&directions);
    for (limit, pairs) in [(12_000, 0), (12_000, 3), (12_000, 150), (5_000, 400), (12_000, dots.len() - 2)] {
        let closeness = dots.get(dots.len() - pairs).copied().unwrap_or(i64::MAX);
        calls.push(cut_of(&bytes, limit, closeness));
    }
    calls.push(cut_of(&bytes, 12_000, i64::MIN));
}

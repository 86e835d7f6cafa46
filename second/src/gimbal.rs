//! The matrix as direction cosines, and a target direction turned by them.

use crate::answer::Refusal;
use crate::float::{add, divide, multiply, of_whole, Float};
use crate::UNIT;

/// No entry of a matrix is farther from 0.
const FARTHEST_ENTRY: u64 = 8_000_000_000;

/// Nine numbers by rows.
pub type Rows<T> = [T; 9];

/// Each entry as a float, with nothing lost, divided by 10^9.
pub fn cosines(matrix: &Rows<i64>) -> Result<Rows<Float>, Refusal> {
    if matrix.iter().any(|entry| entry.unsigned_abs() > FARTHEST_ENTRY) {
        return Err(Refusal::new(23));
    }
    Ok(matrix.map(|entry| divide(of_whole(entry), of_whole(UNIT as i64))))
}

/// Each row by the target: the products added left to right.
pub fn turned(rows: &Rows<Float>, target: &[Float; 3]) -> [Float; 3] {
    [0, 3, 6].map(|row| {
        let product = |k: usize| multiply(rows[row + k], target[k]);
        add(add(product(0), product(1)), product(2))
    })
}

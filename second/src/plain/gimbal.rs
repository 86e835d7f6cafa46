//! Direction cosines, with the machine's floats.

use super::UNIT;
use crate::answer::Refusal;

const FARTHEST_ENTRY: u64 = 8_000_000_000;

pub fn cosines(matrix: &[i64; 9]) -> Result<[f64; 9], Refusal> {
    if matrix.iter().any(|entry| entry.unsigned_abs() > FARTHEST_ENTRY) {
        return Err(Refusal::new(23));
    }
    Ok(matrix.map(|entry| entry as f64 / UNIT as f64))
}

pub fn turned(rows: &[f64; 9], [x, y, z]: &[f64; 3]) -> [f64; 3] {
    [0, 3, 6].map(|k| rows[k] * x + rows[k + 1] * y + rows[k + 2] * z)
}

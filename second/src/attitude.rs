//! The attitude matrix from two directions and their stars (TRIAD).

use crate::answer::{Matrix, Refusal};
use crate::{cross, dot, narrow, root, UNIT};

/// Below this the cross product is too short to tell an axis.
const SHORTEST: i128 = 1 << 30;

/// From camera v1, camera v2, star v1, star v2.
pub fn attitude(vectors: &[i64; 12]) -> Result<Matrix, Refusal> {
    let wide = vectors.map(i128::from);
    if wide.iter().any(|component| component.abs() > UNIT) {
        return Err(Refusal::new(8));
    }
    let vector = |k: usize| [wide[3 * k], wide[3 * k + 1], wide[3 * k + 2]];
    carry([vector(0), vector(1)], [vector(2), vector(3)])
}

/// The matrix that carries the sky to the camera.
pub fn carry(camera: [[i128; 3]; 2], sky: [[i128; 3]; 2]) -> Result<Matrix, Refusal> {
    let t = triad(&camera[0], &camera[1])?;
    let s = triad(&sky[0], &sky[1])?;
    let entry = |row: usize, column: usize| {
        narrow((0..3).map(|axis| t[axis][row] * s[axis][column]).sum::<i128>() / UNIT)
    };
    Ok([0, 1, 2].map(|row| [0, 1, 2].map(|column| entry(row, column))))
}

/// The three axes of one side.
fn triad(v1: &[i128; 3], v2: &[i128; 3]) -> Result<[[i128; 3]; 3], Refusal> {
    let c = cross(v1, v2);
    let largest = c[0].abs().max(c[1].abs()).max(c[2].abs());
    if largest < SHORTEST {
        return Err(Refusal::new(14));
    }
    let mut power = 1;
    while largest / power >= SHORTEST {
        power *= 2;
    }
    let d = c.map(|component| component / power);
    let n = root(dot(&d, &d));
    let t2 = d.map(|component| UNIT * component / n);
    let t3 = cross(v1, &t2).map(|component| component / UNIT);
    Ok([*v1, t2, t3])
}

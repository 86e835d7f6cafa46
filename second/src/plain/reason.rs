//! Why a pixel has its verdict.

use super::{check_frame, Frame};
use crate::answer::{Kind, Reason, Refusal, Side};

pub fn reason(
    samples: &[u16],
    width: usize,
    height: usize,
    threshold: usize,
    row: usize,
    column: usize,
) -> Result<Reason, Refusal> {
    let frame = check_frame(samples, width, height, threshold)?;
    if row >= height || column >= width {
        return Err(Refusal::new(15));
    }
    Ok(frame.reason(row, column))
}

impl Frame<'_> {
    fn reason(&self, row: usize, column: usize) -> Reason {
        let own = self.line(row)[column];
        if own < self.threshold {
            return Reason::Dark { sample: own.into(), threshold: self.threshold.into() };
        }
        if let Some((row, column)) = self.first_beating(row, column) {
            return Reason::Beaten { row, column };
        }
        match self.lit_kind(row, column) {
            Kind::Measured(star) => Reason::Measured(star),
            Kind::Lone => Reason::Lone { largest: self.largest_beside(row, column).into() },
            _ => Reason::Edge(self.first_side(row, column)),
        }
    }

    /// The first pixel of the window, in row order, that beats this one.
    fn first_beating(&self, row: usize, column: usize) -> Option<(usize, usize)> {
        let own = self.line(row)[column];
        let left = column.saturating_sub(3);
        let right = (column + 4).min(self.width);
        for r in row.saturating_sub(3)..(row + 4).min(self.height) {
            for (c, &other) in self.line(r).iter().enumerate().take(right).skip(left) {
                if other > own || (other == own && (r, c) < (row, column)) {
                    return Some((r, c));
                }
            }
        }
        None
    }

    fn largest_beside(&self, row: usize, column: usize) -> u16 {
        let beside = |r: usize| {
            let line = self.line(r);
            line[column - 1].max(line[column + 1])
        };
        let above = self.line(row - 1)[column];
        let below = self.line(row + 1)[column];
        beside(row - 1).max(beside(row)).max(beside(row + 1)).max(above).max(below)
    }

    fn first_side(&self, row: usize, column: usize) -> Side {
        if column < 3 {
            Side::Left
        } else if column + 3 >= self.width {
            Side::Right
        } else if row < 3 {
            Side::Top
        } else {
            Side::Bottom
        }
    }
}

//! Pixel verdicts, positions and the list of a frame.

use crate::answer::{Centroid, Kind, List, Reason, Refusal, Side, Verdict};
use crate::narrow;
use std::cmp::Reverse;

const LARGEST_SAMPLE: i128 = 4_095;
const STARS_KEPT: usize = 8;

/// A frame that keeps rules 1 to 4.
pub struct Frame<'a> {
    samples: &'a [u16],
    width: i128,
    height: i128,
    threshold: i128,
}

pub fn verdict(
    samples: &[u16],
    width: i128,
    height: i128,
    threshold: i128,
    row: i128,
    column: i128,
) -> Result<Verdict, Refusal> {
    let frame = Frame::check(samples, width, height, threshold)?;
    if !frame.contains(row, column) {
        return Err(Refusal::new(15));
    }
    Ok(frame.verdict(row, column))
}

/// Why the pixel has its verdict.
pub fn reason(
    samples: &[u16],
    width: i128,
    height: i128,
    threshold: i128,
    row: i128,
    column: i128,
) -> Result<Reason, Refusal> {
    let frame = Frame::check(samples, width, height, threshold)?;
    if !frame.contains(row, column) {
        return Err(Refusal::new(15));
    }
    Ok(frame.reason(row, column))
}

pub fn list(samples: &[u16], width: i128, height: i128, threshold: i128) -> Result<List, Refusal> {
    Ok(Frame::check(samples, width, height, threshold)?.list())
}

impl<'a> Frame<'a> {
    pub fn check(samples: &'a [u16], width: i128, height: i128, threshold: i128) -> Result<Self, Refusal> {
        if !(7..=1_024).contains(&width) || !(7..=1_024).contains(&height) {
            return Err(Refusal::new(1));
        }
        if samples.len() as i128 != width * height {
            return Err(Refusal::new(2));
        }
        if !(1..=LARGEST_SAMPLE).contains(&threshold) {
            return Err(Refusal::new(3));
        }
        if let Some(place) = samples.iter().position(|&sample| i128::from(sample) > LARGEST_SAMPLE) {
            return Err(Refusal::at(4, place));
        }
        Ok(Frame { samples, width, height, threshold })
    }

    /// The measured pixels by falling brightness, equal ones in row order, and the counts of the frame.
    pub fn list(&self) -> List {
        let mut list = List { stars: Vec::new(), measured: 0, edge: 0, lone: 0 };
        for row in 0..self.height {
            for column in 0..self.width {
                match self.verdict(row, column).kind {
                    Kind::Dark | Kind::Beaten => {}
                    Kind::Edge => list.edge += 1,
                    Kind::Lone => list.lone += 1,
                    Kind::Measured(star) => {
                        list.measured += 1;
                        list.stars.push(star);
                    }
                }
            }
        }
        // The stars were met in row order and this sort keeps equal ones as they stand.
        list.stars.sort_by_key(|star| Reverse(star.brightness));
        list.stars.truncate(STARS_KEPT);
        list
    }

    fn verdict(&self, row: i128, column: i128) -> Verdict {
        let kind = if self.sample(row, column) < self.threshold {
            Kind::Dark
        } else if self.first_beating(row, column).is_some() {
            Kind::Beaten
        } else if self.broken_side(row, column).is_some() {
            Kind::Edge
        } else if self.is_lone(row, column) {
            Kind::Lone
        } else {
            Kind::Measured(self.measure(row, column))
        };
        Verdict { row: row as usize, column: column as usize, kind }
    }

    fn reason(&self, row: i128, column: i128) -> Reason {
        let sample = self.sample(row, column);
        if sample < self.threshold {
            return Reason::Dark { sample: narrow(sample), threshold: narrow(self.threshold) };
        }
        if let Some((row, column)) = self.first_beating(row, column) {
            return Reason::Beaten { row: row as usize, column: column as usize };
        }
        if let Some(side) = self.broken_side(row, column) {
            return Reason::Edge(side);
        }
        if self.is_lone(row, column) {
            return Reason::Lone { largest: narrow(self.largest_neighbour(row, column)) };
        }
        Reason::Measured(self.measure(row, column))
    }

    fn contains(&self, row: i128, column: i128) -> bool {
        (0..self.height).contains(&row) && (0..self.width).contains(&column)
    }

    fn sample(&self, row: i128, column: i128) -> i128 {
        i128::from(self.samples[(row * self.width + column) as usize])
    }

    /// The first pixel of the window, in row order, that beats this one.
    fn first_beating(&self, row: i128, column: i128) -> Option<(i128, i128)> {
        let own = self.sample(row, column);
        for r in row - 3..=row + 3 {
            for c in column - 3..=column + 3 {
                if !self.contains(r, c) {
                    continue;
                }
                let other = self.sample(r, c);
                let earlier = (r, c) < (row, column);
                let later = (r, c) > (row, column);
                if (earlier && other >= own) || (later && other > own) {
                    return Some((r, c));
                }
            }
        }
        None
    }

    /// The first side with fewer than 3 rows or columns between it and the pixel.
    fn broken_side(&self, row: i128, column: i128) -> Option<Side> {
        let between = [
            (Side::Left, column),
            (Side::Right, self.width - 1 - column),
            (Side::Top, row),
            (Side::Bottom, self.height - 1 - row),
        ];
        between.into_iter().find(|&(_, pixels)| pixels < 3).map(|(side, _)| side)
    }

    /// None of the eight neighbours of a pixel that is not at the edge reaches half the threshold, rounded down.
    fn is_lone(&self, row: i128, column: i128) -> bool {
        self.largest_neighbour(row, column) < self.threshold / 2
    }

    /// The largest sample among the eight neighbours of a pixel that is not at the edge.
    fn largest_neighbour(&self, row: i128, column: i128) -> i128 {
        let mut largest = 0;
        for down in -1..=1 {
            for right in -1..=1 {
                if (down, right) != (0, 0) {
                    largest = largest.max(self.sample(row + down, column + right));
                }
            }
        }
        largest
    }

    /// Position and brightness of a pixel that is neither beaten nor at the edge. Its brightness is above 0: no
    /// border pixel is larger than it, and those of the top border, which are earlier, are smaller.
    fn measure(&self, row: i128, column: i128) -> Centroid {
        let border = self.border_sum(row, column);
        let (mut brightness, mut moment_x, mut moment_y) = (0, 0, 0);
        for down in -2..=2 {
            for right in -2..=2 {
                let weight = (24 * self.sample(row + down, column + right) - border).max(0);
                brightness += weight;
                moment_x += weight * right;
                moment_y += weight * down;
            }
        }
        Centroid {
            x: narrow(256 * column + 256 * moment_x / brightness),
            y: narrow(256 * row + 256 * moment_y / brightness),
            brightness: narrow(brightness),
        }
    }

    /// The sum of the 24 pixels around the 7 x 7 window.
    fn border_sum(&self, row: i128, column: i128) -> i128 {
        let mut sum = 0;
        for down in -3..=3_i128 {
            for right in -3..=3_i128 {
                if down.abs() == 3 || right.abs() == 3 {
                    sum += self.sample(row + down, column + right);
                }
            }
        }
        sum
    }
}

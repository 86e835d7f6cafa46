//! The answers of the calls, and their form as the 64 numbers of the C interface.
//! Shared by the wide and the plain implementation, which only have the shapes in common.

/// A refused call: the number of the rule and the place that breaks it.
#[derive(Debug, Clone, Copy, PartialEq, Eq)]
pub struct Refusal {
    pub number: u8,
    pub place: usize,
}

impl Refusal {
    /// A refusal that names no place.
    pub fn new(number: u8) -> Self {
        Refusal { number, place: 0 }
    }

    pub fn at(number: u8, place: usize) -> Self {
        Refusal { number, place }
    }
}

/// Just so many elements; another count is refused with this number.
pub fn counted<T: Copy, const N: usize>(values: &[T], number: u8) -> Result<[T; N], Refusal> {
    values.try_into().map_err(|_| Refusal::new(number))
}

/// The same of a buffer that is written.
pub fn counted_mut<T, const N: usize>(values: &mut [T], number: u8) -> Result<&mut [T; N], Refusal> {
    values.try_into().map_err(|_| Refusal::new(number))
}

/// The start of a room; one with fewer elements is refused with this number.
pub fn room_for<T, const N: usize>(room: &mut [T], number: u8) -> Result<&mut [T; N], Refusal> {
    room.first_chunk_mut().ok_or(Refusal::new(number))
}

/// A star's measured position in 1/256 pixel, and its brightness.
#[derive(Debug, Clone, Copy, PartialEq, Eq)]
pub struct Centroid {
    pub x: i64,
    pub y: i64,
    pub brightness: i64,
}

#[derive(Debug, Clone, Copy, PartialEq, Eq)]
pub enum Kind {
    Dark,
    Beaten,
    Edge,
    Lone,
    Measured(Centroid),
}

impl Kind {
    pub fn number(self) -> i64 {
        match self {
            Kind::Dark => 0,
            Kind::Beaten => 1,
            Kind::Edge => 2,
            Kind::Lone => 3,
            Kind::Measured(_) => 4,
        }
    }
}

#[derive(Debug, Clone, Copy, PartialEq, Eq)]
pub struct Verdict {
    pub row: usize,
    pub column: usize,
    pub kind: Kind,
}

/// A side of the frame; the order is the one in which broken sides are named.
#[derive(Debug, Clone, Copy, PartialEq, Eq)]
pub enum Side {
    Left,
    Right,
    Top,
    Bottom,
}

/// Why a pixel has its verdict.
#[derive(Debug, Clone, Copy, PartialEq, Eq)]
pub enum Reason {
    Dark {
        sample: i64,
        threshold: i64,
    },
    /// The first pixel of its window that beats it.
    Beaten {
        row: usize,
        column: usize,
    },
    /// The first side that is too near.
    Edge(Side),
    /// The largest sample among its eight neighbours.
    Lone {
        largest: i64,
    },
    Measured(Centroid),
}

/// The brightest stars of a frame, and how many pixels have each verdict.
#[derive(Debug, Clone, PartialEq, Eq)]
pub struct List {
    pub stars: Vec<Centroid>,
    pub measured: usize,
    pub edge: usize,
    pub lone: usize,
}

pub type Vector = [i64; 3];
pub type Matrix = [Vector; 3];

/// The record number given to each direction, or none.
pub type Assignment = Vec<Option<usize>>;

/// Whether another assignment contradicts the search's answer.
#[derive(Debug, Clone, PartialEq, Eq)]
pub enum Rivalry {
    Alone,
    /// The first that does.
    Rival(Assignment),
}

/// What the whole chain gives.
#[derive(Debug, Clone, PartialEq, Eq)]
pub struct Solution {
    pub list: List,
    pub assignment: Assignment,
    pub matrix: Matrix,
}

/// The room every call of the C interface fills.
pub type Numbers = [i64; 64];

/// An accepted answer that can be written as numbers, from number 2 on.
pub trait Answer {
    fn fill(&self, out: &mut Numbers);
}

/// Refusal number and place, then the answer; all else is 0.
pub fn numbers<T: Answer>(answer: &Result<T, Refusal>) -> Numbers {
    let mut out = [0; 64];
    match answer {
        Ok(accepted) => accepted.fill(&mut out),
        Err(refusal) => {
            out[0] = i64::from(refusal.number);
            out[1] = refusal.place as i64;
        }
    }
    out
}

impl Answer for Verdict {
    fn fill(&self, out: &mut Numbers) {
        out[2] = self.row as i64;
        out[3] = self.column as i64;
        out[4] = self.kind.number();
        if let Kind::Measured(star) = self.kind {
            out[5..8].copy_from_slice(&[star.x, star.y, star.brightness]);
        }
    }
}

/// The verdict's number, then three values.
impl Answer for Reason {
    fn fill(&self, out: &mut Numbers) {
        let (kind, values) = match *self {
            Reason::Dark { sample, threshold } => (0, [sample, threshold, 0]),
            Reason::Beaten { row, column } => (1, [row as i64, column as i64, 0]),
            Reason::Edge(side) => (2, [side as i64, 0, 0]),
            Reason::Lone { largest } => (3, [largest, 0, 0]),
            Reason::Measured(star) => (4, [star.x, star.y, star.brightness]),
        };
        out[2] = kind;
        out[3..6].copy_from_slice(&values);
    }
}

impl Answer for List {
    fn fill(&self, out: &mut Numbers) {
        out[2] = self.stars.len() as i64;
        out[3] = self.measured as i64;
        out[4] = self.edge as i64;
        out[5] = self.lone as i64;
        for (k, star) in self.stars.iter().enumerate() {
            out[6 + 3 * k..9 + 3 * k].copy_from_slice(&[star.x, star.y, star.brightness]);
        }
    }
}

impl Answer for Vector {
    fn fill(&self, out: &mut Numbers) {
        out[2..5].copy_from_slice(self);
    }
}

/// A catalogue's number of records.
impl Answer for usize {
    fn fill(&self, out: &mut Numbers) {
        out[2] = *self as i64;
    }
}

/// A ranking's answer is its room.
impl Answer for () {
    fn fill(&self, _out: &mut Numbers) {}
}

fn star_number(star: Option<usize>) -> i64 {
    star.map_or(-1, |record| record as i64)
}

impl Answer for Assignment {
    fn fill(&self, out: &mut Numbers) {
        out[2] = self.len() as i64;
        for (i, star) in self.iter().enumerate() {
            out[3 + i] = star_number(*star);
        }
    }
}

/// 0 or 1, then a rival's names as the search has them.
impl Answer for Rivalry {
    fn fill(&self, out: &mut Numbers) {
        if let Rivalry::Rival(assignment) = self {
            assignment.fill(out);
            out[2] = 1;
        }
    }
}

impl Answer for Matrix {
    fn fill(&self, out: &mut Numbers) {
        out[2..11].copy_from_slice(self.as_flattened());
    }
}

impl Answer for Solution {
    fn fill(&self, out: &mut Numbers) {
        self.list.fill(out);
        for (i, star) in self.assignment.iter().enumerate() {
            out[30 + i] = star_number(*star);
        }
        out[38..47].copy_from_slice(self.matrix.as_flattened());
    }
}

//! The whole chain as one call.

use crate::answer::{Refusal, Solution};
use crate::attitude;
use crate::catalogue::{self, Star};
use crate::direction::Optics;
use crate::frame::Frame;
use crate::index::{self, Index};
use crate::lens::Plate;
use crate::ranking::{check_tolerance, rank, rank_by_index};
use crate::search::{check_enough, check_needed, first_fit, Effort, GaveUp};

pub const CHAIN_ROOM: usize = 4_096;

/// The numbers handed to the chain.
#[derive(Debug, Clone, Copy)]
pub struct Settings {
    pub width: i128,
    pub height: i128,
    pub threshold: i128,
    pub cx: i128,
    pub cy: i128,
    pub lens: Plate,
    pub needed: i128,
    pub tolerance: i128,
}

pub fn chain(
    samples: &[u16],
    settings: &Settings,
    catalogue: &[u8],
    room: &mut [u16],
) -> Result<Solution, Refusal> {
    chain_within(samples, settings, catalogue, room, &mut Effort::unlimited())
        .expect("an unlimited search ends with an answer")
}

pub fn chain_within(
    samples: &[u16],
    settings: &Settings,
    catalogue: &[u8],
    room: &mut [u16],
    effort: &mut Effort,
) -> Result<Result<Solution, Refusal>, GaveUp> {
    chain_with(samples, settings, catalogue, None, room, effort)
}

/// The chain that votes by an index.
pub fn chain_by_index_within(
    samples: &[u16],
    settings: &Settings,
    catalogue: &[u8],
    index: Index,
    room: &mut [u16],
    effort: &mut Effort,
) -> Result<Result<Solution, Refusal>, GaveUp> {
    chain_with(samples, settings, catalogue, Some(index), room, effort)
}

fn chain_with(
    samples: &[u16],
    settings: &Settings,
    catalogue: &[u8],
    index: Option<Index>,
    room: &mut [u16],
    effort: &mut Effort,
) -> Result<Result<Solution, Refusal>, GaveUp> {
    match check(samples, settings, catalogue, index, room) {
        Err(refusal) => Ok(Err(refusal)),
        Ok((frame, optics, stars)) => run(&frame, &optics, &stars, index, settings, room, effort),
    }
}

/// Everything that is refused before a step is taken, in the order of the numbers; but the lens is tested right after
/// the frame, and an index right after the catalogue.
fn check<'a>(
    samples: &'a [u16],
    settings: &Settings,
    catalogue: &[u8],
    index: Option<Index>,
    room: &[u16],
) -> Result<(Frame<'a>, Optics, Vec<Star>), Refusal> {
    let frame = Frame::check(samples, settings.width, settings.height, settings.threshold)?;
    let optics = Optics::check(settings.cx, settings.cy, settings.lens)?;
    let stars = catalogue::read(catalogue)?;
    if let Some(index) = index {
        index::check(index, &stars)?;
    }
    check_needed(settings.needed)?;
    check_tolerance(settings.tolerance)?;
    if room.len() < CHAIN_ROOM {
        return Err(Refusal::new(10));
    }
    Ok((frame, optics, stars))
}

/// The steps; the room is written only once there are directions enough.
fn run(
    frame: &Frame,
    optics: &Optics,
    stars: &[Star],
    index: Option<Index>,
    settings: &Settings,
    room: &mut [u16],
    effort: &mut Effort,
) -> Result<Result<Solution, Refusal>, GaveUp> {
    let list = frame.list();
    let directions: Vec<[i128; 3]> = list
        .stars
        .iter()
        .map(|star| optics.direction(star.x.into(), star.y.into()).map(i128::from))
        .collect();
    if let Err(refusal) = check_enough(directions.len(), settings.needed) {
        return Ok(Err(refusal));
    }
    match index {
        None => rank(&directions, stars, settings.tolerance, room),
        Some(index) => rank_by_index(&directions, stars, index, settings.tolerance, room),
    }
    let ranking = &room[..directions.len() * stars.len()];
    let assignment =
        match first_fit(&directions, stars, settings.needed, settings.tolerance, ranking, effort)? {
            Ok(assignment) => assignment,
            Err(refusal) => return Ok(Err(refusal)),
        };
    // At least three directions have a star, so there are a first and a second.
    let mut assigned = assignment
        .iter()
        .enumerate()
        .filter_map(|(i, star)| Some((directions[i], stars[(*star)?].direction)));
    let (first, second) = (assigned.next().unwrap(), assigned.next().unwrap());
    let matrix = attitude::carry([first.0, second.0], [first.1, second.1]);
    Ok(matrix.map(|matrix| Solution { list, assignment, matrix }))
}

//! Guiders and the lists they are shown.

use crate::answer::{numbers, Centroid, List, Numbers, Refusal};
use crate::call::{Buffer, Call, Entry};
use crate::guider::{Guide, Guider, Position, GUIDER_NUMBERS};
use crate::random::Random;

const FARTHEST: i64 = 261_888;

pub fn start_of(half_width: i64, guides: &[[i64; 3]]) -> Call {
    let mut call = Call::new(Entry::GuiderStart);
    call.half_width = half_width;
    call.guides = Buffer::of(guides.as_flattened());
    call.guider = Buffer::repeat(GUIDER_NUMBERS, &[-7, 1 << 40, 3]);
    call
}

pub fn guider_frame_of(guider: &Guider, list: &Numbers) -> Call {
    let mut numbers = [0; GUIDER_NUMBERS];
    guider.write(&mut numbers);
    let mut call = Call::new(Entry::GuiderFrame);
    call.guider = Buffer::of(&numbers);
    call.list = Buffer::sparse(list);
    call
}

/// What the list's call gives for stars at these positions.
pub fn listed(positions: &[Position]) -> Numbers {
    let star = |&[x, y]: &Position| Centroid { x, y, brightness: 4_800 };
    let stars: Vec<Centroid> = positions.iter().map(star).collect();
    numbers(&Ok(List { measured: stars.len(), edge: 1, lone: 0, stars }))
}

/// What the list's call gives for a frame with a sample too large.
pub fn refused_frame(place: usize) -> Numbers {
    numbers::<List>(&Err(Refusal::at(4, place)))
}

pub fn any_guider_start(random: &Random) -> Call {
    let guider = any_guider(random);
    let guides: Vec<[i64; 3]> =
        guider.guides.iter().map(|guide| [guide.identity, guide.position[0], guide.position[1]]).collect();
    start_of(guider.half_width, &guides)
}

pub fn any_guider_frame(random: &Random) -> Call {
    let guider = any_guider(random);
    if random.chance(5) {
        return guider_frame_of(&guider, &refused_frame(random.below(1_000)));
    }
    let stars: Vec<Position> = (0..random.below(9)).map(|_| any_star(random, &guider)).collect();
    guider_frame_of(&guider, &listed(&stars))
}

/// Up to four guides close to each other, so that their boxes often share ground; some are dropped.
fn any_guider(random: &Random) -> Guider {
    let half_width = random.pick(&[0, 1, 2, 640, 2_559, 2_560, random.between(0, 2_560)]);
    let middle = any_position(random);
    let guide = |k: usize| Guide {
        identity: random.pick(&[k as i64, 1_000 * k as i64 + 7, i64::from(u32::MAX) - k as i64]),
        position: beside(random, middle, random.pick(&[half_width, 2 * half_width, 5 * half_width + 3])),
        misses: random.pick(&[0, 0, 1, 2, 3, 4, 4, 5]),
    };
    let mut guides: Vec<Guide> = (0..random.below(5)).map(guide).collect();
    random.shuffle(&mut guides);
    Guider { half_width, guides }
}

/// At or near the border of some guide's box, within it, or anywhere.
fn any_star(random: &Random, guider: &Guider) -> Position {
    let (half_width, guides) = (guider.half_width, &guider.guides);
    if guides.is_empty() || random.chance(15) {
        return any_position(random);
    }
    let middle = random.pick(guides).position;
    let steps = [0, half_width, -half_width, half_width + 1, -half_width - 1, half_width / 2];
    middle.map(|part| (part + random.pick(&steps)).clamp(0, FARTHEST))
}

fn any_position(random: &Random) -> Position {
    [0; 2].map(|_| random.pick(&[0, FARTHEST, random.between(0, FARTHEST), random.between(0, FARTHEST)]))
}

fn beside(random: &Random, middle: Position, reach: i64) -> Position {
    middle.map(|part| (part + random.between(-reach, reach)).clamp(0, FARTHEST))
}

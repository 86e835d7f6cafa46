//! Guide boxes that follow their stars from frame to frame.

use crate::answer::{Numbers, Refusal};

/// The numbers of a guider: half-width, guides, then identity, x, y and misses of each of four.
pub const GUIDER_NUMBERS: usize = 2 + 4 * MOST_GUIDES;

const MOST_GUIDES: usize = 4;
const MOST_STARS: i64 = 8;
const WIDEST: i64 = 2_560;
/// The largest position, in 1/256 pixel.
const FARTHEST: i64 = 261_888;
/// A guide with so many misses is dropped.
const DROPPED: i64 = 5;

#[derive(Debug, Clone, Copy, PartialEq, Eq)]
pub struct Guide {
    pub identity: i64,
    pub position: Position,
    pub misses: i64,
}

pub type Position = [i64; 2];

#[derive(Debug, Clone, PartialEq, Eq)]
pub struct Guider {
    pub half_width: i64,
    pub guides: Vec<Guide>,
}

/// What a frame gives: the positions of its list, or nothing where it is refused.
pub type Seen<'a> = Option<&'a [Position]>;

impl Guider {
    /// A guider from a half-width and three numbers a guide: identity, x, y.
    pub fn start(half_width: i64, numbers: &[i64]) -> Result<Guider, Refusal> {
        if numbers.len() % 3 != 0 {
            return Err(Refusal::new(22));
        }
        let guide = |three: &[i64]| Guide { identity: three[0], position: [three[1], three[2]], misses: 0 };
        Guider { half_width, guides: numbers.chunks(3).map(guide).collect() }.check()
    }

    /// The guider that these numbers are, if they are one.
    pub fn read(numbers: &[i64; GUIDER_NUMBERS]) -> Result<Guider, Refusal> {
        let count = usize::try_from(numbers[1]).ok().filter(|&count| count <= MOST_GUIDES);
        let guide = |four: &[i64]| Guide { identity: four[0], position: [four[1], four[2]], misses: four[3] };
        let guides = numbers[2..].chunks(4).take(count.ok_or(Refusal::new(22))?).map(guide).collect();
        Guider { half_width: numbers[0], guides }.check()
    }

    /// Rule 22 for a guider.
    fn check(self) -> Result<Guider, Refusal> {
        let sound = |guide: &Guide| {
            u32::try_from(guide.identity).is_ok()
                && is_position(&guide.position)
                && (0..=DROPPED).contains(&guide.misses)
        };
        let repeats =
            |k: usize| self.guides[..k].iter().any(|earlier| earlier.identity == self.guides[k].identity);
        let fits = (0..=WIDEST).contains(&self.half_width) && self.guides.len() <= MOST_GUIDES;
        if !fits || !self.guides.iter().all(sound) || (0..self.guides.len()).any(repeats) {
            return Err(Refusal::new(22));
        }
        Ok(self)
    }

    /// Writes the guider's numbers; those of guides that it does not have are 0.
    pub fn write(&self, numbers: &mut [i64]) {
        numbers.fill(0);
        (numbers[0], numbers[1]) = (self.half_width, self.guides.len() as i64);
        for (four, guide) in numbers[2..].chunks_mut(4).zip(&self.guides) {
            let [x, y] = guide.position;
            four.copy_from_slice(&[guide.identity, x, y, guide.misses]);
        }
    }

    /// The guider after a frame. A refused frame is none.
    pub fn frame(&self, seen: Seen) -> Result<Guider, Refusal> {
        match seen {
            None => Ok(self.clone()),
            Some(stars) if stars.len() as i64 > MOST_STARS || !stars.iter().all(is_position) => {
                Err(Refusal::new(22))
            }
            Some(stars) => Ok(self.after(stars)),
        }
    }

    /// Every guide is judged by the guider as it stood before.
    fn after(&self, stars: &[Position]) -> Guider {
        let guides = (0..self.guides.len()).map(|k| self.guide_after(k, stars)).collect();
        Guider { half_width: self.half_width, guides }
    }

    fn guide_after(&self, k: usize, stars: &[Position]) -> Guide {
        let guide = self.guides[k];
        if guide.misses == DROPPED {
            return guide;
        }
        match self.followed(k, stars) {
            Some(position) => Guide { position, misses: 0, ..guide },
            None => Guide { misses: guide.misses + 1, ..guide },
        }
    }

    /// The only star in the guide's box, if it is in no other live guide's.
    fn followed(&self, k: usize, stars: &[Position]) -> Option<Position> {
        let inside: Vec<&Position> = stars.iter().filter(|star| self.holds(k, star)).collect();
        let [star] = inside[..] else {
            return None;
        };
        let others = (0..self.guides.len()).filter(|&j| j != k && self.guides[j].misses < DROPPED);
        let shared = others.into_iter().any(|j| self.holds(j, star));
        (!shared).then_some(*star)
    }

    /// The position lies in the guide's box, its border included.
    fn holds(&self, k: usize, position: &Position) -> bool {
        let middle = self.guides[k].position;
        (0..2).all(|axis| (position[axis] - middle[axis]).abs() <= self.half_width)
    }
}

fn is_position(position: &Position) -> bool {
    position.iter().all(|part| (0..=FARTHEST).contains(part))
}

/// The call of a start: writes the guider's numbers where it is accepted. A room for another count of numbers is
/// refused.
pub fn guider_start(half_width: i64, guides: &[i64], guider: &mut [i64]) -> Result<(), Refusal> {
    if guider.len() != GUIDER_NUMBERS {
        return Err(Refusal::new(22));
    }
    Guider::start(half_width, guides)?.write(guider);
    Ok(())
}

/// The call of a frame, with the numbers that the list's call gave for it. The guider is tested even if the frame is
/// refused; its numbers beyond its guides are left alone.
pub fn guider_frame(guider: &mut [i64; GUIDER_NUMBERS], list: &Numbers) -> Result<(), Refusal> {
    let before = Guider::read(guider)?;
    let after = match list[0] {
        0 => before.frame(Some(&listed(list)?)),
        _ => before.frame(None),
    }?;
    for (four, guide) in guider[2..].chunks_mut(4).zip(&after.guides) {
        let [x, y] = guide.position;
        four[1..].copy_from_slice(&[x, y, guide.misses]);
    }
    Ok(())
}

/// The positions that stand in the numbers of an accepted list.
fn listed(list: &Numbers) -> Result<Vec<Position>, Refusal> {
    if !(0..=MOST_STARS).contains(&list[2]) {
        return Err(Refusal::new(22));
    }
    Ok(list[6..].chunks(3).take(list[2] as usize).map(|star| [star[0], star[1]]).collect())
}

//! Guide boxes, with the guider kept as numbers.

use super::POSITIONS;
use crate::answer::{Numbers, Refusal};

const MOST_GUIDES: usize = 4;
const MOST_STARS: i64 = 8;
const DROPPED: i64 = 5;
/// Half-width, guides, then identity, x, y and misses of each of four.
pub type Guider = [i64; 2 + 4 * MOST_GUIDES];

pub fn guider_start(half_width: i64, guides: &[i64]) -> Result<Guider, Refusal> {
    if guides.len() % 3 != 0 || guides.len() > 3 * MOST_GUIDES {
        return Err(Refusal::new(22));
    }
    let mut guider = [0; 2 + 4 * MOST_GUIDES];
    (guider[0], guider[1]) = (half_width, (guides.len() / 3) as i64);
    for (guide, start) in guider[2..].chunks_exact_mut(4).zip(guides.chunks_exact(3)) {
        guide[..3].copy_from_slice(start);
    }
    check(&guider)?;
    Ok(guider)
}

fn check(guider: &Guider) -> Result<(), Refusal> {
    let [half_width, count, guides @ ..] = guider;
    if !(0..=2_560).contains(half_width) || !(0..=MOST_GUIDES as i64).contains(count) {
        return Err(Refusal::new(22));
    }
    let guides = &guides[..4 * *count as usize];
    for (k, guide) in guides.chunks_exact(4).enumerate() {
        let in_range = (0..=i64::from(u32::MAX)).contains(&guide[0])
            && POSITIONS.contains(&guide[1])
            && POSITIONS.contains(&guide[2])
            && (0..=DROPPED).contains(&guide[3]);
        if !in_range || guides.chunks_exact(4).take(k).any(|earlier| earlier[0] == guide[0]) {
            return Err(Refusal::new(22));
        }
    }
    Ok(())
}

pub fn guider_frame(guider: &mut Guider, list: &Numbers) -> Result<(), Refusal> {
    check(guider)?;
    if list[0] != 0 {
        return Ok(());
    }
    if !(0..=MOST_STARS).contains(&list[2]) {
        return Err(Refusal::new(22));
    }
    let stars = &list[6..6 + 3 * list[2] as usize];
    if !stars.chunks_exact(3).all(|star| POSITIONS.contains(&star[0]) && POSITIONS.contains(&star[1])) {
        return Err(Refusal::new(22));
    }
    follow(guider, stars);
    Ok(())
}

/// For each live guide the set of stars in its box, one bit each; then each guide by these sets alone.
fn follow(guider: &mut Guider, stars: &[i64]) {
    let [half_width, count, guides @ ..] = guider;
    let guides = &mut guides[..4 * *count as usize];
    let mut inside = [0_u8; MOST_GUIDES];
    let (mut once, mut twice) = (0_u8, 0_u8);
    for (set, guide) in inside.iter_mut().zip(guides.chunks_exact(4)).filter(|(_, guide)| guide[3] < DROPPED)
    {
        for (k, star) in stars.chunks_exact(3).enumerate() {
            let near = |axis: usize| (star[axis] - guide[1 + axis]).abs() <= *half_width;
            *set |= u8::from(near(0) && near(1)) << k;
        }
        twice |= once & *set;
        once |= *set;
    }
    for (set, guide) in inside.into_iter().zip(guides.chunks_exact_mut(4)) {
        if guide[3] == DROPPED {
            continue;
        }
        guide[3] += 1;
        if set.count_ones() == 1 && set & twice == 0 {
            let star = 3 * set.trailing_zeros() as usize;
            guide[1..].copy_from_slice(&[stars[star], stars[star + 1], 0]);
        }
    }
}

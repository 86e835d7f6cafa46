//! Votes of the catalogue's stars for the directions, and the ranking they give.

use crate::answer::Refusal;
use crate::catalogue::{self, Star};
use crate::index::{self, Index};
use crate::{dot, UNIT};

const MOST_DIRECTIONS: usize = 8;
const LARGEST_TOLERANCE: i128 = 10_000_000_000_000_000;

/// Writes our vote's ranking into the first directions x stars words of the room.
pub fn ranking(
    directions: &[i32],
    catalogue: &[u8],
    tolerance: i128,
    room: &mut [u16],
) -> Result<(), Refusal> {
    let stars = catalogue::read(catalogue)?;
    let directions = read_directions(directions)?;
    check_tolerance(tolerance)?;
    if room.len() < directions.len() * stars.len() {
        return Err(Refusal::new(10));
    }
    rank(&directions, &stars, tolerance, room);
    Ok(())
}

/// The same ranking, with the votes taken from the index wherever it holds all that is needed.
pub fn ranking_by_index(
    directions: &[i32],
    catalogue: &[u8],
    index: Index,
    tolerance: i128,
    room: &mut [u16],
) -> Result<(), Refusal> {
    let stars = catalogue::read(catalogue)?;
    index::check(index, &stars)?;
    let directions = read_directions(directions)?;
    check_tolerance(tolerance)?;
    if room.len() < directions.len() * stars.len() {
        return Err(Refusal::new(10));
    }
    rank_by_index(&directions, &stars, index, tolerance, room);
    Ok(())
}

/// The directions of a list that keeps rule 8.
pub fn read_directions(numbers: &[i32]) -> Result<Vec<[i128; 3]>, Refusal> {
    let in_range = numbers.iter().all(|&n| i128::from(n).abs() <= UNIT);
    if numbers.len() % 3 != 0 || numbers.len() / 3 > MOST_DIRECTIONS || !in_range {
        return Err(Refusal::new(8));
    }
    Ok(numbers.chunks(3).map(|v| [v[0].into(), v[1].into(), v[2].into()]).collect())
}

pub fn check_tolerance(tolerance: i128) -> Result<(), Refusal> {
    if !(0..=LARGEST_TOLERANCE).contains(&tolerance) {
        return Err(Refusal::new(9));
    }
    Ok(())
}

/// Two pairs agree when their dot products differ by at most the tolerance.
pub fn agree(one_pair: i128, other_pair: i128, tolerance: i128) -> bool {
    (one_pair - other_pair).abs() <= tolerance
}

/// Writes the rows one after the other; the room is long enough.
pub fn rank(directions: &[[i128; 3]], stars: &[Star], tolerance: i128, room: &mut [u16]) {
    let star_directions: Vec<[i128; 3]> = stars.iter().map(|star| star.direction).collect();
    let direction_dots = dot_table(directions);
    let star_dots = dot_table(&star_directions);
    for (i, dots_of_i) in direction_dots.iter().enumerate() {
        let votes: Vec<usize> =
            (0..stars.len()).map(|a| votes(dots_of_i, i, &star_dots[a], a, tolerance)).collect();
        write_row(&votes, i, room);
    }
}

/// The rows by an index that has been tested; the room is long enough. A pair of directions whose agreeing star
/// pairs may lie below the floor is voted by the full catalogue, every other pair by the index alone.
pub fn rank_by_index(
    directions: &[[i128; 3]],
    stars: &[Star],
    index: Index,
    tolerance: i128,
    room: &mut [u16],
) {
    for i in 0..directions.len() {
        let mut votes = vec![0; stars.len()];
        for j in (0..directions.len()).filter(|&j| j != i) {
            let direction_pair = dot(&directions[i], &directions[j]);
            if direction_pair - tolerance < index.floor {
                vote_by_catalogue(direction_pair, stars, tolerance, &mut votes);
            } else {
                vote_by_records(direction_pair, index.bytes, tolerance, &mut votes);
            }
        }
        write_row(&votes, i, room);
    }
}

/// A vote for each star of every agreeing pair of the catalogue.
fn vote_by_catalogue(direction_pair: i128, stars: &[Star], tolerance: i128, votes: &mut [usize]) {
    for (a, star) in stars.iter().enumerate() {
        for (b, other) in stars.iter().enumerate() {
            if b != a && agree(direction_pair, dot(&star.direction, &other.direction), tolerance) {
                votes[a] += 1;
            }
        }
    }
}

/// A vote for each star of every agreeing record of the index.
fn vote_by_records(direction_pair: i128, index: &[u8], tolerance: i128, votes: &mut [usize]) {
    for pair in index.chunks(index::RECORD_BYTES).map(index::read_record) {
        if agree(direction_pair, pair.dot, tolerance) {
            votes[pair.first] += 1;
            votes[pair.second] += 1;
        }
    }
}

fn write_row(votes: &[usize], i: usize, room: &mut [u16]) {
    for (place, record) in row(votes).into_iter().enumerate() {
        room[i * votes.len() + place] = record as u16;
    }
}

/// The dot products of every two.
pub fn dot_table(vectors: &[[i128; 3]]) -> Vec<Vec<i128>> {
    vectors.iter().map(|v| vectors.iter().map(|w| dot(v, w)).collect()).collect()
}

/// The number of (j, b), j other than i and b other than a, for which pair i, j agrees with pair a, b.
fn votes(dots_of_i: &[i128], i: usize, dots_of_a: &[i128], a: usize, tolerance: i128) -> usize {
    let mut count = 0;
    for (j, &direction_pair) in dots_of_i.iter().enumerate() {
        for (b, &star_pair) in dots_of_a.iter().enumerate() {
            if j != i && b != a && agree(direction_pair, star_pair, tolerance) {
                count += 1;
            }
        }
    }
    count
}

/// The record numbers by falling votes, equal ones by rising record number.
fn row(votes: &[usize]) -> Vec<usize> {
    let mut records: Vec<usize> = (0..votes.len()).collect();
    records.sort_by(|&a, &b| votes[b].cmp(&votes[a]).then(a.cmp(&b)));
    records
}

//! The index: every pair at or above the floor once and in order, its refusals, and that votes by it are the
//! votes of the plain rule.

use second::answer::Refusal;
use second::call::{Call, Entry};
use second::generate::{any_call, any_floor, by_index, flat, random_stars, simple_stars, View};
use second::index::{index, read_record, Index, Pair};
use second::random::Random;
use second::ranking::{ranking, ranking_by_index};
use second::search::Effort;
use second::sky::{self, record};

const UNIT: i32 = 1_000_000_000;
const FILL: u8 = 0xEE;

fn catalogue(stars: &[[i32; 3]]) -> Vec<u8> {
    stars.iter().zip(1..).flat_map(|(star, identity)| record(identity, *star)).collect()
}

/// The index's bytes, from a room that is too long.
fn bytes(stars: &[[i32; 3]], floor: i64) -> Vec<u8> {
    let mut room = vec![FILL; 6 * stars.len() * stars.len() + 5];
    let records = index(&catalogue(stars), floor.into(), &mut room).unwrap();
    assert!(room[12 * records..].iter().all(|&byte| byte == FILL));
    room.truncate(12 * records);
    room
}

#[test]
fn by_hand() {
    // Dot products: 0 and 1: 0; 0 and 2: 0.6; 1 and 2: 0.8, of 10^18.
    let stars = [[UNIT, 0, 0], [0, UNIT, 0], [600_000_000, 800_000_000, 0]];
    let zero = [0, 0, 0, 0, 0, 0, 0, 0, 0, 0, 0, 1];
    // 6 x 10^17 is 0x0853A0D2313C0000, 8 x 10^17 is 0x0B1A2BC2EC500000.
    let near = [0x08, 0x53, 0xA0, 0xD2, 0x31, 0x3C, 0, 0, 0, 0, 0, 2];
    let nearer = [0x0B, 0x1A, 0x2B, 0xC2, 0xEC, 0x50, 0, 0, 0, 1, 0, 2];
    assert_eq!(bytes(&stars, i64::MIN), [zero, near, nearer].concat());
    assert_eq!(bytes(&stars, 0), [zero, near, nearer].concat());
    assert_eq!(bytes(&stars, 1), [near, nearer].concat());
    assert_eq!(bytes(&stars, 600_000_000_000_000_000), [near, nearer].concat());
    assert_eq!(bytes(&stars, 600_000_000_000_000_001), nearer);
    assert_eq!(bytes(&stars, 800_000_000_000_000_001), []);
    // Opposite stars: -10^18 is 0xF21F494C589C0000.
    let opposite = [[UNIT, 0, 0], [-UNIT, 0, 0]];
    assert_eq!(bytes(&opposite, i64::MIN), [0xF2, 0x1F, 0x49, 0x4C, 0x58, 0x9C, 0, 0, 0, 0, 0, 1]);
    assert_eq!(bytes(&opposite, -999_999_999_999_999_999), []);
    // Equal dot products: by the first number, then by the second.
    let numbers: Vec<(usize, usize)> = bytes(&[[UNIT, 0, 0]; 4], 0)
        .chunks(12)
        .map(|bytes| (read_record(bytes).first, read_record(bytes).second))
        .collect();
    assert_eq!(numbers, [(0, 1), (0, 2), (0, 3), (1, 2), (1, 3), (2, 3)]);
}

#[test]
fn every_pair_at_or_above_the_floor_once_and_rising() {
    let random = Random::new(21);
    for round in 0..200 {
        let count = if round == 0 { 512 } else { 1 + random.below(25) };
        let stars = match round % 2 {
            0 => random_stars(&random, count),
            _ => simple_stars(&random, count),
        };
        let floor = if round == 0 { i64::MIN } else { any_floor(&random, &catalogue(&stars)) };
        let found: Vec<Pair> = bytes(&stars, floor).chunks(12).map(read_record).collect();
        let key = |pair: &Pair| (pair.dot, pair.first, pair.second);
        assert!(found.windows(2).all(|two| key(&two[0]) < key(&two[1])));
        let product = |a: usize, b: usize| -> i128 {
            (0..3).map(|k| i128::from(stars[a][k]) * i128::from(stars[b][k])).sum()
        };
        for pair in &found {
            assert!(pair.first < pair.second && pair.second < count);
            assert_eq!(pair.dot, product(pair.first, pair.second));
            assert!(pair.dot >= i128::from(floor));
        }
        // Nothing is there twice, so the number of pairs tells that none is left out.
        let expected =
            (0..count).map(|b| (0..b).filter(|&a| product(a, b) >= i128::from(floor)).count()).sum::<usize>();
        assert_eq!(found.len(), expected);
    }
}

#[test]
fn a_room_too_short_is_left_alone() {
    let stars = catalogue(&[[UNIT, 0, 0], [0, UNIT, 0], [0, 0, UNIT]]);
    for len in 0..40 {
        let mut room = vec![FILL; len];
        let answer = index(&stars, 0, &mut room);
        if len < 36 {
            assert_eq!(answer, Err(Refusal::new(16)));
            assert_eq!(room, vec![FILL; len]);
        } else {
            assert_eq!(answer, Ok(3));
        }
        assert!(room.iter().skip(36).all(|&byte| byte == FILL));
    }
    // A catalogue that breaks its rules comes first.
    assert_eq!(index(&stars[1..], 0, &mut []), Err(Refusal::new(6)));
    assert_eq!(index(&[&stars[..20], &stars[..20]].concat(), 0, &mut []), Err(Refusal::at(7, 1)));
    // No pair, no room.
    assert_eq!(index(&stars[..20], i128::from(i64::MIN), &mut []), Ok(0));
    assert_eq!(index(&stars, i128::from(i64::MAX), &mut []), Ok(0));
}

#[test]
fn votes_by_the_index_are_the_plain_votes() {
    let random = Random::new(22);
    let (mut by_catalogue, mut by_records) = (0, 0);
    for round in 0..400 {
        let count = 1 + random.below(14);
        let stars = if round % 2 == 0 { simple_stars(&random, count) } else { random_stars(&random, count) };
        let view = View::of(&random, stars, random.below(7), random.below(3));
        let directions = &view.directions[..view.directions.len().min(8)];
        let tolerance: i128 = random.pick(&[0, 1, 1_000_000_000_000, 10_000_000_000_000_000]);
        let bytes_of_stars = sky::catalogue(&random, &view.stars);
        let dots: Vec<i128> = directions
            .iter()
            .flat_map(|v| {
                directions.iter().map(|w| (0..3).map(|k| i128::from(v[k]) * i128::from(w[k])).sum())
            })
            .collect();
        // Any floor, or one at which a pair of directions passes from the catalogue to the index.
        let floor = match dots.is_empty() || random.chance(30) {
            true => any_floor(&random, &bytes_of_stars),
            false => (random.pick(&dots) - tolerance) as i64 + random.between(-1, 1),
        };
        by_catalogue += dots.iter().filter(|&dot| dot - tolerance < i128::from(floor)).count();
        by_records += dots.iter().filter(|&dot| dot - tolerance >= i128::from(floor)).count();
        let words = directions.len() * count;
        let (mut plain, mut indexed) = (vec![9; words + 2], vec![9; words + 2]);
        ranking(&flat(directions), &bytes_of_stars, tolerance, &mut plain).unwrap();
        let index = Index { bytes: &bytes(&view.stars, floor), floor: floor.into() };
        ranking_by_index(&flat(directions), &bytes_of_stars, index, tolerance, &mut indexed).unwrap();
        assert_eq!(plain, indexed);
    }
    assert!(by_catalogue > 500 && by_records > 500, "{by_catalogue} and {by_records}");
}

#[test]
fn the_chain_by_the_index_is_the_plain_chain() {
    let random = Random::new(23);
    for _ in 0..150 {
        let plain = any_call(&random, Entry::Chain);
        let Ok(expected) = plain.run_wide(&mut Effort::up_to(100_000)) else {
            continue;
        };
        // A damaged catalogue has no index; the call is refused before it is looked at.
        let number = expected.out[0];
        let call =
            match number == 6 || number == 7 || second::catalogue::read(&plain.catalogue.values()).is_err() {
                true => Call { entry: Entry::ChainByIndex, ..plain },
                false => by_index(&random, plain),
            };
        let outcome = call.run_wide(&mut Effort::unlimited()).unwrap();
        assert!(outcome.out == expected.out && outcome.lent.room == expected.lent.room);
    }
}

#[test]
fn only_the_right_index_is_taken() {
    let stars = [[UNIT, 0, 0], [0, UNIT, 0], [0, 0, UNIT], [600_000_000, 0, 800_000_000]];
    let right = bytes(&stars, 0);
    let catalogue = catalogue(&stars);
    let answer = |index: &[u8], floor: i64| {
        let mut room = [7; 8];
        let index = Index { bytes: index, floor: floor.into() };
        let answer = ranking_by_index(&flat(&stars[..2]), &catalogue, index, 5, &mut room);
        assert!(answer.is_ok() || room == [7; 8]);
        answer
    };
    let wrong = Err(Refusal::new(17));
    assert_eq!(answer(&right, 0), Ok(()));
    assert_eq!(answer(&right, -1), Ok(()));
    assert_eq!(answer(&right, i64::MIN), Ok(()));
    assert_eq!(answer(&right, 1), wrong);
    assert_eq!(answer(&[], 0), wrong);
    assert_eq!(answer(&[], i64::MAX), Ok(()));
    for place in 0..right.len() {
        for bit in 0..8 {
            let mut other = right.clone();
            other[place] ^= 1 << bit;
            assert_eq!(answer(&other, 0), wrong);
        }
        assert_eq!(answer(&right[..place], 0), wrong);
    }
    for at in (12..right.len()).step_by(12) {
        let mut other = right.clone();
        other[at - 12..at + 12].rotate_left(12);
        assert_eq!(answer(&other, 0), wrong);
    }
    assert_eq!(answer(&[&right[..], &right[right.len() - 12..]].concat(), 0), wrong);
}

#[test]
fn the_index_is_tested_after_the_catalogue_and_before_the_rest() {
    let stars = [[UNIT, 0, 0], [0, UNIT, 0], [0, 0, UNIT]];
    let sound = catalogue(&stars);
    let answer = |catalogue: &[u8], index: &[u8], directions: &[i32], tolerance: i128, words: usize| {
        let index = Index { bytes: index, floor: 0 };
        ranking_by_index(directions, catalogue, index, tolerance, &mut vec![0; words])
            .map_err(|refusal| refusal.number)
    };
    let (right, too_much) = (bytes(&stars, 0), 10_000_000_000_000_001);
    assert_eq!(answer(&sound[1..], &[1], &[1], too_much, 0), Err(6));
    assert_eq!(answer(&[&sound[..], &sound[..20]].concat(), &[1], &[1], too_much, 0), Err(7));
    assert_eq!(answer(&sound, &[1], &[1], too_much, 0), Err(17));
    assert_eq!(answer(&sound, &right, &[1], too_much, 0), Err(8));
    assert_eq!(answer(&sound, &right, &[1, 2, 3], too_much, 0), Err(9));
    assert_eq!(answer(&sound, &right, &[1, 2, 3], 0, 2), Err(10));
    assert_eq!(answer(&sound, &right, &[1, 2, 3], 0, 3), Ok(()));
}

//! Rivals: by hand, against their definition on small cases, and where plain Rust looks ahead.

mod definition;

use definition::fitting;
use second::answer::{Assignment, Refusal, Rivalry};
use second::call::{Call, Entry};
use second::generate::{any_call, any_rival};
use second::random::Random;
use second::search::{rival, search, Effort};
use second::sky::record;
use second::{catalogue, dense, plain};

const UNIT: i32 = 1_000_000_000;
const AXES: [[i32; 3]; 3] = [[UNIT, 0, 0], [0, UNIT, 0], [0, 0, UNIT]];
/// Pairs of 0.6, 0 and 0.48: no star can take another's place.
const APART: [[i32; 3]; 3] = [[UNIT, 0, 0], [600_000_000, 800_000_000, 0], [0, 600_000_000, 800_000_000]];

fn bytes(stars: &[[i32; 3]]) -> Vec<u8> {
    stars.iter().zip(1..).flat_map(|(star, identity)| record(identity, *star)).collect()
}

/// The rival with tolerance 0, by the wide and by the plain implementation.
fn rivalry(
    directions: &[[i32; 3]],
    stars: &[[i32; 3]],
    needed: usize,
    ranking: &[u16],
) -> Result<Rivalry, Refusal> {
    let (directions, catalogue) = (directions.as_flattened(), bytes(stars));
    let wide = rival(directions, &catalogue, needed as i128, 0, ranking);
    assert_eq!(plain::rival(directions, &catalogue, needed, 0, ranking), wide);
    wide
}

fn names(stars: &[i64]) -> Result<Rivalry, Refusal> {
    Ok(Rivalry::Rival(stars.iter().map(|&star| usize::try_from(star).ok()).collect()))
}

#[test]
fn cases_l_m_n_and_o() {
    // Ours is 0, 1, 2. Of the other even turns the one with star 1 comes first.
    assert_eq!(rivalry(&AXES, &AXES, 3, &[0, 1, 2, 0, 1, 2, 0, 1, 2]), names(&[1, 2, 0]));
    // Ours is 2, 0, 1.
    assert_eq!(rivalry(&AXES, &AXES, 3, &[2, 1, 0, 0, 1, 2, 0, 1, 2]), names(&[1, 2, 0]));
    assert_eq!(rivalry(&AXES, &AXES, 3, &[2, 0, 1, 0, 1, 2, 0, 1, 2]), names(&[0, 1, 2]));
    assert_eq!(rivalry(&AXES[..2], &AXES, 3, &[0, 1, 2, 0, 1, 2]), Err(Refusal::new(12)));
    let led = [[600_000_000, 800_000_000, 0], AXES[0], AXES[1], AXES[2]];
    let rows = [0, 1, 2, 0, 1, 2, 0, 1, 2, 0, 1, 2];
    assert_eq!(rivalry(&led, &AXES, 3, &rows), names(&[-1, 1, 2, 0]));
    assert_eq!(rivalry(&led, &AXES, 4, &rows), Err(Refusal::new(13)));
}

#[test]
fn a_star_and_none_are_no_difference() {
    let rows = [0, 1, 2, 0, 1, 2, 0, 1, 2, 0, 1, 2];
    assert_eq!(rivalry(&APART, &APART, 3, &rows[..9]), Ok(Rivalry::Alone));
    // The third star may stand at the third direction or at the fourth, not at both.
    let twice = [APART[0], APART[1], APART[2], APART[2]];
    assert_eq!(rivalry(&twice, &APART, 3, &rows), Ok(Rivalry::Alone));
    // Four of four are ours; every three of them fit too. The third and the fourth have the same pair with the first,
    // but to exchange them is to look into a mirror.
    let four = [APART[0], APART[1], APART[2], [0, -600_000_000, 800_000_000]];
    let rows: Vec<u16> = (0..4).flat_map(|_| 0..4).collect();
    assert_eq!(rivalry(&four, &four, 3, &rows), Ok(Rivalry::Alone));
    assert_eq!(rivalry(&four, &four, 4, &rows), Ok(Rivalry::Alone));
}

#[test]
fn a_second_star_in_one_place_is_a_rival() {
    let stars = [APART[0], APART[1], APART[2], APART[1]];
    let rows = |row: [u16; 4]| [&[0, 1, 2, 3], &row[..], &[0, 1, 2, 3]].concat();
    assert_eq!(rivalry(&APART, &stars, 3, &rows([0, 1, 2, 3])), names(&[0, 3, 2]));
    assert_eq!(rivalry(&APART, &stars, 3, &rows([3, 2, 1, 0])), names(&[0, 1, 2]));
    assert_eq!(rivalry(&APART, &stars, 3, &rows([0, 1, 3, 2])), names(&[0, 3, 2]));
    // Its mirror image has the same pairs and turns the other way.
    let mirrored = [APART[0], APART[1], APART[2], [0, 600_000_000, -800_000_000]];
    assert_eq!(rivalry(&APART, &mirrored, 3, &rows([0, 1, 2, 3])), Ok(Rivalry::Alone));
    // One star alone is short of the needed count, whatever it is.
    let pair = [APART[0], APART[1], APART[2], [-UNIT, 0, 0]];
    assert_eq!(rivalry(&APART, &pair, 3, &rows([0, 1, 2, 3])), Ok(Rivalry::Alone));
}

fn differs(one: &Assignment, other: &Assignment) -> bool {
    one.iter().zip(other).any(|pair| matches!(pair, (Some(a), Some(b)) if a != b))
}

#[test]
fn the_rival_is_the_first_that_differs() {
    let random = Random::new(71);
    let (mut alone, mut rivals, mut not_second, mut refused) = (0, 0, 0, 0);
    for round in 0..2_500 {
        let call = match round % 2 {
            0 => dense::search(&random, 3 + random.below(2), 3 + random.below(4)),
            _ => any_rival(&random),
        };
        let (directions, stars) = (call.directions.len / 3, call.catalogue.len / 20);
        if stars.pow(directions as u32) > 4_000 {
            continue;
        }
        let lent = call.lend();
        let vectors: Vec<[i32; 3]> = lent.directions.chunks(3).map(|v| [v[0], v[1], v[2]]).collect();
        let known: Vec<[i32; 3]> = catalogue::read(&lent.catalogue)
            .unwrap()
            .iter()
            .map(|star| star.direction.map(|component| component as i32))
            .collect();
        let rows: Vec<&[u16]> = lent.ranking.chunks(stars).collect();
        let (needed, tolerance) = (call.needed as usize, i128::from(call.tolerance));
        let fitting = fitting(&vectors, &known, needed, tolerance, &rows);
        let answer = rival(&lent.directions, &lent.catalogue, needed as i128, tolerance, &lent.ranking);
        let Some(ours) = fitting.first() else {
            assert_eq!(answer, Err(Refusal::new(13)));
            refused += 1;
            continue;
        };
        let expected = fitting.iter().find(|other| differs(ours, other));
        match expected {
            None => alone += 1,
            Some(rival) => {
                rivals += 1;
                not_second += usize::from(fitting[1] != *rival);
            }
        }
        assert_eq!(answer, Ok(expected.map_or(Rivalry::Alone, |other| Rivalry::Rival(other.clone()))));
    }
    assert!(
        alone > 100 && rivals > 100 && not_second > 15 && refused > 100,
        "{alone} {rivals} {not_second} {refused}"
    );
}

#[test]
fn refused_as_the_search_is() {
    let random = Random::new(72);
    for _ in 0..600 {
        let call = any_call(&random, Entry::Rival);
        let lent = call.lend();
        let (needed, tolerance) = (call.needed.into(), call.tolerance.into());
        let searched = search(&lent.directions, &lent.catalogue, needed, tolerance, &lent.ranking);
        let answer = rival(&lent.directions, &lent.catalogue, needed, tolerance, &lent.ranking);
        assert_eq!(answer.err(), searched.err());
    }
}

#[test]
fn plain_equals_wide_where_much_agrees() {
    let random = Random::new(73);
    let (mut given_up, mut rivals) = (0, 0);
    for _ in 0..1_500 {
        let call = Call { entry: Entry::Rival, ..dense::any_search(&random) };
        let Ok(wide) = call.run_wide(&mut Effort::up_to(3_000)) else {
            given_up += 1;
            continue;
        };
        assert!(call.run_plain() == wide, "{:?}", call.scalars());
        rivals += wide.out[2];
    }
    assert!(given_up < 100 && rivals > 200, "{given_up} given up, {rivals} rivals");
}

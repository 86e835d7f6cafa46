//! A catalogue cut in place: by hand, the refusals, and the rule in plain terms.

use second::answer::Refusal;
use second::catalogue::{catalogue, read};
use second::cut::cut;
use second::desk;
use second::generate::any_cut;
use second::random::Random;
use second::sky::record_of;

const UNIT: i32 = 1_000_000_000;
const X: [i32; 3] = [UNIT, 0, 0];
const Y: [i32; 3] = [0, UNIT, 0];
/// 0.6 and 0.8 of 10^18 are its dot products with x and y.
const BETWEEN: [i32; 3] = [600_000_000, 800_000_000, 0];
const NEAR: i64 = 600_000_000_000_000_000;
const NEARER: i64 = 800_000_000_000_000_000;

/// The catalogue with identities 1, 2, 3...
fn stars(records: &[([i32; 3], i32)]) -> Vec<u8> {
    let record = |(&(star, magnitude), identity)| record_of(identity, star, magnitude);
    records.iter().zip(1..).flat_map(record).collect()
}

/// The identities kept, with the buffer looked at.
fn kept(bytes: &[u8], limit: i32, closeness: i64) -> Result<Vec<u32>, Refusal> {
    let mut buffer = bytes.to_vec();
    let answer = cut(&mut buffer, limit, closeness);
    if answer.is_err() {
        assert_eq!(buffer, bytes);
    }
    let (front, freed) = buffer.split_at(20 * answer?);
    assert!(freed.iter().all(|&byte| byte == 255));
    assert_eq!(catalogue(front), Ok(answer?));
    Ok(read(front).unwrap().iter().map(|star| star.identity).collect())
}

#[test]
fn by_hand() {
    let bytes = stars(&[(X, 1_000), (BETWEEN, 2_000), (Y, 3_000)]);
    // At 0.6 the star between goes with both its neighbours, judged before anything moves.
    assert_eq!(kept(&bytes, 3_000, NEAR), Err(Refusal::new(21)));
    assert_eq!(kept(&bytes, 3_000, NEAR + 1), Ok(vec![1]));
    assert_eq!(kept(&bytes, 3_000, NEARER), Ok(vec![1]));
    assert_eq!(kept(&bytes, 3_000, NEARER + 1), Ok(vec![1, 2, 3]));
    // A star fainter than the limit crowds nobody out.
    assert_eq!(kept(&bytes, 2_999, NEARER), Ok(vec![1, 2]));
    assert_eq!(kept(&bytes, 2_000, NEAR), Err(Refusal::new(21)));
    assert_eq!(kept(&bytes, 1_999, NEAR), Ok(vec![1]));
    assert_eq!(kept(&bytes, 999, NEAR), Err(Refusal::new(21)));
    let dim = stars(&[(X, 1_000), (BETWEEN, 5_000), (Y, 3_000)]);
    assert_eq!(kept(&dim, 3_000, NEAR), Ok(vec![1, 3]));
    assert_eq!(kept(&dim, 3_000, 0), Err(Refusal::new(21)));
    // The whole buffer: two records at the front, 20 bytes of 255.
    let mut buffer = dim.clone();
    assert_eq!(cut(&mut buffer, 3_000, NEAR), Ok(2));
    assert_eq!(buffer, [&dim[..20], &dim[40..], &[255; 20]].concat());
}

#[test]
fn equal_directions_are_two_stars_and_no_star_is_close_to_itself() {
    let twins = stars(&[(X, 0), (X, 0), (Y, 0)]);
    let square = 1_000_000_000_000_000_000;
    assert_eq!(kept(&twins, 0, square), Ok(vec![3]));
    assert_eq!(kept(&twins, 0, square + 1), Ok(vec![1, 2, 3]));
    assert_eq!(kept(&stars(&[(X, 0), (X, 1)]), 0, square), Ok(vec![1]));
    assert_eq!(kept(&stars(&[(X, 0)]), 0, i64::MIN), Ok(vec![1]));
    assert_eq!(kept(&stars(&[(X, -2_000)]), i32::MIN, i64::MAX), Err(Refusal::new(21)));
    assert_eq!(kept(&stars(&[(X, -2_000)]), -2_000, i64::MAX), Ok(vec![1]));
}

#[test]
fn refusals_leave_the_buffer() {
    let bytes = stars(&[(X, 0), (Y, 0)]);
    assert_eq!(kept(&bytes[1..], i32::MIN, 0), Err(Refusal::new(6)));
    assert_eq!(kept(&[], i32::MIN, 0), Err(Refusal::new(6)));
    assert_eq!(kept(&[&bytes[..], &bytes[..20]].concat(), i32::MIN, 0), Err(Refusal::at(7, 2)));
    assert_eq!(kept(&bytes, i32::MIN, 0), Err(Refusal::new(21)));
    assert_eq!(kept(&bytes, i32::MAX, i64::MIN), Err(Refusal::new(21)));
    assert_eq!(kept(&bytes, i32::MAX, i64::MAX), Ok(vec![1, 2]));
}

#[test]
fn the_rule_in_plain_terms() {
    let random = Random::new(91);
    let (mut some, mut all, mut none) = (0, 0, 0);
    for _ in 0..2_000 {
        let call = any_cut(&random);
        let bytes = call.catalogue.values();
        let stars = read(&bytes).unwrap();
        let product = |a: usize, b: usize| -> i128 {
            (0..3).map(|k| stars[a].direction[k] * stars[b].direction[k]).sum()
        };
        let expected: Vec<u32> = (0..stars.len())
            .filter(|&a| stars[a].magnitude <= call.limit)
            .filter(|&a| {
                (0..stars.len())
                    .filter(|&b| b != a && stars[b].magnitude <= call.limit)
                    .all(|b| product(a, b) < call.closeness.into())
            })
            .map(|a| stars[a].identity)
            .collect();
        match kept(&bytes, call.limit, call.closeness) {
            Err(refusal) => {
                assert_eq!((refusal, expected.len()), (Refusal::new(21), 0));
                none += 1;
            }
            Ok(identities) => {
                all += usize::from(identities.len() == stars.len());
                some += usize::from(identities.len() < stars.len());
                assert_eq!(identities, expected);
            }
        }
    }
    assert!(some > 200 && all > 200 && none > 200, "{some} {all} {none}");
}

#[test]
fn the_desk_says_how_many() {
    let bytes = stars(&[(X, 1_000), (BETWEEN, 2_000), (Y, 3_000)]);
    assert_eq!(desk::cut(&bytes, 2_999, NEARER), ("kept 2 of 3\n".to_string(), Some(bytes[..40].to_vec())));
    assert_eq!(desk::cut(&bytes, 0, NEARER), ("refused 21 0\n".to_string(), None));
    assert_eq!(desk::cut(&bytes[1..], 0, NEARER), ("refused 6 0\n".to_string(), None));
}

//! Two catalogues compared: records by hand, the refusals, and the list in plain terms.

use second::answer::Refusal;
use second::catalogue;
use second::compare::compare;
use second::desk;
use second::generate::any_compare;
use second::random::Random;
use second::sky::record;

const UNIT: i32 = 1_000_000_000;
const FILL: u8 = 0xEE;

/// Number of records and bytes, from a room that is too long.
fn compared(first: &[u8], second: &[u8]) -> (usize, Vec<u8>) {
    let mut room = vec![FILL; 8_200];
    let count = compare(first, second, &mut room).unwrap();
    assert!(room[8 * count..].iter().all(|&byte| byte == FILL));
    room.truncate(8 * count);
    (count, room)
}

/// The catalogue of these identities and directions.
fn stars(records: &[(u32, [i32; 3])]) -> Vec<u8> {
    records.iter().flat_map(|&(identity, star)| record(identity, star)).collect()
}

const X: [i32; 3] = [UNIT, 0, 0];
const Y: [i32; 3] = [0, UNIT, 0];

#[test]
fn records_by_hand() {
    let first = stars(&[(11, X), (22, X), (33, X), (0x0102_0304, Y)]);
    let second = stars(&[(22, X), (33, Y), (44, X), (0x0102_0304, Y), (u32::MAX, X)]);
    let expected = [
        [0, 0, 0, 11, 0, 0, 0, 1],
        [0, 0, 0, 33, 0, 0, 0, 3],
        [0, 0, 0, 44, 0, 0, 0, 2],
        [255, 255, 255, 255, 0, 0, 0, 2],
    ];
    assert_eq!(compared(&first, &second), (4, expected.concat()));
    assert_eq!(compared(&first, &first), (0, vec![]));
    // The other way round 1 and 2 change places.
    let turned = expected.map(|mut bytes| {
        bytes[7] = [0, 2, 1, 3][usize::from(bytes[7])];
        bytes
    });
    assert_eq!(compared(&second, &first), (4, turned.concat()));
    assert_eq!(
        compared(&stars(&[(9, X)]), &stars(&[(8, X)])).1,
        [0, 0, 0, 8, 0, 0, 0, 2, 0, 0, 0, 9, 0, 0, 0, 1]
    );
    // Each component counts.
    for other in [[UNIT - 1, 0, 0], [UNIT, 1, 0], [UNIT, 0, -1]] {
        assert_eq!(compared(&stars(&[(7, X)]), &stars(&[(7, other)])).1, [0, 0, 0, 7, 0, 0, 0, 3]);
    }
}

#[test]
fn refusals() {
    let sound = stars(&[(1, X), (2, Y)]);
    let short = &sound[1..];
    let broken = stars(&[(1, X), (2, Y), (2, X)]);
    let other = stars(&[(1, Y), (3, Y)]);
    let answer = |first: &[u8], second: &[u8], len: usize| {
        let mut room = vec![FILL; len];
        let answer = compare(first, second, &mut room);
        assert!(answer.is_ok() || room.iter().all(|&byte| byte == FILL));
        answer
    };
    assert_eq!(answer(short, &sound, 0), Err(Refusal::new(6)));
    assert_eq!(answer(&broken, &sound, 0), Err(Refusal::at(7, 2)));
    // The second is looked at only if the first is valid: its 6 does not come before the first one's 7.
    assert_eq!(answer(&broken, short, 0), Err(Refusal::at(7, 2)));
    assert_eq!(answer(short, &broken, 0), Err(Refusal::new(6)));
    assert_eq!(answer(&other, short, 0), Err(Refusal::new(6)));
    assert_eq!(answer(&other, &broken, 0), Err(Refusal::at(7, 2)));
    // 1 and 2 removed or changed, and 3 added: three records.
    for len in 0..24 {
        assert_eq!(answer(&sound, &other, len), Err(Refusal::new(20)));
    }
    assert_eq!(answer(&sound, &other, 24), Ok(3));
    assert_eq!(answer(&sound, &sound, 0), Ok(0));
}

#[test]
fn the_list_in_plain_terms() {
    let random = Random::new(61);
    let (mut kinds, mut equal) = ([0; 4], 0);
    for _ in 0..1_500 {
        let call = any_compare(&random);
        let (first, second) = (call.catalogue.values(), call.other.values());
        let (count, bytes) = compared(&first, &second);
        equal += usize::from(count == 0);
        assert_eq!(count == 0, first == second);
        let number = |bytes: &[u8]| bytes.iter().fold(0, |n, &byte| 256 * n + u32::from(byte));
        let listed: Vec<(u32, u32)> = bytes.chunks(8).map(|r| (number(&r[..4]), number(&r[4..]))).collect();
        assert!(listed.windows(2).all(|two| two[0].0 < two[1].0));
        let [one, other] = [&first, &second].map(|bytes| catalogue::read(bytes).unwrap());
        // Every identity of either side is listed with the right kind, or not at all.
        for star in one.iter().chain(&other) {
            let in_first = one.iter().find(|same| same.identity == star.identity);
            let in_second = other.iter().find(|same| same.identity == star.identity);
            let kind = match (in_first, in_second) {
                (Some(_), None) => 1,
                (None, _) => 2,
                (Some(a), Some(b)) => 3 * u32::from(a.direction != b.direction || a.magnitude != b.magnitude),
            };
            let found = listed.iter().find(|record| record.0 == star.identity).map_or(0, |record| record.1);
            assert_eq!(found, kind);
            kinds[kind as usize] += 1;
        }
        let known = |identity: u32| one.iter().chain(&other).any(|star| star.identity == identity);
        assert!(listed.iter().all(|record| known(record.0)));
    }
    assert!(equal > 100 && kinds.iter().all(|&count| count > 500), "{equal} {kinds:?}");
}

#[test]
fn the_desk_prints_a_line_for_each() {
    let old = stars(&[(11, X), (22, X), (33, X)]);
    let new = stars(&[(22, X), (33, Y), (44, X)]);
    assert_eq!(desk::compare(&old, &new), "removed 11\nchanged 33\nadded 44\n");
    assert_eq!(desk::compare(&old, &old), "");
    assert_eq!(desk::compare(&old, &[]), "refused 6 0\n");
    assert_eq!(desk::compare(&[], &new), "refused 6 0\n");
    assert_eq!(desk::compare(&old, &stars(&[(1, X), (1, X)])), "refused 7 1\n");
}

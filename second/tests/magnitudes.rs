//! Magnitudes: their rule by hand, and that nothing but the catalogue's own calls looks at them.

use second::answer::Refusal;
use second::call::{Buffer, Call, Entry};
use second::catalogue::{catalogue, read};
use second::compare::compare;
use second::generate::any_call;
use second::random::Random;
use second::search::Effort;
use second::sky::{any_magnitude, record_of};

const STAR: [i32; 3] = [0, 600_000_000, 800_000_000];

#[test]
fn a_record_by_hand() {
    // 600,000,000 is 0x23C34600, 800,000,000 is 0x2FAF0800, -1,440 is 0xFFFFFA60.
    let bytes = [0, 0, 1, 2, 0, 0, 0, 0, 0x23, 0xC3, 0x46, 0, 0x2F, 0xAF, 0x08, 0, 0xFF, 0xFF, 0xFA, 0x60];
    let stars = read(&bytes).unwrap();
    assert_eq!(stars.len(), 1);
    assert_eq!((stars[0].identity, stars[0].magnitude), (258, -1_440));
    assert_eq!(stars[0].direction, [0, 600_000_000, 800_000_000]);
    assert_eq!(record_of(258, STAR, -1_440), bytes);
}

#[test]
fn the_range_by_hand() {
    let answer = |magnitude: i32| catalogue(&record_of(1, STAR, magnitude));
    for magnitude in [-2_000, -1_999, -1, 0, 1, 11_999, 12_000] {
        assert_eq!(answer(magnitude), Ok(1));
    }
    for magnitude in [-2_001, 12_001, i32::MIN, i32::MAX, 65_536] {
        assert_eq!(answer(magnitude), Err(Refusal::at(7, 0)));
    }
    // The first record that breaks any rule.
    let records = |second: [u8; 20], third: [u8; 20]| [record_of(1, STAR, 0), second, third].concat();
    let (dim, still) = (record_of(2, STAR, 12_001), record_of(1, STAR, 0));
    assert_eq!(catalogue(&records(dim, still)), Err(Refusal::at(7, 1)));
    assert_eq!(
        catalogue(&records(record_of(2, STAR, 0), record_of(3, STAR, -2_001))),
        Err(Refusal::at(7, 2))
    );
}

#[test]
fn lengths_are_multiples_of_twenty() {
    let records: Vec<u8> = (0..513).flat_map(|identity| record_of(identity, STAR, 5_000)).collect();
    for (len, expected) in [(0, Err(6)), (16, Err(6)), (20, Ok(1)), (32, Err(6)), (40, Ok(2)), (48, Err(6))] {
        assert_eq!(catalogue(&records[..len]).map_err(|refusal| refusal.number), expected);
    }
    assert_eq!(catalogue(&records[..10_240]), Ok(512));
    assert_eq!(catalogue(&records), Err(Refusal::new(6)));
    // Five records of the old form are four of the new: the first one's magnitude is the second one's identity.
    let old: Vec<u8> = (1..6).flat_map(|identity| record_of(identity, STAR, 0)[..16].to_vec()).collect();
    assert_eq!(catalogue(&old), Err(Refusal::at(7, 1)));
    assert_eq!(catalogue(&old[..64]), Err(Refusal::new(6)));
}

#[test]
fn a_changed_magnitude_is_a_change() {
    let stars = |magnitude: i32| [record_of(1, STAR, 0), record_of(2, STAR, magnitude)].concat();
    let mut room = [9; 9];
    assert_eq!(compare(&stars(100), &stars(101), &mut room), Ok(1));
    assert_eq!(room, [0, 0, 0, 2, 0, 0, 0, 3, 9]);
    assert_eq!(compare(&stars(100), &stars(100), &mut []), Ok(0));
}

/// The same catalogue with other magnitudes.
fn dimmed(random: &Random, catalogue: &Buffer<u8>) -> Buffer<u8> {
    let mut bytes = catalogue.values();
    for record in bytes.chunks_exact_mut(20) {
        record[16..].copy_from_slice(&any_magnitude(random).to_be_bytes());
    }
    Buffer::of(&bytes)
}

#[test]
fn votes_rankings_searches_and_chains_do_not_look_at_them() {
    let random = Random::new(81);
    let entries = [
        Entry::Ranking,
        Entry::Search,
        Entry::Chain,
        Entry::Index,
        Entry::RankingByIndex,
        Entry::ChainByIndex,
        Entry::Burst,
        Entry::Rival,
    ];
    for entry in entries {
        let mut accepted = 0;
        for _ in 0..60 {
            let call = any_call(&random, entry);
            if read(&call.catalogue.values()).is_err() {
                continue;
            }
            let other = Call { catalogue: dimmed(&random, &call.catalogue), ..call.clone() };
            let outcomes = [call, other].map(|call| call.run_wide(&mut Effort::up_to(100_000)));
            let [Ok(one), Ok(other)] = outcomes else {
                continue;
            };
            accepted += usize::from(one.out[0] == 0);
            assert_eq!(one.out, other.out);
            assert!(one.lent.room == other.lent.room && one.lent.bytes == other.lent.bytes);
        }
        assert!(accepted >= 15, "{entry:?} {accepted}");
    }
}

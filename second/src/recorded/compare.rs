//! Two catalogues compared.

use super::{damaged, vary};
use crate::call::{Buffer, Call, Entry};
use crate::catalogue::RECORD_BYTES;
use crate::damage::{damage, damage_catalogue};
use crate::generate::{any_call, any_compare, changed, compare_of, random_stars};
use crate::random::Random;
use crate::sky::{self, record, record_of};

const UNIT: i32 = 1_000_000_000;

/// Stars at the axis z with these identities.
fn with_identities(identities: &[u32]) -> Vec<u8> {
    identities.iter().flat_map(|&identity| record(identity, [0, 0, UNIT])).collect()
}

pub fn pairs(random: &Random, calls: &mut Vec<Call>) {
    // Where identities lie to each other: each of these lists against each.
    let top = u32::MAX;
    let lists: [&[u32]; 12] = [
        &[5],
        &[6],
        &[0],
        &[top],
        &[0, top],
        &[5, 6, 7],
        &[1, 5, 9],
        &[2, 6, 8, 10],
        &[5, 7],
        &[6, 7, 8],
        &[0x7FFF_FFFF, 0x8000_0000],
        &[255, 256, 65_536, 1 << 24],
    ];
    for first in lists {
        for second in lists {
            calls.push(compare_of(&with_identities(first), &with_identities(second), random.pick(&[0, 3])));
        }
    }
    moved_stars(random, calls);
    // The longest list there is, the same catalogue twice, and one star changed of many.
    let many = sky::catalogue(random, &random_stars(random, 512));
    let others: Vec<u8> = (0..512).flat_map(|k| record(4_000_000_000 + k, [0, UNIT, 0])).collect();
    calls.push(compare_of(&many, &others, 0));
    calls.push(compare_of(&others, &many, 9));
    calls.push(compare_of(&many, &many, 16));
    calls.push(compare_of(&many, &changed(random, &many), 5));
    for _ in 0..120 {
        calls.push(any_call(random, Entry::Compare));
    }
    rooms(random, calls);
    refusals_of_both(random, calls);
    damaged(random, Entry::Compare, 15, 30, || any_compare(random), calls);
}

/// Each component and the magnitude alone, by one and by much, in the first, the middle and the last record.
fn moved_stars(random: &Random, calls: &mut Vec<Call>) {
    let star = [600_000_000, 0, 800_000_000];
    let sound = [record(3, star), record(8, [0, UNIT, 0]), record(9, star)].concat();
    for place in 0..3 {
        for other in [
            [600_000_001, 0, 800_000_000],
            [600_000_000, 1, 800_000_000],
            [600_000_000, 0, 799_999_999],
            [-600_000_000, 0, 800_000_000],
            [600_000_000, 0, -800_000_000],
            [0, 0, UNIT],
        ] {
            let mut moved = sound.clone();
            let at = RECORD_BYTES * place;
            moved[at + 4..at + 16].copy_from_slice(&record(0, other)[4..16]);
            calls.push(compare_of(&sound, &moved, random.pick(&[0, 8])));
        }
    }
    // The magnitude alone, and with a component.
    for magnitude in [2_499, 2_501, -2_000, 12_000, 2_500 - 256, 2_500 + 256] {
        for place in 0..3 {
            let mut dimmed = sound.clone();
            let at = RECORD_BYTES * place;
            dimmed[at + 16..at + 20].copy_from_slice(&record_of(0, star, magnitude)[16..]);
            calls.push(compare_of(&sound, &dimmed, 0));
            dimmed[at + 4..at + 16].copy_from_slice(&record(0, [0, 0, UNIT])[4..16]);
            calls.push(compare_of(&dimmed, &sound, 0));
        }
    }
    // The same direction under another identity is another star.
    calls.push(compare_of(&sound, &[record(3, star), record(8, [0, UNIT, 0]), record(10, star)].concat(), 0));
}

/// Every length about the list's.
fn rooms(random: &Random, calls: &mut Vec<Call>) {
    let first = with_identities(&[1, 2, 3, 5]);
    let sound = compare_of(&first, &with_identities(&[2, 4, 6]), 0);
    for len in [0, 1, 7, 8, 9, 31, 32, 39, 40, 41, 47, 48, 49, 100] {
        vary(calls, &sound, &[len], |call, len| {
            call.bytes = Buffer::repeat(len, &[random.below(256) as u8, 9])
        });
    }
    // Nothing to write needs no room.
    let mut equal = compare_of(&first, &first, 0);
    calls.push(equal.clone());
    equal.bytes = Buffer::repeat(5, &[1, 2]);
    calls.push(equal);
}

/// Every choice of a sound catalogue, one of a wrong length and one with a broken record, for the first and for the
/// second, with a room that is long enough and one that is not.
fn refusals_of_both(random: &Random, calls: &mut Vec<Call>) {
    for first in [0, 6, 7] {
        for second in [0, 6, 7] {
            for room in [0, 20] {
                for _ in 0..3 {
                    let mut call = any_compare(random);
                    damage(&mut call, room, random);
                    damage_catalogue(&mut call.other, second, random);
                    damage_catalogue(&mut call.catalogue, first, random);
                    calls.push(call);
                }
            }
        }
    }
}

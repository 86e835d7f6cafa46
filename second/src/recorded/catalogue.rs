//! Catalogues.

use super::damaged;
use crate::call::{Buffer, Call, Entry};
use crate::catalogue::RECORD_BYTES;
use crate::generate::random_stars;
use crate::random::Random;
use crate::sky::{self, record, record_of};

fn catalogue_call(bytes: &[u8]) -> Call {
    let mut call = Call::new(Entry::Catalogue);
    call.catalogue = Buffer::of(bytes);
    call
}

/// Records of one star with these identities.
fn with_identities(identities: &[u32]) -> Vec<u8> {
    identities.iter().flat_map(|&identity| record(identity, [0, 0, 1_000_000_000])).collect()
}

pub fn catalogues(random: &Random, calls: &mut Vec<Call>) {
    lengths(random, calls);
    identities(calls);
    stars(random, calls);
    let sound = || {
        let count = 1 + random.below(8);
        catalogue_call(&sky::catalogue(random, &random_stars(random, count)))
    };
    damaged(random, Entry::Catalogue, 120, 80, sound, calls);
    magnitudes(random, calls);
}

/// Catalogues of every length.
fn lengths(random: &Random, calls: &mut Vec<Call>) {
    for count in [1, 2, 3, 100, 511, 512, 513, 520] {
        let stars = random_stars(random, count);
        calls.push(catalogue_call(&sky::catalogue(random, &stars)));
    }
    for len in (0..=61).chain([8_192, 8_200, 10_239, 10_240, 10_241, 10_256, 10_260, 10_400]) {
        let records: Vec<u8> =
            (0..520).flat_map(|identity| record(identity, [1_000_000_000, 0, 0])).collect();
        let mut call = catalogue_call(&records[..len]);
        if len > 61 {
            // The records differ in two bytes of their identity only.
            call.catalogue = Buffer::repeat(len, &records[..RECORD_BYTES]);
            for k in (0..len).filter(|&k| [2, 3].contains(&(k % RECORD_BYTES))) {
                call.catalogue.set(k, records[k]);
            }
        }
        calls.push(call);
    }
}

/// Identities that rise and that do not.
fn identities(calls: &mut Vec<Call>) {
    let top = u32::MAX;
    let identities: [&[u32]; 14] = [
        &[0],
        &[top],
        &[0, 1],
        &[0, top],
        &[0, 0],
        &[top, top],
        &[top, 0],
        &[1, 0],
        &[5, 6, 7, 7],
        &[5, 6, 7, 6],
        &[5, 6, 5, 6],
        &[0x7FFF_FFFF, 0x8000_0000],
        &[0x8000_0000, 0x7FFF_FFFF],
        &[0x00FF_FFFF, 0x0100_0000, 0x0100_0001],
    ];
    calls.extend(identities.map(|identities| catalogue_call(&with_identities(identities))));
}

/// Each direction at a limit or beyond, in every order of its components and every choice of signs.
fn stars(random: &Random, calls: &mut Vec<Call>) {
    let unit = 1_000_000_000;
    let stars = [
        [unit, 0, 0],
        [unit + 1, 0, 0],
        [unit, 1, 0],
        [unit, 63_245, 0],
        [unit, 63_246, 0],
        [unit - 2, 0, 0],
        [unit - 3, 0, 0],
        [i32::MAX, 0, 0],
        [i32::MIN, 0, 0],
        [i32::MIN, i32::MIN, i32::MIN],
        [0, 0, 0],
        [1, 1, 1],
        [unit, unit, unit],
        sky::LONGEST,
        sky::SHORTEST,
        sky::TOO_LONG,
        sky::TOO_SHORT,
    ];
    for star in stars {
        for order in [[0, 1, 2], [1, 2, 0], [2, 0, 1]] {
            for sign in [1, -1] {
                let turned = order.map(|k: usize| star[k].wrapping_mul(sign));
                calls.push(catalogue_call(&record(7, turned)));
            }
        }
        // Among sound records, first, in the middle, and last.
        for place in 0..3 {
            let mut records = random_stars(random, 3);
            records[place] = star;
            calls.push(catalogue_call(&sky::catalogue(random, &records)));
        }
    }
    // Equal directions are two stars.
    let star = sky::anywhere(random);
    calls.push(catalogue_call(&sky::catalogue(random, &[star; 5])));
}

/// Each magnitude at a limit or beyond, alone and among sound records; and files of the old form.
fn magnitudes(random: &Random, calls: &mut Vec<Call>) {
    let star = [600_000_000, 0, -800_000_000];
    let limits = [-2_001, -2_000, -1_999, -1, 0, 1, 11_999, 12_000, 12_001];
    let beyond = [i32::MIN, i32::MAX, 65_536, -65_536, 1 << 24, 255 << 8, 0x00FF_FFFF, -12_000, 53_536];
    for magnitude in limits.into_iter().chain(beyond) {
        calls.push(catalogue_call(&record_of(7, star, magnitude)));
        for place in 0..3 {
            let mut records = [5, 6, 7].map(|identity| record(identity, star));
            records[place] = record_of(5 + place as u32, star, magnitude);
            calls.push(catalogue_call(&records.concat()));
        }
    }
    // A magnitude that breaks its rule, and a direction or an identity that does, before or after it.
    for (first, second) in [(0, 1), (1, 0), (0, 2), (2, 1), (1, 2), (2, 0)] {
        for other in [record(0, star), record_of(6, [1, 2, 3], 0), record_of(7, star, i32::MIN)] {
            let mut records = [5, 6, 7].map(|identity| record(identity, star));
            records[first] = record_of(5 + first as u32, star, 12_001);
            records[second] = other;
            calls.push(catalogue_call(&records.concat()));
        }
    }
    // Records of 16 bytes: as many as make a multiple of 20, and other numbers of them.
    for count in [1, 2, 4, 5, 6, 10, 15] {
        let old: Vec<u8> = (0..count).flat_map(|_| record(0, sky::anywhere(random))[..16].to_vec()).collect();
        calls.push(catalogue_call(&old));
    }
}

//! Damage that gives each refusal, in each of its ways.

use crate::call::{Buffer, Call, Entry};
use crate::catalogue::RECORD_BYTES;
use crate::compare;
use crate::float::{negated, of_whole, INFINITY};
use crate::generate::{
    index_bytes, list_length, mirrored_catalogue, pixels, FARTHEST_ENTRY, HUGE, MOST_TOLERANCE, NON_NUMBERS,
};
use crate::index::RECORD_BYTES as INDEX_RECORD;
use crate::lens::{Plate, MILLIMETRES};
use crate::random::Random;
use crate::sky;

/// Makes the call break the rule of this number in one of its ways (or do nothing where the call has
/// nothing to break). Damage adds up, so a call can earn several refusals.
pub fn damage(call: &mut Call, reason: u8, random: &Random) {
    match reason {
        1 => {
            let side = random.pick(&[0, 1, 6, 1_025, 1_026, random.pick(&HUGE)]);
            match random.below(3) {
                0 => call.width = side,
                1 => call.height = side,
                _ => (call.width, call.height) = (side, random.pick(&[6, 1_025, random.pick(&HUGE)])),
            }
        }
        2 if call.entry == Entry::Burst && random.chance(40) => {
            // More frames than a burst may have.
            let size = call.width.saturating_mul(call.height).min(15_900) as usize;
            call.samples = call.samples.resized(size * random.pick(&[65, 66]));
        }
        2 => damage_sample_count(call, random),
        3 => call.threshold = random.pick(&[0, 4_096, 65_535, random.pick(&HUGE)]),
        4 => {
            for _ in 0..1 + random.below(3) {
                if call.samples.len > 0 {
                    let place = random.below(call.samples.len);
                    call.samples.set(place, random.pick(&[4_096, 4_097, 8_191, 32_768, 65_535]));
                }
            }
        }
        5 => damage_settings(call, random),
        19 => damage_lens(call, random),
        6 | 7 => {
            let second = call.entry == Entry::Compare && random.chance(50);
            damage_catalogue(if second { &mut call.other } else { &mut call.catalogue }, reason, random);
        }
        8 => damage_vectors(call, random),
        9 => match random.chance(50) && !matches!(call.entry, Entry::Ranking | Entry::RankingByIndex) {
            true => {
                call.needed = random.pick(&[0, 1, 2, 9, 10, 255, 256 + 3, (1 << 32) + 3, u64::MAX, 1 << 63])
            }
            false => call.tolerance = random.pick(&[MOST_TOLERANCE + 1, 1 << 63, (1 << 63) - 1, u64::MAX]),
        },
        10 => {
            let full = match call.entry {
                Entry::Ranking | Entry::RankingByIndex => {
                    call.directions.len / 3 * (call.catalogue.len / RECORD_BYTES)
                }
                _ => 4_096,
            };
            let len = random.pick(&[full.saturating_sub(1), full / 2, 0]);
            call.room = call.room.resized(len);
        }
        11 => damage_ranking(call, random),
        12 => match call.entry {
            Entry::Search | Entry::Rival => lose_directions(call, random),
            _ => call.needed = 8,
        },
        15 => match random.below(3) {
            0 => call.row = random.pick(&[call.height, call.height.wrapping_add(1), random.pick(&HUGE)]),
            1 => call.column = random.pick(&[call.width, call.width.wrapping_add(1), random.pick(&HUGE)]),
            _ => (call.row, call.column) = (call.height, call.width),
        },
        16 => {
            let full = index_bytes(&call.catalogue.values(), call.floor).len();
            shorten(&mut call.bytes, full, INDEX_RECORD, random);
        }
        17 => damage_index(call, random),
        18 => {
            let short = [call.bytes.len.saturating_sub(81), call.bytes.len / 2, 79, 0];
            call.bytes = call.bytes.resized(random.pick(&short).min(call.bytes.len));
        }
        20 => {
            let full = list_length(&call.catalogue.values(), &call.other.values());
            shorten(&mut call.bytes, full, compare::RECORD_BYTES, random);
        }
        21 => keep_nothing(call, random),
        22 => damage_guider(call, random),
        23 => damage_matrix(call, random),
        _ => {}
    }
}

/// Makes the room shorter than the records that are to stand in it.
fn shorten(room: &mut Buffer<u8>, full: usize, record: usize, random: &Random) {
    let short = [full.saturating_sub(1), full.saturating_sub(record), full / 2, 0];
    *room = room.resized(random.pick(&short).min(room.len));
}

/// No star within the limit, or all of them close to each other.
fn keep_nothing(call: &mut Call, random: &Random) {
    let (limit, closeness) = (call.limit, call.closeness);
    let nothing =
        [(i32::MIN, closeness), (-2_001, closeness), (limit, i64::MIN), (limit.max(12_000), i64::MIN)];
    (call.limit, call.closeness) = random.pick(&nothing);
}

fn damage_matrix(call: &mut Call, random: &Random) {
    let beyond = [FARTHEST_ENTRY + 1, i64::MAX, (1 << 32) + 5 + FARTHEST_ENTRY];
    let entry = random.pick(&beyond) * random.pick(&[1, -1]);
    call.matrix.set(random.below(9), random.pick(&[entry, entry, i64::MIN]));
}

fn damage_sample_count(call: &mut Call, random: &Random) {
    let len = call.samples.len;
    match random.below(4) {
        0 => call.samples = Buffer::repeat(0, &[]),
        1 if call.width < 1_024 => call.width += 1,
        2 if call.height < 1_024 => call.height += 1,
        _ => {
            let count = random.pick(&[len + 1, len.saturating_sub(1), len + 7, len / 2]);
            call.samples = call.samples.resized(count.min(1_050_000));
        }
    }
}

fn damage_settings(call: &mut Call, random: &Random) {
    let beyond = random.pick(&[-1, 261_889, -261_888, i64::MIN, i64::MAX, (1 << 32) + 100]);
    match random.below(if call.entry == Entry::Direction { 4 } else { 2 }) {
        0 => call.cx = beyond,
        1 => call.cy = beyond,
        2 => call.x = beyond,
        _ => call.y = beyond,
    }
}

fn damage_lens(call: &mut Call, random: &Random) {
    let lens = &mut call.lens;
    let (first, second) = (lens.first, lens.second);
    let none = random.pick(&[0, 1 << 63, INFINITY, negated(INFINITY), random.pick(&NON_NUMBERS)]);
    match random.below(6) {
        0 => lens.kind = random.pick(&[2, 3, 255, 256, 257, 1 << 31, u32::MAX]),
        1 => lens.first = random.pick(&[none, negated(first), 1]),
        // A sound length with a pitch that is none.
        2 => *lens = Plate { kind: MILLIMETRES, first, second: none },
        3 => *lens = Plate { kind: MILLIMETRES, first: negated(first), second: negated(second) },
        4 => {
            *lens =
                Plate::of_focal(random.pick(&[16_383, 4_194_305, 0, -16_384, i64::MIN, i64::MAX, 1 << 40]))
        }
        _ => *lens = pixels(random.pick(&[of_whole(64) - 1, Plate::of_focal(4_194_305).first])),
    }
}

/// Makes the catalogue break rule 6 or 7.
pub fn damage_catalogue(catalogue: &mut Buffer<u8>, reason: u8, random: &Random) {
    match reason {
        6 => damage_catalogue_length(catalogue, random),
        7 => damage_record(catalogue, random),
        _ => {}
    }
}

fn damage_catalogue_length(catalogue: &mut Buffer<u8>, random: &Random) {
    let len = catalogue.len;
    let wanted = match random.below(4) {
        0 => 0,
        1 => len.saturating_sub(1 + random.below(15)),
        2 => len + 1 + random.below(15),
        _ => {
            // One record over and over; that they are too many comes before their equal identities.
            let record = sky::record(5, sky::anywhere(random));
            *catalogue = Buffer::repeat(RECORD_BYTES * random.pick(&[513, 520]), &record);
            return;
        }
    };
    *catalogue = catalogue.resized(wanted.min(RECORD_BYTES * 520));
}

fn damage_record(catalogue: &mut Buffer<u8>, random: &Random) {
    let records = catalogue.len / RECORD_BYTES;
    if records == 0 {
        return;
    }
    for _ in 0..1 + random.below(2) {
        let record = random.pick(&[0, records - 1, random.below(records)]);
        let at = RECORD_BYTES * record;
        match random.below(6) {
            0 if record > 0 => {
                // The identity of the record before, or one less than it, or 0.
                let before = word_at(catalogue, at - RECORD_BYTES);
                let identity = random.pick(&[before, before.wrapping_sub(1), 0]);
                set_word(catalogue, at, identity);
            }
            1 if record + 1 < records => set_word(catalogue, at, u32::MAX),
            2 => {
                // Turned into the longest or shortest direction allowed, or one beyond.
                let mut star = random.pick(&[sky::LONGEST, sky::SHORTEST, sky::TOO_LONG, sky::TOO_SHORT]);
                random.shuffle(&mut star);
                set_star(catalogue, at, star);
            }
            3 => {
                // Near enough in length, but one component is too large.
                let mut star = [random.pick(&[1_000_000_001, -1_000_000_001, i32::MIN, i32::MAX]), 0, 0];
                random.shuffle(&mut star);
                set_star(catalogue, at, star);
            }
            4 => {
                // A magnitude just beyond its range, far beyond, or one that is only in range without its high bytes.
                let beyond = [-2_001, 12_001, i32::MIN, i32::MAX, 65_536 + 5_000, -65_536, 1 << 24];
                set_word(catalogue, at + 16, random.pick(&beyond) as u32);
            }
            _ => {
                let place = at + random.below(RECORD_BYTES);
                let byte = catalogue.get(place);
                catalogue.set(place, byte ^ (1 << random.below(8)));
            }
        }
    }
}

fn word_at(bytes: &Buffer<u8>, at: usize) -> u32 {
    (at..at + 4).fold(0, |word, k| (word << 8) | u32::from(bytes.get(k)))
}

fn set_word(bytes: &mut Buffer<u8>, at: usize, word: u32) {
    for (k, byte) in word.to_be_bytes().into_iter().enumerate() {
        bytes.set(at + k, byte);
    }
}

fn set_star(bytes: &mut Buffer<u8>, at: usize, star: [i32; 3]) {
    for (k, component) in star.into_iter().enumerate() {
        set_word(bytes, at + 4 + 4 * k, component as u32);
    }
}

fn damage_vectors(call: &mut Call, random: &Random) {
    if call.entry == Entry::Attitude {
        let beyond = [1_000_000_001, -1_000_000_001, i64::MIN, i64::MAX, (1 << 32) + 5, -(1 << 32)];
        call.vectors.set(random.below(12), random.pick(&beyond));
        return;
    }
    let mut numbers = call.directions.values();
    match random.below(4) {
        0 => numbers.truncate(numbers.len().saturating_sub(1 + random.below(2))),
        1 => numbers.extend(vec![5; 1 + random.below(2)]),
        2 => numbers.resize(random.pick(&[27, 28, 39]), 1_000),
        _ if !numbers.is_empty() => {
            let place = random.below(numbers.len());
            numbers[place] = random.pick(&[1_000_000_001, -1_000_000_001, i32::MIN, i32::MAX]);
        }
        _ => numbers.push(0),
    }
    call.directions = Buffer::of(&numbers);
}

fn damage_ranking(call: &mut Call, random: &Random) {
    let mut words = call.ranking.values();
    let stars = (call.catalogue.len / RECORD_BYTES).max(1);
    if words.is_empty() || random.chance(25) {
        words.resize(
            random.pick(&[words.len() + 1, words.len().saturating_sub(1), words.len() + stars, 0]).min(4_200),
            0,
        );
    } else {
        for _ in 0..1 + random.below(2) {
            let place = random.pick(&[0, words.len() - 1, random.below(words.len())]);
            let row_start = place - place % stars;
            words[place] = match random.below(3) {
                0 => random.pick(&[stars as u16, stars as u16 + 1, 512, 32_768, 65_535]),
                1 => words[row_start + random.below(stars.min(words.len() - row_start))],
                _ => words[place.saturating_sub(1)],
            };
        }
    }
    call.ranking = Buffer::of(&words);
}

/// Makes the index another one than that of the catalogue and the floor.
fn damage_index(call: &mut Call, random: &Random) {
    let mut bytes = call.index.values();
    let records = bytes.len() / INDEX_RECORD;
    if records == 0 {
        // There is none to change: one too many, or a byte.
        call.index = Buffer::of(&vec![0; random.pick(&[1, INDEX_RECORD])]);
        return;
    }
    let record = random.pick(&[0, records - 1, random.below(records)]);
    let at = INDEX_RECORD * record;
    match random.below(10) {
        // Another floor: just above the record's dot product, or far off; or the index of another floor.
        0 => {
            let dot = bytes[at..at + 8].iter().fold(0, |dot: u64, &byte| dot << 8 | u64::from(byte)) as i64;
            call.floor = random.pick(&[dot.saturating_add(1), i64::MAX, i64::MIN]);
        }
        1 => drop(bytes.drain(..at + INDEX_RECORD)),
        // A bit, a record left out, or one twice.
        2 => bytes[random.below(records * INDEX_RECORD)] ^= 1 << random.below(8),
        3 => drop(bytes.drain(at..at + INDEX_RECORD)),
        4 => bytes.extend_from_within(at..at + INDEX_RECORD),
        // Two neighbours exchanged, or the numbers of a record.
        5 if record > 0 => bytes[at - INDEX_RECORD..at + INDEX_RECORD].rotate_left(INDEX_RECORD),
        6 => bytes[at + 8..at + INDEX_RECORD].rotate_left(2),
        // A byte short or long, or nothing at all.
        7 => bytes.truncate(records * INDEX_RECORD - 1),
        8 => bytes.push(0),
        _ if random.chance(50) => bytes.clear(),
        // The index of another catalogue.
        _ => {
            let mirrored = mirrored_catalogue(&call.catalogue).values();
            let mut mixed = call.catalogue.values();
            let star = RECORD_BYTES * random.below((mixed.len() / RECORD_BYTES).max(1));
            if star + RECORD_BYTES <= mixed.len() {
                mixed[star..star + RECORD_BYTES].copy_from_slice(&mirrored[star..star + RECORD_BYTES]);
            }
            call.catalogue = Buffer::of(&mixed);
        }
    }
    call.index = Buffer::of(&bytes);
}

/// Makes a start's guides, or a guider or list handed in, break the guider's rules.
fn damage_guider(call: &mut Call, random: &Random) {
    let beyond = random.pick(&[-1, 261_889, i64::MIN, i64::MAX, (1 << 32) + 100]);
    let (start, guides) = match call.entry {
        Entry::GuiderStart => (true, call.guides.len / 3),
        _ => (false, call.guider.get(1).clamp(0, 4) as usize),
    };
    let (numbers, first, size) = if start { (&mut call.guides, 0, 3) } else { (&mut call.guider, 2, 4) };
    let guide = first + size * random.below(guides.max(1));
    match random.below(if start { 4 } else { 7 }) {
        0 if start => call.half_width = random.pick(&[2_561, beyond]),
        0 => numbers.set(0, random.pick(&[2_561, beyond])),
        1 if guides > 0 => numbers.set(guide + 1 + random.below(2), beyond),
        // The identity of another guide.
        2 if guides > 1 => {
            let [one, other] = [0, 1 + random.below(guides - 1)].map(|k| first + size * k);
            let identity = numbers.get(one);
            numbers.set(other, identity);
        }
        3 if start => *numbers = Buffer::of(&[numbers.values(), vec![9; 3 * (5 - guides)]].concat()),
        3 => numbers.set(1, random.pick(&[5, -1, i64::MIN, i64::MAX])),
        4 if guides > 0 => numbers.set(guide + 3, random.pick(&[6, -1, i64::MAX])),
        5 => call.list.set(2, random.pick(&[9, -1, i64::MAX])),
        6 if call.list.get(2) > 0 => {
            let star = 6 + 3 * random.below(call.list.get(2).min(8) as usize);
            call.list.set(star + random.below(2), beyond);
        }
        _ => {}
    }
}

/// Leaves fewer directions than are needed, with the ranking cut to them.
fn lose_directions(call: &mut Call, random: &Random) {
    let stars = call.catalogue.len / RECORD_BYTES;
    let keep = random.below(call.needed.clamp(1, 8) as usize).min(call.directions.len / 3);
    call.directions = call.directions.resized(3 * keep);
    call.ranking = call.ranking.resized((keep * stars).min(call.ranking.len));
}

//! The burst: its records by hand, and that it is the single calls in order.

use second::answer::Refusal;
use second::burst::burst;
use second::call::{Call, Entry};
use second::chain::{chain, Settings};
use second::generate::{any_call, burst_of};
use second::lens::Plate;
use second::random::Random;
use second::search::Effort;
use second::sky::record;

const FILL: u8 = 0xEE;
const SIZE: usize = 160 * 120;

fn settings() -> Settings {
    Settings {
        width: 160,
        height: 120,
        threshold: 50,
        cx: 20_480,
        cy: 15_360,
        lens: Plate::of_focal(16_384),
        needed: 3,
        tolerance: 0,
    }
}

/// The stars of the document's listing.
fn catalogue() -> Vec<u8> {
    [
        record(11, [-600_000_000, 0, 800_000_000]),
        record(22, [600_000_000, 0, 800_000_000]),
        record(33, [0, 600_000_000, 800_000_000]),
    ]
    .concat()
}

/// The frame of the document's listing.
fn frame() -> Vec<u16> {
    let mut samples = vec![0; SIZE];
    for (row, column) in [(60, 32), (60, 128), (108, 80)] {
        let place = 160 * row + column;
        samples[place - 1..=place + 1].copy_from_slice(&[50, 100, 50]);
    }
    samples
}

/// The record of an accepted frame with this matrix, or of a refusal.
fn expected(number: u32, place: u32, matrix: [i64; 9]) -> Vec<u8> {
    let mut bytes = [number.to_be_bytes(), place.to_be_bytes()].concat();
    bytes.extend(matrix.iter().flat_map(|entry| entry.to_be_bytes()));
    bytes
}

#[test]
fn records_by_hand() {
    let unit = 1_000_000_000;
    let (dark, mut bad, mut turned) = (vec![0; SIZE], frame(), frame());
    bad[777] = 4_096;
    // Turned half round the middle of the frame, with the third star a little dimmer, so that the first two
    // directions are again those to the left and to the right.
    turned[160 * 108 + 79..=160 * 108 + 81].fill(0);
    turned[160 * 12 + 79..=160 * 12 + 81].copy_from_slice(&[49, 98, 49]);
    let samples = [frame(), bad, dark, turned, frame()].concat();
    let mut room = vec![9; 4_097];
    let mut records = vec![FILL; 403];
    assert_eq!(burst(&samples, &settings(), &catalogue(), &mut room, &mut records), Ok(5));
    let whole = [
        expected(0, 0, [unit, 0, 0, 0, unit, 0, 0, 0, unit]),
        expected(4, 777, [0; 9]),
        expected(12, 0, [0; 9]),
        expected(0, 0, [-unit, 0, 0, 0, -unit, 0, 0, 0, unit]),
        expected(0, 0, [unit, 0, 0, 0, unit, 0, 0, 0, unit]),
    ]
    .concat();
    assert_eq!(records[..400], whole);
    assert_eq!(records[400..], [FILL; 3]);
    // Three directions and three stars: nine words of the room.
    assert_eq!(room[9..], [9; 4_088]);
    assert!(room[..9].iter().all(|&word| word < 3));
}

#[test]
fn a_fault_of_the_settings_stands_in_every_record() {
    let samples = [frame(), frame(), frame()].concat();
    let given = |change: &dyn Fn(&mut Settings), catalogue: &[u8], words: usize| {
        let mut settings = settings();
        change(&mut settings);
        let (mut room, mut records) = (vec![9; words], vec![FILL; 240]);
        assert_eq!(burst(&samples, &settings, catalogue, &mut room, &mut records), Ok(3));
        assert!(room.iter().all(|&word| word == 9));
        assert_eq!(records[..80], records[80..160]);
        assert_eq!(records[..80], records[160..]);
        assert_eq!(records[8..80], [0; 72]);
        (records[3], records[7])
    };
    let stars = catalogue();
    let repeated = [&stars[..], &stars[..20]].concat();
    assert_eq!(given(&|set| set.threshold = 0, &stars, 4_096), (3, 0));
    assert_eq!(given(&|set| set.lens = Plate::of_focal(0), &stars, 4_096), (19, 0));
    assert_eq!(given(&|set| set.cy = -1, &stars, 4_096), (5, 0));
    assert_eq!(given(&|_| (), &stars[1..], 4_096), (6, 0));
    assert_eq!(given(&|_| (), &repeated, 4_096), (7, 3));
    assert_eq!(given(&|set| set.needed = 2, &stars, 4_096), (9, 0));
    assert_eq!(given(&|_| (), &stars, 4_095), (10, 0));
    assert_eq!(given(&|set| set.needed = 4, &stars, 4_096), (12, 0));
}

#[test]
fn refusals_of_the_whole_burst_write_nothing() {
    let samples = vec![0; 49 * 66];
    let refused = |width: i128, height: i128, samples: &[u16], records: usize| {
        let settings = Settings { width, height, threshold: 0, ..settings() };
        let (mut room, mut bytes) = (vec![9; 4_096], vec![FILL; records]);
        let answer = burst(samples, &settings, &[], &mut room, &mut bytes);
        if answer.is_err() {
            assert!(room.iter().all(|&word| word == 9) && bytes.iter().all(|&byte| byte == FILL));
        }
        answer.map_err(|refusal| {
            assert_eq!(refusal, Refusal::new(refusal.number));
            refusal.number
        })
    };
    assert_eq!(refused(6, 7, &samples[..1], 0), Err(1));
    assert_eq!(refused(7, 1_025, &samples[..1], 0), Err(1));
    assert_eq!(refused(0, 0, &[], 0), Err(1));
    assert_eq!(refused(7, 7, &samples[..1], 0), Err(2));
    assert_eq!(refused(7, 7, &samples[..97], 0), Err(2));
    assert_eq!(refused(7, 7, &samples[..49 * 65], 0), Err(2));
    assert_eq!(refused(7, 7, &samples[..49 * 65], 65 * 80), Err(2));
    assert_eq!(refused(7, 7, &samples[..49 * 64], 64 * 80 - 1), Err(18));
    assert_eq!(refused(7, 7, &samples[..49 * 64], 64 * 80), Ok(64));
    assert_eq!(refused(7, 7, &samples[..49], 79), Err(18));
    assert_eq!(refused(7, 7, &samples[..49], 80), Ok(1));
    // No sample is no frame, whatever else is wrong.
    assert_eq!(refused(7, 7, &[], 0), Ok(0));
    assert_eq!(refused(7, 7, &[], 100), Ok(0));
}

#[test]
fn the_burst_is_the_single_calls_in_order() {
    let random = Random::new(31);
    let mut given = [0; 20];
    for _ in 0..150 {
        let first = any_call(&random, Entry::Chain);
        if first.width > 1_024
            || first.height > 1_024
            || first.samples.len as u64 != first.width * first.height
        {
            continue;
        }
        let call = burst_of(&random, &first, random.below(5));
        let Ok(outcome) = call.run_wide(&mut Effort::up_to(100_000)) else {
            continue;
        };
        if outcome.out[0] != 0 {
            continue;
        }
        single_calls(&call, &outcome.lent.room, &outcome.lent.bytes, &mut given);
    }
    assert!(given[0] > 50 && given[4] > 20 && given[12] > 20 && given[13] > 20, "{given:?}");
}

/// Makes the single calls and compares their records, the room they leave and the rest of the records' room.
fn single_calls(call: &Call, room: &[u16], bytes: &[u8], given: &mut [usize; 20]) {
    let lent = call.lend();
    let mut single_room = lent.room;
    let mut records = Vec::new();
    for frame in lent.samples.chunks((call.width * call.height) as usize) {
        let (number, place, matrix) = match chain(frame, &call.settings(), &lent.catalogue, &mut single_room)
        {
            Ok(solution) => (0, 0, solution.matrix.concat().try_into().unwrap()),
            Err(refusal) => (refusal.number.into(), refusal.place as u32, [0; 9]),
        };
        given[number as usize] += 1;
        records.extend(expected(number, place, matrix));
    }
    assert_eq!(bytes[..records.len()], records);
    assert_eq!(bytes[records.len()..], lent.bytes[records.len()..]);
    assert_eq!(room, single_room);
}

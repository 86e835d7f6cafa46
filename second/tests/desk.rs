//! The desk's lines: each kind of reason, worked out by hand, and the refusals.

use second::desk::{index, why};

/// The settings of a frame of this size with threshold 50; the desk looks at nothing else.
fn settings(width: u16, height: u16, threshold: u16) -> Vec<u8> {
    let mut bytes: Vec<u8> = [width, height, threshold].iter().flat_map(|n| n.to_be_bytes()).collect();
    bytes.resize(32, 255);
    bytes
}

/// A frame's file, 0 but for the given (row, column, sample).
fn frame(width: usize, height: usize, pixels: &[(usize, usize, u16)]) -> Vec<u8> {
    let mut samples = vec![0_u16; width * height];
    for &(row, column, sample) in pixels {
        samples[row * width + column] = sample;
    }
    samples.iter().flat_map(|sample| sample.to_be_bytes()).collect()
}

/// The line for a pixel of a 20 x 12 frame.
fn line(pixels: &[(usize, usize, u16)], row: u64, column: u64) -> String {
    why(&settings(20, 12, 50), &frame(20, 12, pixels), row, column)
}

#[test]
fn dark_gives_sample_and_threshold() {
    assert_eq!(line(&[(5, 5, 12)], 5, 5), "dark 12 50\n");
    assert_eq!(line(&[(5, 5, 49)], 5, 5), "dark 49 50\n");
    assert_eq!(line(&[], 11, 19), "dark 0 50\n");
}

#[test]
fn beaten_names_the_first_pixel() {
    // An equal one before it beats, an equal one after it does not.
    assert_eq!(line(&[(5, 5, 80), (5, 6, 80)], 5, 6), "beaten 5 5\n");
    assert_eq!(line(&[(5, 5, 80), (5, 6, 80), (5, 7, 81), (4, 8, 90)], 5, 5), "beaten 4 8\n");
    assert_eq!(line(&[(5, 5, 80), (5, 6, 80), (5, 7, 81), (8, 8, 90)], 5, 5), "beaten 5 7\n");
    assert_eq!(line(&[(5, 5, 80), (2, 2, 80), (2, 3, 4_000)], 5, 5), "beaten 2 2\n");
    // Beaten comes before edge.
    assert_eq!(line(&[(0, 0, 60), (3, 3, 61)], 0, 0), "beaten 3 3\n");
}

#[test]
fn edge_names_the_first_side() {
    let alone = |row: usize, column: usize| line(&[(row, column, 60)], row as u64, column as u64);
    assert_eq!(alone(5, 2), "edge left\n");
    assert_eq!(alone(5, 17), "edge right\n");
    assert_eq!(alone(2, 5), "edge top\n");
    assert_eq!(alone(9, 5), "edge bottom\n");
    assert_eq!(alone(0, 0), "edge left\n");
    assert_eq!(alone(11, 0), "edge left\n");
    assert_eq!(alone(0, 19), "edge right\n");
    assert_eq!(alone(11, 19), "edge right\n");
    // On the smallest frame one pixel has three on every side.
    let smallest = |row: usize, column: usize| {
        why(&settings(7, 7, 50), &frame(7, 7, &[(row, column, 60)]), row as u64, column as u64)
    };
    assert_eq!(smallest(4, 3), "edge bottom\n");
    assert_eq!(smallest(2, 4), "edge right\n");
    assert_eq!(smallest(3, 3), "lone 0\n");
}

#[test]
fn lone_gives_the_largest_neighbour() {
    assert_eq!(line(&[(5, 5, 100)], 5, 5), "lone 0\n");
    assert_eq!(line(&[(5, 5, 100), (5, 4, 12), (6, 6, 7)], 5, 5), "lone 12\n");
    assert_eq!(line(&[(5, 5, 100), (4, 6, 24), (4, 4, 23), (5, 7, 99), (3, 5, 99)], 5, 5), "lone 24\n");
    // Each of the eight saves it: 24 x 100 and 24 x 25, a fifth of a pixel to its side.
    assert_eq!(line(&[(5, 5, 100), (4, 4, 25)], 5, 5), "measured 1229 1229 3000\n");
    assert_eq!(line(&[(5, 5, 100), (5, 6, 25)], 5, 5), "measured 1331 1280 3000\n");
    assert_eq!(line(&[(5, 5, 100), (6, 5, 25)], 5, 5), "measured 1280 1331 3000\n");
    // Half of 51 is 25; half of 1 is 0, which every sample reaches.
    let asked = |threshold: u16, beside: u16| {
        why(&settings(20, 12, threshold), &frame(20, 12, &[(5, 5, 100), (5, 6, beside)]), 5, 5)
    };
    assert_eq!(asked(51, 24), "lone 24\n");
    assert_eq!(asked(51, 25), "measured 1331 1280 3000\n");
    assert_eq!(asked(52, 25), "lone 25\n");
    assert_eq!(asked(2, 0), "lone 0\n");
    assert_eq!(asked(1, 0), "measured 1280 1280 2400\n");
    // Edge comes first.
    assert_eq!(line(&[(5, 2, 100)], 5, 2), "edge left\n");
}

#[test]
fn measured_gives_position_and_brightness() {
    // Weights 24 x 100 and 24 x 50: the middle lies a third of a pixel to the left.
    assert_eq!(line(&[(5, 5, 100), (5, 4, 50)], 5, 5), "measured 1195 1280 3600\n");
    assert_eq!(line(&[(3, 16, 100), (3, 15, 50), (3, 17, 50)], 3, 16), "measured 4096 768 4800\n");
    assert_eq!(line(&[(8, 3, 100), (7, 3, 50), (9, 3, 50)], 8, 3), "measured 768 2048 4800\n");
}

#[test]
fn refusals() {
    let (sound, samples) = (settings(20, 12, 50), frame(20, 12, &[]));
    assert_eq!(why(&[], &samples, 0, 0), "refused 1 0\n");
    assert_eq!(why(&sound[..31], &samples, 0, 0), "refused 1 0\n");
    assert_eq!(why(&[&sound[..], &[0]].concat(), &samples, 0, 0), "refused 1 0\n");
    assert_eq!(why(&settings(6, 12, 50), &samples, 99, 0), "refused 1 0\n");
    assert_eq!(why(&settings(20, 1_025, 50), &samples, 0, 0), "refused 1 0\n");
    assert_eq!(why(&sound, &[], 0, 0), "refused 2 0\n");
    assert_eq!(why(&sound, &samples[1..], 0, 0), "refused 2 0\n");
    assert_eq!(why(&settings(200, 160, 50), &frame(200, 160, &[]), 0, 0), "dark 0 50\n");
    assert_eq!(why(&settings(200, 161, 50), &frame(200, 161, &[]), 0, 0), "refused 2 0\n");
    assert_eq!(why(&settings(20, 12, 0), &samples, 12, 0), "refused 3 0\n");
    assert_eq!(why(&settings(20, 12, 4_096), &samples, 0, 0), "refused 3 0\n");
    assert_eq!(line(&[(3, 7, 4_096), (4, 0, 5_000)], 12, 0), "refused 4 67\n");
    assert_eq!(line(&[], 12, 0), "refused 15 0\n");
    assert_eq!(line(&[], 0, 20), "refused 15 0\n");
    assert_eq!(line(&[], u64::MAX, u64::MAX), "refused 15 0\n");
}

/// A catalogue of these directions, with the identities 1, 2 and so on and the magnitude 2.5.
fn catalogue(stars: &[[i32; 3]]) -> Vec<u8> {
    let record = |(i, star): (usize, &[i32; 3])| {
        let identity = (i as u32 + 1).to_be_bytes();
        let magnitude = 2_500_i32.to_be_bytes();
        [identity, star[0].to_be_bytes(), star[1].to_be_bytes(), star[2].to_be_bytes(), magnitude].concat()
    };
    stars.iter().enumerate().flat_map(record).collect()
}

#[test]
fn index_gives_its_number_of_records() {
    let one = 1_000_000_000;
    let stars = catalogue(&[[one, 0, 0], [0, one, 0], [-one, 0, 0]]);
    let least: i64 = -1_000_000_000_000_000_000;
    let first = [&least.to_be_bytes()[..], &[0, 0, 0, 2]].concat();
    let (line, bytes) = index(&stars, least);
    assert_eq!((&line[..], &bytes.unwrap()[..12]), ("records 3\n", &first[..]));
    assert_eq!(index(&stars, least + 1).0, "records 2\n");
    assert_eq!(index(&stars, i64::MIN).0, "records 3\n");
    assert_eq!(index(&stars, i64::MAX), ("records 0\n".into(), Some(vec![])));
    assert_eq!(index(&[], 0), ("refused 6 0\n".into(), None));
    assert_eq!(index(&catalogue(&[[one, 0, 0], [one, one, 0]]), 0), ("refused 7 1\n".into(), None));
}

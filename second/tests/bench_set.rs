//! The bench set of the scope document, A to O, by the wide and by the plain implementation.

use second::answer::{Assignment, Centroid, Kind, Refusal};
use second::lens::{Plate, PIXELS};
use second::sky::record;
use second::{attitude, direction, frame, plain, search};

const X_AXIS: [i32; 3] = [1_000_000_000, 0, 0];
const Y_AXIS: [i32; 3] = [0, 1_000_000_000, 0];
const Z_AXIS: [i32; 3] = [0, 0, 1_000_000_000];

/// A 7 x 7 frame that is 0 but for the given (row, column, sample).
fn frame_7(pixels: &[(usize, usize, u16)]) -> Vec<u16> {
    let mut samples = vec![0; 49];
    for &(row, column, sample) in pixels {
        samples[7 * row + column] = sample;
    }
    samples
}

fn verdict(samples: &[u16], threshold: usize, row: usize, column: usize) -> Kind {
    let wide = frame::verdict(samples, 7, 7, threshold as i128, row as i128, column as i128).unwrap();
    assert_eq!(plain::verdict(samples, 7, 7, threshold, row, column), Ok(wide));
    assert_eq!((wide.row, wide.column), (row, column));
    wide.kind
}

fn measured(x: i64, y: i64, brightness: i64) -> Kind {
    Kind::Measured(Centroid { x, y, brightness })
}

#[test]
fn a_one_pixel_is_lone() {
    assert_eq!(verdict(&frame_7(&[(3, 3, 100)]), 50, 3, 3), Kind::Lone);
}

#[test]
fn b_two_equal_pixels() {
    let samples = frame_7(&[(3, 3, 100), (3, 4, 100)]);
    assert_eq!(verdict(&samples, 50, 3, 3), measured(896, 768, 4_800));
    assert_eq!(verdict(&samples, 50, 3, 4), Kind::Beaten);
}

#[test]
fn c_fraction_toward_zero() {
    let samples = frame_7(&[(3, 3, 100), (3, 2, 50)]);
    assert_eq!(verdict(&samples, 50, 3, 3), measured(683, 768, 3_600));
}

#[test]
fn d_one_pixel_and_a_lit_border_is_lone() {
    let samples = frame_7(&[(3, 3, 100), (0, 0, 24)]);
    assert_eq!(verdict(&samples, 50, 3, 3), Kind::Lone);
}

#[test]
fn sky_level_from_the_border() {
    // Half the threshold beside the peak: weights 24 x 100 - 24 and 24 x 25 - 24; 256 x 576 / 2,952 is 49.9...
    let samples = frame_7(&[(3, 3, 100), (2, 2, 25), (0, 0, 24)]);
    assert_eq!(verdict(&samples, 50, 3, 3), measured(719, 719, 2_952));
}

#[test]
fn e_edge() {
    assert_eq!(verdict(&frame_7(&[(3, 2, 100)]), 50, 3, 2), Kind::Edge);
}

#[test]
fn f_all_full() {
    let samples = vec![4_095; 49];
    for row in 0..7 {
        for column in 0..7 {
            let expected = if (row, column) == (0, 0) { Kind::Edge } else { Kind::Beaten };
            assert_eq!(verdict(&samples, 4_095, row, column), expected);
        }
    }
}

#[test]
fn g_and_h_directions() {
    for (cx, expected) in [(0, [0, 0, 1_000_000_000]), (12_288, [-600_000_000, 0, 800_000_000])] {
        assert_eq!(direction::direction(cx, 0, Plate::of_focal(16_384), 0, 0), Ok(expected));
        let lens = plain::Plate { kind: PIXELS, first: 64.0, second: 0.0 };
        assert_eq!(plain::direction(cx as i64, 0, lens, 0, 0), Ok(expected));
    }
}

fn attitude(camera: [[i32; 3]; 2], sky: [[i32; 3]; 2]) -> Result<[[i64; 3]; 3], Refusal> {
    let vectors: Vec<i64> =
        camera.as_flattened().iter().chain(sky.as_flattened()).map(|&component| component.into()).collect();
    let vectors = vectors.try_into().unwrap();
    let wide = attitude::attitude(&vectors);
    assert_eq!(plain::attitude(&vectors), wide);
    wide
}

#[test]
fn i_identity() {
    let unit = 1_000_000_000;
    assert_eq!(attitude([Z_AXIS, X_AXIS], [Z_AXIS, X_AXIS]), Ok([[unit, 0, 0], [0, unit, 0], [0, 0, unit]]));
}

#[test]
fn j_quarter_turn() {
    let unit = 1_000_000_000;
    assert_eq!(attitude([Z_AXIS, Y_AXIS], [Z_AXIS, X_AXIS]), Ok([[0, -unit, 0], [unit, 0, 0], [0, 0, unit]]));
}

#[test]
fn k_too_close() {
    assert_eq!(attitude([X_AXIS, X_AXIS], [X_AXIS, Y_AXIS]), Err(Refusal::new(14)));
    assert_eq!(attitude([X_AXIS, Y_AXIS], [X_AXIS, X_AXIS]), Err(Refusal::new(14)));
}

/// The search over the three axes as stars, tolerance 0, needed 3.
fn search(directions: &[[i32; 3]], ranking: &[u16]) -> Result<Assignment, Refusal> {
    let catalogue: Vec<u8> = [X_AXIS, Y_AXIS, Z_AXIS]
        .iter()
        .zip(1..)
        .flat_map(|(star, identity)| record(identity, *star))
        .collect();
    let directions = directions.as_flattened();
    let wide = search::search(directions, &catalogue, 3, 0, ranking);
    assert_eq!(plain::search(directions, &catalogue, 3, 0, ranking), wide);
    wide
}

#[test]
fn l_axes_in_order() {
    let found = search(&[X_AXIS, Y_AXIS, Z_AXIS], &[0, 1, 2, 0, 1, 2, 0, 1, 2]);
    assert_eq!(found, Ok(vec![Some(0), Some(1), Some(2)]));
}

#[test]
fn m_first_row_backwards() {
    let found = search(&[X_AXIS, Y_AXIS, Z_AXIS], &[2, 1, 0, 0, 1, 2, 0, 1, 2]);
    assert_eq!(found, Ok(vec![Some(2), Some(0), Some(1)]));
}

#[test]
fn odd_turns_of_the_axes_do_not_fit() {
    // 1, 0, 2 would be the mirror image; 1, 2, 0 turns the axes.
    let found = search(&[X_AXIS, Y_AXIS, Z_AXIS], &[1, 0, 2, 0, 1, 2, 0, 1, 2]);
    assert_eq!(found, Ok(vec![Some(1), Some(2), Some(0)]));
    // Seen in a mirror, the even turns are the ones that do not fit.
    let found = search(&[X_AXIS.map(|component| -component), Y_AXIS, Z_AXIS], &[0, 1, 2, 0, 1, 2, 0, 1, 2]);
    assert_eq!(found, Ok(vec![Some(0), Some(2), Some(1)]));
}

#[test]
fn n_too_few_directions() {
    assert_eq!(search(&[X_AXIS, Y_AXIS], &[0, 1, 2, 0, 1, 2]), Err(Refusal::new(12)));
}

#[test]
fn o_false_direction_first() {
    let directions = [[600_000_000, 800_000_000, 0], X_AXIS, Y_AXIS, Z_AXIS];
    let found = search(&directions, &[0, 1, 2, 0, 1, 2, 0, 1, 2, 0, 1, 2]);
    assert_eq!(found, Ok(vec![None, Some(0), Some(1), Some(2)]));
}

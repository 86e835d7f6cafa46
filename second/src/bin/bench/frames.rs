//! Lists of large frames, and one pixel of such a frame.

use second::call::{Buffer, Call, Entry};
use second::frame;
use second::generate::{draw_star, frame_of};
use second::random::Random;

const SIDE: usize = 1_024;

pub fn inputs(random: &Random) -> Vec<(&'static str, Call)> {
    let star_field = star_field_list(random, SIDE);
    vec![
        ("list, 1024 x 1024, dark", dark_list(random, SIDE)),
        ("list, 1024 x 1024, star field", star_field.clone()),
        ("list, 1024 x 1024, noise just above the threshold", noise_list(random)),
        ("verdict, the brightest star of that field", brightest(&star_field, Entry::Verdict)),
        ("reason, the same pixel", brightest(&star_field, Entry::Reason)),
    ]
}

/// The same frame, and the pixel of its brightest star.
fn brightest(list: &Call, entry: Entry) -> Call {
    let set = list.settings();
    let stars = frame::list(&list.samples.values(), set.width, set.height, set.threshold)
        .expect("the frame is sound")
        .stars;
    let pixel = |position: i64| ((position + 128) / 256) as u64;
    Call { entry, row: pixel(stars[0].y), column: pixel(stars[0].x), ..list.clone() }
}

fn noise(random: &Random, side: usize, low: u16, span: usize) -> Buffer<u16> {
    let samples: Vec<u16> = (0..side * side).map(|_| low + random.below(span) as u16).collect();
    Buffer::repeat(side * side, &samples)
}

/// A ground of noise that stays below the threshold.
fn dark_list(random: &Random, side: usize) -> Call {
    frame_of(Entry::List, side, side, 60, noise(random, side, 20, 40))
}

/// About 500 stars in a frame of the most pixels.
pub fn star_field_list(random: &Random, side: usize) -> Call {
    let mut call = dark_list(random, side);
    for _ in 0..1.max(500 * side * side / (SIDE * SIDE)) {
        let place = || random.between(0, 256 * (side as i64 - 1));
        draw_star(&mut call, place(), place(), random.between(100, 4_095));
    }
    call
}

/// No pixel is dark.
fn noise_list(random: &Random) -> Call {
    frame_of(Entry::List, SIDE, SIDE, 60, noise(random, SIDE, 60, 40))
}

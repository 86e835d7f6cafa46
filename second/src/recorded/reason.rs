//! Reasons of pixels.

use super::frame::{
    at, bench_frames, bright_border, every_pixel, frame_limits, frame_reasons, leaning_star, lone_and_not,
    star_everywhere,
};
use super::vary;
use crate::call::{Buffer, Call, Entry};
use crate::generate::{dark_frame, frame_of, set_pixel, small_frame, HUGE};
use crate::random::Random;

/// Pixels around a star, each as large as it, one larger or one less, so that some beat it and some do not.
fn besieged_star(random: &Random, beside: usize) -> Call {
    let mut call = dark_frame(Entry::Reason, 11, 10, 50);
    for _ in 0..beside {
        set_pixel(&mut call, random.below(10), random.below(11), random.pick(&[99, 100, 100, 101]));
    }
    let (row, column) = (2 + random.below(6), 2 + random.below(7));
    set_pixel(&mut call, row, column, 100);
    at(&call, row, column)
}

pub fn reasons(random: &Random, calls: &mut Vec<Call>) {
    every_place(random, calls);
    about_the_threshold(random, calls);
    let sound = leaning_star(random, Entry::Reason);
    frame_limits(calls, &sound);
    let outside = [0, 6, 7, 8, 48, 49];
    vary(calls, &sound, &outside, |call, row| call.row = row);
    vary(calls, &sound, &outside, |call, column| call.column = column);
    vary(calls, &sound, &HUGE, |call, row| call.row = row);
    vary(calls, &sound, &HUGE, |call, column| call.column = column);
    frame_reasons(random, calls, Entry::Reason);
    calls.extend(lone_and_not(random, Entry::Reason));
    calls.extend((0..10).map(|_| bright_border(random, Entry::Reason)));
}

/// Every pixel of the bench set, every side and corner, and every place around a star.
fn every_place(random: &Random, calls: &mut Vec<Call>) {
    // The bench set: every pixel of A and F, and the lit ones of the others.
    for (k, frame) in bench_frames(Entry::Reason).into_iter().enumerate() {
        let lit = |&(row, column): &(usize, usize)| frame.samples.get(7 * row + column) > 0;
        let asked = every_pixel(&frame).filter(|pixel| k == 0 || k == 5 || lit(pixel));
        calls.extend(asked.map(|(row, column)| at(&frame, row, column)));
    }
    // Every side, and every corner, where two are broken; on the smallest frame all four.
    for (frame, row, column) in star_everywhere(random, Entry::Reason) {
        calls.push(at(&frame, row, column));
    }
    // One pixel that beats or does not, at every place around the star; then many, of which the first counts.
    for near in [100, 101] {
        for (row, column) in every_pixel(&dark_frame(Entry::Reason, 9, 9, 50)) {
            let mut call = dark_frame(Entry::Reason, 9, 9, 50);
            set_pixel(&mut call, row, column, near);
            set_pixel(&mut call, 4, 4, 100);
            calls.push(at(&call, 4, 4));
        }
    }
    for beside in [2, 3, 6, 30] {
        for _ in 0..30 {
            calls.push(besieged_star(random, beside));
        }
    }
}

/// Samples at the threshold and beside it, random frames, and large ones.
fn about_the_threshold(random: &Random, calls: &mut Vec<Call>) {
    // Just at the threshold and just below it.
    for sample in [0, 1, 49, 50, 51, 4_095] {
        let mut call = dark_frame(Entry::Reason, 8, 9, 50);
        set_pixel(&mut call, 4, 4, sample);
        vary(calls, &call, &[1, 49, 50, 51, 4_095], |call, threshold| {
            call.threshold = threshold;
            (call.row, call.column) = (4, 4);
        });
    }
    for _ in 0..80 {
        calls.push(leaning_star(random, Entry::Reason));
        calls.push(small_frame(random, Entry::Reason));
    }
    // The far corner of a large frame, and the pixel where its window begins.
    for (width, height) in [(1_024, 7), (7, 1_024), (300, 200)] {
        let pattern: Vec<u16> = (0..31).map(|_| random.below(90) as u16).collect();
        let frame = frame_of(Entry::Reason, width, height, 50, Buffer::repeat(width * height, &pattern));
        for (up, left) in [(0, 0), (3, 3), (1, 2), (2, 1), (4, 4)] {
            let mut call = frame.clone();
            set_pixel(&mut call, height - 1 - up, width - 1 - left, 95);
            calls.push(at(&call, height - 1 - up, width - 1 - left));
        }
    }
}

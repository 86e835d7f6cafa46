//! Verdicts and lists.

use super::vary;
use crate::call::{Buffer, Call, Entry};
use crate::damage::damage;
use crate::generate::{
    add_hot_pixels, dark_frame, draw_star, frame_of, set_pixel, small_frame, star_field, HUGE,
};
use crate::random::Random;

/// The frames of the bench set, A to F.
pub(super) fn bench_frames(entry: Entry) -> Vec<Call> {
    let with = |pixels: &[(usize, usize, u16)]| {
        let mut call = dark_frame(entry, 7, 7, 50);
        for &(row, column, sample) in pixels {
            set_pixel(&mut call, row, column, sample);
        }
        call
    };
    vec![
        with(&[(3, 3, 100)]),
        with(&[(3, 3, 100), (3, 4, 100)]),
        with(&[(3, 3, 100), (3, 2, 50)]),
        with(&[(3, 3, 100), (0, 0, 24)]),
        with(&[(3, 2, 100)]),
        frame_of(entry, 7, 7, 4_095, Buffer::repeat(49, &[4_095])),
    ]
}

/// The call for this pixel.
pub(super) fn at(call: &Call, row: usize, column: usize) -> Call {
    let mut call = call.clone();
    call.row = row as u64;
    call.column = column as u64;
    call
}

pub(super) fn every_pixel(call: &Call) -> impl Iterator<Item = (usize, usize)> {
    let (width, height) = (call.width as usize, call.height as usize);
    (0..height).flat_map(move |row| (0..width).map(move |column| (row, column)))
}

/// A star at every place of small frames, the corners too, on a dark or an uneven ground.
pub(super) fn star_everywhere(random: &Random, entry: Entry) -> Vec<(Call, usize, usize)> {
    let mut frames = Vec::new();
    for (width, height) in [(7, 7), (9, 8), (7, 12), (13, 7)] {
        let ground: Vec<u16> = match width {
            9 => (0..5).map(|_| random.below(40) as u16).collect(),
            _ => vec![0],
        };
        let empty = frame_of(entry, width, height, 50, Buffer::repeat(width * height, &ground));
        for (row, column) in every_pixel(&empty) {
            let mut call = empty.clone();
            set_pixel(&mut call, row, column, random.pick(&[50, 51, 100, 4_095]));
            frames.push((call, row, column));
        }
    }
    frames
}

/// A peak at the middle of a 7 x 7 frame with light on any of the other pixels.
pub(super) fn leaning_star(random: &Random, entry: Entry) -> Call {
    let peak = random.pick(&[60, 100, 1_000, 4_095]);
    let share = random.pick(&[5, 20, 60]);
    let samples: Vec<u16> = (0..49)
        .map(|k| match k {
            24 => peak,
            _ if random.chance(share) => random.below(usize::from(peak) + 1) as u16,
            _ => random.below(3) as u16,
        })
        .collect();
    at(&frame_of(entry, 7, 7, 50, Buffer::of(&samples)), 3, 3)
}

/// Frames of the largest sides; short patterns keep the file small.
fn large_frames(random: &Random, entry: Entry) -> Vec<Call> {
    let mut frames = Vec::new();
    let noise = |len: usize, low: u16, span: usize| -> Vec<u16> {
        (0..len).map(|_| low + random.below(span) as u16).collect()
    };
    let patterns: [(usize, usize, u64, Vec<u16>); 6] = [
        (1_024, 1_024, 100, noise(61, 0, 90)),
        (1_024, 1_023, 4_095, vec![4_095]),
        (1_000, 1_024, 60, noise(997, 40, 40)),
        (1_024, 7, 50, noise(211, 0, 80)),
        (7, 1_024, 50, noise(211, 0, 80)),
        (200, 160, 30, noise(307, 20, 30)),
    ];
    for (k, (width, height, threshold, pattern)) in patterns.into_iter().enumerate() {
        let mut call = frame_of(entry, width, height, threshold, Buffer::repeat(width * height, &pattern));
        if k != 1 {
            for _ in 0..40 {
                let x = random.between(0, 256 * (width as i64 - 1));
                let y = random.between(0, 256 * (height as i64 - 1));
                draw_star(&mut call, x, y, random.pick(&[4_095, 3_000, random.between(200, 4_095)]));
            }
        }
        frames.push(call);
    }
    frames
}

/// Numbers of a frame at their limits, just beyond, and far beyond.
pub(super) fn frame_limits(calls: &mut Vec<Call>, sound: &Call) {
    let sides = [0, 1, 6, 7, 8, 1_024, 1_025, 65_536 + sound.width, (1 << 32) + sound.width];
    vary(calls, sound, &sides, |call, side| call.width = side);
    vary(calls, sound, &sides, |call, side| call.height = side);
    vary(calls, sound, &HUGE, |call, side| call.width = side);
    vary(calls, sound, &HUGE, |call, side| call.height = side);
    // Sides whose product, kept to 64 bits, is again the number of samples.
    vary(
        calls,
        sound,
        &[(1 << 63, 2, 0), (1 << 32, 1 << 32, 0), (u64::MAX, u64::MAX, 1)],
        |call, (width, height, len)| {
            (call.width, call.height) = (width, height);
            call.samples = Buffer::repeat(len, &[0]);
        },
    );
    vary(calls, sound, &[0, 1, 2, 49, 50, 51, 4_094, 4_095, 4_096, 65_535], |call, threshold| {
        call.threshold = threshold
    });
    vary(calls, sound, &HUGE, |call, threshold| call.threshold = threshold);
    let len = sound.samples.len;
    vary(calls, sound, &[0, 1, len - 1, len, len + 1, 2 * len], |call, len| {
        call.samples = call.samples.resized(len)
    });
    for sample in [4_094, 4_095, 4_096, 32_768, 65_535] {
        vary(calls, sound, &[0, 1, len / 2, len - 1], |call, place| call.samples.set(place, sample));
    }
    // Two samples too large: the first place is given.
    vary(calls, sound, &[(len - 1, 5), (3, 4), (9, 8)], |call, (one, other)| {
        call.samples.set(one, 65_535);
        call.samples.set(other, 4_096);
    });
}

/// Every set of reasons among 1, 2, 3, 4 and, where a pixel is asked for, 15: the lowest must be given.
pub(super) fn frame_reasons(random: &Random, calls: &mut Vec<Call>, entry: Entry) {
    let reasons = entry.refusals();
    for set in 1..1_usize << reasons.len() {
        for _ in 0..3 {
            let mut call = small_frame(random, entry);
            // From the last reason to the first, since a changed side changes what a sound count is.
            for (k, &reason) in reasons.iter().enumerate().rev() {
                if set >> k & 1 == 1 {
                    damage(&mut call, reason, random);
                }
            }
            calls.push(call);
        }
    }
}

pub fn verdicts(random: &Random, calls: &mut Vec<Call>) {
    for frame in bench_frames(Entry::Verdict) {
        calls.extend(every_pixel(&frame).map(|(row, column)| at(&frame, row, column)));
    }
    for (frame, row, column) in star_everywhere(random, Entry::Verdict) {
        calls.push(at(&frame, row, column));
        calls.push(at(&frame, random.below(frame.height as usize), random.below(frame.width as usize)));
    }
    for _ in 0..300 {
        calls.push(leaning_star(random, Entry::Verdict));
    }
    for _ in 0..700 {
        calls.push(small_frame(random, Entry::Verdict));
    }
    ties(random, calls);
    verdict_limits(random, calls);
}

/// Pixels that stand in each way to a star: equal or larger, before or after.
fn ties(random: &Random, calls: &mut Vec<Call>) {
    // Every pixel of a frame full of ties.
    let ties: Vec<u16> = (0..110).map(|_| random.pick(&[0, 50, 50, 60])).collect();
    let ties = frame_of(Entry::Verdict, 11, 10, 50, Buffer::of(&ties));
    calls.extend(every_pixel(&ties).map(|(row, column)| at(&ties, row, column)));

    // The pixels around a star stand in each way to it: equal or one larger, before or after.
    for near in [100, 101] {
        for down in 0..9 {
            for right in 0..9 {
                let mut call = dark_frame(Entry::Verdict, 9, 9, 50);
                set_pixel(&mut call, 4, 4, 100);
                set_pixel(&mut call, down, right, near);
                calls.push(at(&call, 4, 4));
            }
        }
    }
}

/// Large frames, and numbers at their limits and beyond.
fn verdict_limits(random: &Random, calls: &mut Vec<Call>) {
    for frame in large_frames(random, Entry::Verdict).into_iter().skip(2) {
        let (bottom, right) = (frame.height as usize - 1, frame.width as usize - 1);
        let corners = [(0, 0), (bottom, 0), (0, right), (bottom, right), (bottom - 3, right - 3), (3, 3)];
        let few = if frame.samples.len > 100_000 { 1 } else { corners.len() };
        calls.extend(corners[corners.len() - few..].iter().map(|&(row, column)| at(&frame, row, column)));
    }
    let sound = at(&leaning_star(random, Entry::Verdict), 3, 3);
    frame_limits(calls, &sound);
    let outside = [0, 6, 7, 8, 48, 49, 50];
    vary(calls, &sound, &outside, |call, row| call.row = row);
    vary(calls, &sound, &outside, |call, column| call.column = column);
    vary(calls, &sound, &HUGE, |call, row| call.row = row);
    vary(calls, &sound, &HUGE, |call, column| call.column = column);
    frame_reasons(random, calls, Entry::Verdict);
    calls.extend(lone_and_not(random, Entry::Verdict));
    calls.extend((0..40).map(|_| bright_border(random, Entry::Verdict)));
}

/// A peak with one other pixel, at each place around it, just below half the threshold, at it and just above it:
/// only the eight beside the peak save it from being lone. Every threshold that rounds in its own way.
pub(super) fn lone_and_not(random: &Random, entry: Entry) -> Vec<Call> {
    let mut calls = Vec::new();
    for (threshold, near) in [
        (1, [0, 1]),
        (2, [0, 1]),
        (3, [0, 1]),
        (4, [1, 2]),
        (50, [24, 25]),
        (51, [24, 25]),
        (4_095, [2_046, 2_047]),
    ] {
        for beside in near {
            for (down, right) in every_pixel(&dark_frame(entry, 5, 5, 1)) {
                // All places where it matters, some of those where it does not.
                let inner = (1..4).contains(&down) && (1..4).contains(&right);
                if !inner && !random.chance(20) {
                    continue;
                }
                let mut call = dark_frame(entry, 9, 8, threshold);
                set_pixel(&mut call, down + 2, right + 2, beside);
                set_pixel(&mut call, 4, 4, random.pick(&[threshold as u16, 4_095]));
                calls.push(at(&call, 4, 4));
            }
        }
    }
    // Any eight neighbours: the largest counts.
    for _ in 0..60 {
        let threshold = random.pick(&[40, 41, 200]);
        let mut call = dark_frame(entry, 7, 7, threshold as u64);
        for (row, column) in [(2, 2), (2, 3), (2, 4), (3, 2), (3, 4), (4, 2), (4, 3), (4, 4)] {
            set_pixel(&mut call, row, column, random.below(threshold / 2 + random.below(2)) as u16);
        }
        set_pixel(&mut call, 3, 3, 300);
        set_pixel(&mut call, random.pick(&[1, 5]), random.below(7), 150);
        calls.push(at(&call, 3, 3));
    }
    calls
}

/// A peak whose border is as bright as it may be, or nearly: as large as the peak after it, one less before it.
pub(super) fn bright_border(random: &Random, entry: Entry) -> Call {
    let peak = random.pick(&[1, 2, 50, 4_095]);
    let dim = random.pick(&[0, 2, 10]);
    let samples: Vec<u16> = (0..49)
        .map(|k| match k {
            24 => peak,
            _ if random.chance(dim) => random.below(usize::from(peak)) as u16,
            _ if k < 24 => peak - 1,
            _ => peak,
        })
        .collect();
    at(&frame_of(entry, 7, 7, u64::from(peak), Buffer::of(&samples)), 3, 3)
}

pub fn lists(random: &Random, calls: &mut Vec<Call>) {
    calls.extend(bench_frames(Entry::List));
    calls.extend(star_everywhere(random, Entry::List).into_iter().map(|(frame, _, _)| frame));
    for _ in 0..60 {
        calls.push(leaning_star(random, Entry::List));
    }
    for _ in 0..250 {
        calls.push(small_frame(random, Entry::List));
    }
    for _ in 0..60 {
        calls.push(star_field(random, Entry::List, 30, 1));
        calls.push(star_field(random, Entry::List, 30, 4));
    }
    full_lists(calls);
    list_limits(random, calls);
    lists_with_hot_pixels(random, calls);
}

/// More stars than the list keeps: brightness decides, and row order.
fn full_lists(calls: &mut Vec<Call>) {
    // A grid of equal stars, more than the list keeps: row order decides.
    for stars in 1..=16 {
        let mut call = dark_frame(Entry::List, 24, 24, 50);
        for k in 0..stars {
            set_pixel(&mut call, 3 + 5 * (k / 4), 3 + 5 * (k % 4), 200);
            set_pixel(&mut call, 3 + 5 * (k / 4), 4 + 5 * (k % 4), 60);
        }
        calls.push(call);
    }
    // The brightest eight come last, or first, among many.
    for rising in [true, false] {
        let mut call = dark_frame(Entry::List, 64, 64, 50);
        for k in 0..64 {
            let step = if rising { k } else { 63 - k };
            set_pixel(&mut call, 4 + 7 * (k / 8), 4 + 7 * (k % 8), 100 + 10 * (step as u16));
            set_pixel(&mut call, 5 + 7 * (k / 8), 4 + 7 * (k % 8), 30);
        }
        calls.push(call);
    }
}

/// Large frames, and sides beyond the limit.
fn list_limits(random: &Random, calls: &mut Vec<Call>) {
    calls.extend(large_frames(random, Entry::List));
    // A side beyond the limit, with as many samples as it asks for.
    calls.push(dark_frame(Entry::List, 1_025, 1_024, 50));
    calls.push(dark_frame(Entry::List, 1_025, 7, 50));
    calls.push(dark_frame(Entry::List, 6, 1_024, 50));
    calls.push(dark_frame(Entry::List, 7, 6, 50));
    frame_limits(calls, &leaning_star(random, Entry::List));
    frame_reasons(random, calls, Entry::List);
}

/// Stars among hot pixels, and pixels that are nearly lone.
fn lists_with_hot_pixels(random: &Random, calls: &mut Vec<Call>) {
    // Stars among hot pixels, more of either than the list keeps.
    for hot in [1, 3, 8, 12, 40] {
        for _ in 0..6 {
            let mut call = star_field(random, Entry::List, 12, 3);
            add_hot_pixels(random, &mut call, hot);
            calls.push(call);
        }
    }
    // A grid of equal pixels, each listed only with half the threshold beside it.
    for beside in [24, 25] {
        let mut call = dark_frame(Entry::List, 24, 24, 50);
        for k in 0..16 {
            set_pixel(&mut call, 3 + 5 * (k / 4), 3 + 5 * (k % 4), 200);
            set_pixel(&mut call, 4 + 5 * (k / 4), 2 + 5 * (k % 4), beside + (k % 2) as u16);
        }
        calls.push(call);
    }
    calls.extend((0..10).map(|_| bright_border(random, Entry::List)));
}

//! Guiders started, and shown one frame after another.

use super::{damaged, vary};
use crate::call::{Buffer, Call, Entry};
use crate::generate::{
    any_call, any_guider_frame, any_guider_start, guider_frame_of, listed, refused_frame, start_of,
};
use crate::guided;
use crate::guider::{Guide, Guider, Position};
use crate::random::Random;

const FARTHEST: i64 = 261_888;

pub fn starts(random: &Random, calls: &mut Vec<Call>) {
    let guides = [[11, 5_120, 4_096], [22, 0, FARTHEST], [33, FARTHEST, 0], [0, 77, 78], [44, 1, 2]];
    for count in 0..=5 {
        for half_width in [0, 1, 2_560] {
            calls.push(start_of(half_width, &guides[..count]));
        }
    }
    let sound = start_of(640, &guides[..4]);
    let widths = [-1, 0, 1, 2_559, 2_560, 2_561, i64::MIN, i64::MAX, 1 << 32, (1 << 32) + 640, -640];
    vary(calls, &sound, &widths, |call, half_width| call.half_width = half_width);
    // Each position at its limits and beyond, and each identity: its limits, and twice.
    let parts = [-1, 0, FARTHEST, FARTHEST + 1, i64::MIN, i64::MAX, (1 << 32) + 5];
    for place in [1, 2, 4, 5, 7, 8, 10, 11] {
        vary(calls, &sound, &parts, |call, part| call.guides.set(place, part));
    }
    for place in [0, 3, 6, 9] {
        let identities = [11, 22, 33, 0, u32::MAX.into(), 1 << 32, (1 << 32) + 11, -1, i64::MAX];
        vary(calls, &sound, &identities, |call, identity| call.guides.set(place, identity));
    }
    vary(calls, &sound, &[1, 2, 3, 4, 5, 10, 11, 12, 13, 14, 15, 18], |call, len| {
        call.guides = call.guides.resized(len)
    });
    for _ in 0..60 {
        calls.push(any_call(random, Entry::GuiderStart));
    }
    damaged(random, Entry::GuiderStart, 40, 20, || any_guider_start(random), calls);
}

fn guide(identity: i64, position: Position, misses: i64) -> Guide {
    Guide { identity, position, misses }
}

pub fn frames(random: &Random, calls: &mut Vec<Call>) {
    run(calls);
    borders(calls);
    shared_stars(calls);
    counted_misses(calls);
    handed_in(calls);
    for _ in 0..250 {
        calls.push(any_call(random, Entry::GuiderFrame));
    }
    damaged(random, Entry::GuiderFrame, 60, 30, || any_guider_frame(random), calls);
}

/// Every frame of the guided run, each with the guider that the one before left.
fn run(calls: &mut Vec<Call>) {
    let run = guided::run();
    for (guider, list) in run.steps().iter().map(|step| (&step.before, &step.list)) {
        calls.push(guider_frame_of(guider, list));
    }
}

/// A star at, inside and just outside every side and corner of the box.
fn borders(calls: &mut Vec<Call>) {
    for half_width in [0, 1, 640, 2_560] {
        let guider = Guider { half_width, guides: vec![guide(7, [10_000, 20_000], 2)] };
        let steps = [-half_width - 1, -half_width, 0, half_width, half_width + 1];
        for right in steps {
            for down in steps {
                calls.push(guider_frame_of(&guider, &listed(&[[10_000 + right, 20_000 + down]])));
            }
        }
    }
}

/// One star or two in boxes that share ground, in either order of the guides, with the second live, near its end, or
/// dropped.
fn shared_stars(calls: &mut Vec<Call>) {
    let (first, second) = ([10_000, 10_000], [10_500, 10_000]);
    let stars = [[9_500, 10_000], [10_200, 10_100], [10_300, 9_900], [11_100, 10_000], [10_200, 10_100]];
    for misses in [0, 4, 5] {
        for some in 0..32_usize {
            let shown: Vec<Position> = (0..5).filter(|k| some >> k & 1 == 1).map(|k| stars[k]).collect();
            let mut guides = vec![guide(1, first, 1), guide(2, second, misses)];
            calls.push(guider_frame_of(&Guider { half_width: 640, guides: guides.clone() }, &listed(&shown)));
            guides.reverse();
            calls.push(guider_frame_of(&Guider { half_width: 640, guides }, &listed(&shown)));
        }
    }
    // The box of a guide that moves is looked at where it stood: the second star is in none but its own guide's.
    let guides = vec![guide(1, [10_000, 0], 0), guide(2, [11_500, 0], 0), guide(3, [13_000, 0], 0)];
    for half_width in [600, 749, 750, 751] {
        let stars = [[10_600, 0], [11_000, 0], [12_300, 600], [12_400, 0]];
        for shown in [&stars[..1], &stars[..2], &stars[..3], &stars[1..], &stars[..]] {
            calls.push(guider_frame_of(&Guider { half_width, guides: guides.clone() }, &listed(shown)));
        }
    }
}

/// Every count of misses, with a star in the box, without one, and with a refused frame.
fn counted_misses(calls: &mut Vec<Call>) {
    for misses in 0..=5 {
        let guider = Guider { half_width: 256, guides: vec![guide(9, [3_000, 3_000], misses)] };
        for list in [listed(&[[3_100, 2_900]]), listed(&[]), listed(&[[9_000, 9_000]]), refused_frame(5)] {
            calls.push(guider_frame_of(&guider, &list));
        }
    }
}

/// Guiders and lists handed in with each of their numbers at a limit and beyond; with a refused frame too.
fn handed_in(calls: &mut Vec<Call>) {
    let guides = [guide(11, [500, 600], 0), guide(22, [900, 600], 5), guide(33, [0, FARTHEST], 4)];
    let guider = Guider { half_width: 300, guides: guides.to_vec() };
    for list in [listed(&[[520, 610], [1_000, 600]]), refused_frame(0)] {
        let sound = guider_frame_of(&guider, &list);
        let beyond: [(usize, &[i64]); 8] = [
            (0, &[-1, 0, 2_560, 2_561, i64::MAX, i64::MIN]),
            (1, &[-1, 5, 4_294_967_296 + 3, i64::MAX, i64::MIN]),
            (2, &[22, 33, 0, u32::MAX as i64, 1 << 32, -1]),
            (6, &[11, 33]),
            (3, &[-1, 0, FARTHEST, FARTHEST + 1, i64::MIN, i64::MAX]),
            (8, &[-1, FARTHEST + 1]),
            (5, &[-1, 4, 5, 6, 255, i64::MAX, i64::MIN]),
            (9, &[-1, 6]),
        ];
        for (place, values) in beyond {
            vary(calls, &sound, values, |call, value| call.guider.set(place, value));
        }
        vary(calls, &sound, &[-1, 0, 1, 9, 20, i64::MIN, i64::MAX], |call, count| call.list.set(2, count));
        for place in [6, 7, 9, 10] {
            let parts = [-1, 0, FARTHEST, FARTHEST + 1, i64::MIN, i64::MAX];
            vary(calls, &sound, &parts, |call, part| call.list.set(place, part));
        }
        // What the guider does not look at: brightness, the counts, the stars beyond the list's end.
        vary(calls, &sound, &[1, 3, 4, 5, 8, 12, 30, 63], |call, place| call.list.set(place, -1));
        vary(calls, &sound, &[1, 2, 3, 4], |call, number| call.list.set(0, number));
    }
    // As many stars as there may be, and more.
    let stars: Vec<Position> = (0..12).map(|k| [40_000 + k, 3]).collect();
    for count in [7, 8, 9, 12] {
        let mut call = guider_frame_of(&guider, &listed(&[]));
        let mut list = call.list.values();
        list[2] = count as i64;
        for (k, [x, y]) in stars[..count].iter().enumerate() {
            list[6 + 3 * k..9 + 3 * k].copy_from_slice(&[*x, *y, 9]);
        }
        call.list = Buffer::sparse(&list);
        calls.push(call);
    }
}

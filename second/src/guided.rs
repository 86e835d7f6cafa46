//! A guided run: four guides follow drifting stars over some tens of frames, through the frames' lists.
//!
//! Guide 101 follows its star throughout, over a short cloud and through the box of one that is dropped. The star of 202
//! is lost behind a cloud; the guide is dropped at the fifth miss and stays so when the star comes back. The stars of
//! 303 and 404 cross each other's boxes; both guides wait, and each finds its own again. One frame is refused, and is
//! no miss. A star, a hot pixel and a star at the edge that no guide cares for are there too.

use crate::answer::{numbers, Numbers};
use crate::call::{write_word, Buffer, Call, Entry};
use crate::frame;
use crate::generate::{dark_frame, draw_star, set_pixel};
use crate::guider::{guider_frame, Guider, GUIDER_NUMBERS};

const WIDTH: usize = 96;
const HEIGHT: usize = 72;
const THRESHOLD: u64 = 60;
/// Four pixels.
const HALF_WIDTH: i64 = 1_024;
const FRAMES: i64 = 36;
const REFUSED: i64 = 30;

pub struct Run {
    /// Identity, x and y of each guide.
    guides: Vec<[i64; 3]>,
    frames: Vec<Call>,
}

/// One frame of the run.
pub struct Step {
    pub before: Guider,
    /// The numbers of the frame's list.
    pub list: Numbers,
    pub after: Guider,
}

/// A star that moves evenly, in 1/256 pixel a frame, and is not seen in some frames.
struct Track {
    from: [i64; 2],
    step: [i64; 2],
    peak: i64,
    hidden: fn(i64) -> bool,
}

impl Track {
    fn at(&self, frame: i64) -> [i64; 2] {
        [0, 1].map(|axis| self.from[axis] + frame * self.step[axis])
    }
}

const TRACKS: [(i64, Track); 4] = [
    (101, Track { from: [5_120, 4_608], step: [115, 77], peak: 900, hidden: |k| k == 20 || k == 21 }),
    (
        202,
        Track { from: [8_832, 6_144], step: [0, 51], peak: 700, hidden: |k| (8..16).contains(&k) || k >= 20 },
    ),
    (303, Track { from: [10_240, 12_800], step: [51, -64], peak: 800, hidden: |_| false }),
    (404, Track { from: [12_813, 11_648], step: [-51, 64], peak: 600, hidden: |_| false }),
];

pub fn run() -> Run {
    let guides = TRACKS.iter().map(|(identity, track)| [*identity, track.from[0], track.from[1]]).collect();
    Run { guides, frames: (0..FRAMES).map(frame_of_run).collect() }
}

fn frame_of_run(k: i64) -> Call {
    let mut call = dark_frame(Entry::List, WIDTH, HEIGHT, THRESHOLD);
    for (_, track) in TRACKS.iter().filter(|(_, track)| !(track.hidden)(k)) {
        let [x, y] = track.at(k);
        draw_star(&mut call, x, y, track.peak);
    }
    draw_star(&mut call, 20_480, 15_360 - 13 * k, 1_000);
    draw_star(&mut call, 256, 9_000, 500);
    set_pixel(&mut call, 60, 10, 3_000);
    if k == REFUSED {
        set_pixel(&mut call, 71, 95, 4_096);
    }
    call
}

impl Run {
    /// The guider before and after each frame.
    pub fn steps(&self) -> Vec<Step> {
        let mut guider =
            Guider::start(HALF_WIDTH, self.guides.as_flattened()).expect("the guides keep their rules");
        let step = |call: &Call| {
            let set = call.settings();
            let list = numbers(&frame::list(&call.samples.values(), set.width, set.height, set.threshold));
            let before = guider.clone();
            let mut kept = [0; GUIDER_NUMBERS];
            guider.write(&mut kept);
            guider_frame(&mut kept, &list).expect("a frame's list keeps its rules");
            guider = Guider::read(&kept).expect("a guider stays one");
            Step { before, list, after: guider.clone() }
        };
        self.frames.iter().map(step).collect()
    }

    /// The run's file: width, height, threshold, half-width and the number of frames as words, the guides' numbers as
    /// a buffer, then each frame's samples as a buffer.
    pub fn input(&self) -> Vec<u8> {
        let mut bytes = Vec::new();
        for word in [WIDTH as u64, HEIGHT as u64, THRESHOLD, HALF_WIDTH as u64, FRAMES as u64] {
            write_word(&mut bytes, word);
        }
        Buffer::of(self.guides.as_flattened()).write(&mut bytes);
        for call in &self.frames {
            call.samples.write(&mut bytes);
        }
        bytes
    }

    /// A line for each frame: its number, the refusal's or 0, then identity, x, y and misses of each guide.
    pub fn output(&self) -> String {
        let mut text = String::new();
        for (k, step) in self.steps().iter().enumerate() {
            text += &format!("{k} {}", step.list[0]);
            for guide in &step.after.guides {
                let [x, y] = guide.position;
                text += &format!(" {} {x} {y} {}", guide.identity, guide.misses);
            }
            text.push('\n');
        }
        text
    }
}

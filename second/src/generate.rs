//! Makes calls: plausible ones of every kind, and damage that gives each refusal in each way.

use crate::call::{Buffer, Call, Entry};
use crate::catalogue::RECORD_BYTES;
use crate::damage::damage;
use crate::lens::Plate;
use crate::random::Random;
use crate::sky::{self, Turn};
use crate::{burst, catalogue, direction, dot, frame, index, ranking};

mod compare;
mod cut;
mod gimbal;
mod guider;
mod lens;

pub use compare::*;
pub use cut::*;
pub use gimbal::*;
pub use guider::*;
pub use lens::*;

pub const MOST_TOLERANCE: u64 = 10_000_000_000_000_000;

/// Numbers far out of any range; many would fall back into it if their high bits were lost.
pub const HUGE: [u64; 7] =
    [65_536 + 50, (1 << 32) + 7, 1 << 63, (1 << 63) - 1, u64::MAX, u64::MAX - 6, (1 << 63) + 50];

// Frames.

/// A call that looks at a frame all of whose samples are 0.
pub fn dark_frame(entry: Entry, width: usize, height: usize, threshold: u64) -> Call {
    frame_of(entry, width, height, threshold, Buffer::repeat(width * height, &[0]))
}

pub fn frame_of(entry: Entry, width: usize, height: usize, threshold: u64, samples: Buffer<u16>) -> Call {
    let mut call = Call::new(entry);
    call.samples = samples;
    call.width = width as u64;
    call.height = height as u64;
    call.threshold = threshold;
    call
}

pub fn set_pixel(call: &mut Call, row: usize, column: usize, sample: u16) {
    let index = row * call.width as usize + column;
    call.samples.set(index, sample);
}

/// A small frame with samples of one of several kinds: few values (ties), the full range, gentle noise.
pub fn small_frame(random: &Random, entry: Entry) -> Call {
    let (width, height) = (7 + random.below(14), 7 + random.below(14));
    let samples: Vec<u16> = match random.below(5) {
        0 => made(width * height, || random.pick(&[0, 0, 0, 50, 100])),
        1 => made(width * height, || random.below(4_096) as u16),
        2 => made(width * height, || random.pick(&[4_094, 4_095, 4_095])),
        3 => made(width * height, || 40 + random.below(12) as u16),
        _ => made(width * height, || if random.chance(8) { random.below(4_096) as u16 } else { 0 }),
    };
    let threshold = random.pick(&[1, 2, 50, 51, 100, 2_000, 4_094, 4_095]);
    let mut call = frame_of(entry, width, height, threshold, Buffer::of(&samples));
    call.row = random.below(height) as u64;
    call.column = random.below(width) as u64;
    call
}

fn made(len: usize, mut element: impl FnMut() -> u16) -> Vec<u16> {
    (0..len).map(|_| element()).collect()
}

/// Draws a star whose middle lies at x, y (in 1/256 pixel). Its light falls off evenly over a pixel and a half on
/// every side, so that some always reaches a neighbour; the faintest is left out.
pub fn draw_star(call: &mut Call, x: i64, y: i64, peak: i64) {
    let (column, lean_x) = nearest_pixel(x);
    let (row, lean_y) = nearest_pixel(y);
    let share = |lean: i64, step: i64| (384 - (256 * step - lean).abs()).max(0);
    for down in -1..=1 {
        for right in -1..=1 {
            let (r, c) = (row + down, column + right);
            let light = peak * share(lean_x, right) * share(lean_y, down) / (384 * 384);
            let inside = r >= 0 && c >= 0 && r < call.height as i64 && c < call.width as i64;
            if inside && light > peak / 8 {
                set_pixel(call, r as usize, c as usize, light as u16);
            }
        }
    }
}

/// Lights single pixels, as a camera does after an hour in the cold.
pub fn add_hot_pixels(random: &Random, call: &mut Call, count: usize) {
    for _ in 0..count {
        let (row, column) = (random.below(call.height as usize), random.below(call.width as usize));
        set_pixel(call, row, column, random.pick(&[70, 1_000, 4_095]));
    }
}

/// The pixel a position is nearest to, and how far it leans from it.
fn nearest_pixel(position: i64) -> (i64, i64) {
    let pixel = (position + 128).div_euclid(256);
    (pixel, position - 256 * pixel)
}

// Directions, catalogues, rankings.

pub fn flat<const N: usize, T: Copy>(vectors: &[[T; N]]) -> Vec<T> {
    vectors.iter().flatten().copied().collect()
}

pub fn random_stars(random: &Random, count: usize) -> Vec<[i32; 3]> {
    (0..count).map(|_| sky::anywhere(random)).collect()
}

pub fn simple_stars(random: &Random, count: usize) -> Vec<[i32; 3]> {
    (0..count).map(|_| sky::simple(random)).collect()
}

/// Rows that are all the record numbers in a row, each shuffled on its own.
pub fn shuffled_ranking(random: &Random, directions: usize, stars: usize) -> Vec<u16> {
    let mut ranking = rising_ranking(directions, stars);
    for row in ranking.chunks_mut(stars) {
        random.shuffle(row);
    }
    ranking
}

pub fn rising_ranking(directions: usize, stars: usize) -> Vec<u16> {
    (0..directions).flat_map(|_| 0..stars as u16).collect()
}

/// The ranking our vote gives for these directions and stars.
pub fn voted_ranking(directions: &[[i32; 3]], catalogue: &[u8], tolerance: u64) -> Vec<u16> {
    let mut room = vec![0; directions.len() * (catalogue.len() / RECORD_BYTES)];
    ranking::ranking(&flat(directions), catalogue, tolerance.into(), &mut room)
        .expect("directions and catalogue keep their rules");
    room
}

/// Directions of some stars of a sky seen by a turned camera, with the record number of each (none for a
/// false direction).
pub struct View {
    pub stars: Vec<[i32; 3]>,
    pub directions: Vec<[i32; 3]>,
    pub truth: Vec<Option<usize>>,
}

impl View {
    pub fn of(random: &Random, stars: Vec<[i32; 3]>, directions: usize, false_directions: usize) -> View {
        let turn = Turn::random(random);
        let mut records: Vec<usize> = (0..stars.len()).collect();
        random.shuffle(&mut records);
        let mut truth: Vec<Option<usize>> = records.into_iter().map(Some).take(directions).collect();
        truth.extend(vec![None; false_directions]);
        random.shuffle(&mut truth);
        let directions = truth
            .iter()
            .map(|record| match record {
                Some(record) => turn.to_camera(stars[*record]),
                None => sky::anywhere(random),
            })
            .collect();
        View { stars, directions, truth }
    }

    /// The same view in a mirror: every pair agrees as before, every three turns the other way.
    pub fn mirrored(mut self) -> View {
        self.directions.iter_mut().for_each(|direction| *direction = sky::mirror(*direction));
        self
    }

    /// The least tolerance for which all true pairs agree.
    pub fn least_tolerance(&self) -> u64 {
        let wide = |v: [i32; 3]| v.map(i128::from);
        let mut least = 0;
        for i in 0..self.directions.len() {
            for j in 0..i {
                if let (Some(a), Some(b)) = (self.truth[i], self.truth[j]) {
                    let seen = dot(&wide(self.directions[i]), &wide(self.directions[j]));
                    let known = dot(&wide(self.stars[a]), &wide(self.stars[b]));
                    least = least.max((seen - known).unsigned_abs() as u64);
                }
            }
        }
        least
    }

    /// A search call; the tolerance lets the true match pass.
    pub fn search(&self, random: &Random, needed: u64) -> Call {
        let mut call = Call::new(Entry::Search);
        call.directions = Buffer::of(&flat(&self.directions));
        call.catalogue = Buffer::of(&sky::catalogue(random, &self.stars));
        call.needed = needed;
        call.tolerance = (self.least_tolerance() + random.pick(&[0, 1, 1_000_000_000, 100_000_000_000]))
            .min(MOST_TOLERANCE);
        call
    }

    /// Each row ends with its true star; a false direction's row is shuffled.
    pub fn ranking_with_truth_last(&self, random: &Random) -> Vec<u16> {
        let mut ranking = shuffled_ranking(random, self.directions.len(), self.stars.len());
        for (row, star) in ranking.chunks_mut(self.stars.len()).zip(&self.truth) {
            if let Some(star) = star {
                row.sort_by_key(|&record| usize::from(record) == *star);
            }
        }
        ranking
    }
}

/// The catalogue of the same stars seen in a mirror.
pub fn mirrored_catalogue(catalogue: &Buffer<u8>) -> Buffer<u8> {
    let mut bytes = catalogue.values();
    for record in bytes.chunks_exact_mut(RECORD_BYTES) {
        let x = i32::from_be_bytes([record[4], record[5], record[6], record[7]]);
        record[4..8].copy_from_slice(&x.wrapping_neg().to_be_bytes());
    }
    Buffer::of(&bytes)
}

// The index.

/// The whole index of a catalogue; empty where the catalogue breaks its rules.
pub fn index_bytes(catalogue: &[u8], floor: i64) -> Vec<u8> {
    let records = catalogue.len() / RECORD_BYTES;
    let mut room = vec![0; index::RECORD_BYTES * (records * records.saturating_sub(1) / 2)];
    let count = index::index(catalogue, floor.into(), &mut room).unwrap_or(0);
    room.truncate(index::RECORD_BYTES * count);
    room
}

/// Lends the call the right index for its catalogue and this floor.
pub fn lend_index(call: &mut Call, floor: i64) {
    call.floor = floor;
    call.index = Buffer::of(&index_bytes(&call.catalogue.values(), floor));
}

/// A floor below, above or among the dot products of a catalogue, often exactly one of them.
pub fn any_floor(random: &Random, catalogue: &[u8]) -> i64 {
    let stars = catalogue::read(catalogue).expect("the catalogue keeps its rules");
    let one_of_them = || {
        let [a, b] = [0; 2].map(|_| stars[random.below(stars.len())].direction);
        dot(&a, &b) as i64
    };
    match random.below(8) {
        0 => random.pick(&[i64::MIN, i64::MIN + 1, -2_000_000_000_000_000_000]),
        1 => random.pick(&[i64::MAX, 2_000_000_000_000_000_000, 1_000_000_000_000_000_001]),
        2 => random.pick(&[0, 1, -1]),
        3 => random.between(-1_000_000_000_000_000_000, 1_000_000_000_000_000_000),
        4 => one_of_them() + 1,
        _ => one_of_them(),
    }
}

/// A call for the index of these stars, with some room to spare.
pub fn index_call(random: &Random, stars: &[[i32; 3]]) -> Call {
    let mut call = Call::new(Entry::Index);
    let bytes = sky::catalogue(random, stars);
    call.floor = any_floor(random, &bytes);
    let spare = random.pick(&[0, 0, 1, 11, 12, 100]);
    call.bytes = Buffer::repeat(index_bytes(&bytes, call.floor).len() + spare, &[0xA5, 7, 255]);
    call.catalogue = Buffer::of(&bytes);
    call
}

/// The ranking or chain call, sound and asked for by an index. For a ranking the floor often lies exactly where a
/// pair of directions passes from the catalogue to the index.
pub fn by_index(random: &Random, mut call: Call) -> Call {
    call.entry = match call.entry {
        Entry::Ranking => Entry::RankingByIndex,
        _ => Entry::ChainByIndex,
    };
    let numbers = call.directions.values();
    let floor = if numbers.len() >= 6 && random.chance(50) {
        let wide: Vec<[i128; 3]> =
            numbers.chunks(3).map(|v| [v[0].into(), v[1].into(), v[2].into()]).collect();
        let (i, j) = (random.below(wide.len()), random.below(wide.len()));
        let passes = dot(&wide[i], &wide[j]) - i128::from(call.tolerance);
        (passes as i64) + random.between(-1, 1)
    } else {
        any_floor(random, &call.catalogue.values())
    };
    lend_index(&mut call, floor);
    call
}

// The chain.

/// What a scene for the whole chain should have.
pub struct Scene {
    pub width: usize,
    pub height: usize,
    /// Stars of the catalogue that are drawn.
    pub visible: usize,
    /// Stars drawn that the catalogue does not know.
    pub unknown: usize,
    /// Records of the catalogue, drawn or not.
    pub records: usize,
    pub equal_brightness: bool,
    pub background: bool,
}

impl Scene {
    /// A frame of a made-up sky seen by a turned camera, with the sky's catalogue. Fewer stars are drawn
    /// where the frame has no place for more.
    pub fn call(&self, random: &Random) -> Call {
        let mut call = dark_frame(Entry::Chain, self.width, self.height, 60);
        if self.background {
            let noise = made(random.pick(&[13, 31, 61]), || random.below(20) as u16);
            call.samples = Buffer::repeat(self.width * self.height, &noise);
        }
        let middle = |side: usize| 128 * side as i64;
        call.cx = middle(self.width) + random.between(-300, 300);
        call.cy = middle(self.height) + random.between(-300, 300);
        let focal = random.pick(&[16_384, random.between(16_384, 50_000), random.between(50_000, 400_000)]);
        call.lens = plate_of(random, focal);
        call.room = chain_room(random);

        let turn = Turn::random(random);
        let spots = self.spots(random);
        let visible = self.visible.min(spots.len());
        let mut stars: Vec<[i32; 3]> = spots[..visible]
            .iter()
            .map(|&(x, y)| turn.to_sky([x - call.cx, y - call.cy, focal].map(i128::from)))
            .collect();
        while stars.len() < self.records.max(1) {
            stars.push(sky::anywhere(random));
        }
        let mut records: Vec<usize> = (0..stars.len()).collect();
        random.shuffle(&mut records);
        let in_order: Vec<[i32; 3]> = records.iter().map(|&k| stars[k]).collect();
        call.catalogue = Buffer::of(&sky::catalogue(random, &in_order));

        let equal_peak = random.between(500, 4_000);
        for (k, &(x, y)) in spots.iter().enumerate() {
            let peak = if self.equal_brightness { equal_peak } else { random.between(500, 4_000) };
            let spot = match k < visible {
                true => project(&call, turn.to_camera(stars[k])),
                false => (x, y),
            };
            draw_star(&mut call, spot.0, spot.1, peak);
        }
        call.needed = 3 + random.below(visible.clamp(3, 8) - 2) as u64;
        call.tolerance = scene_tolerance(random, &call, &spots[..visible], &stars);
        call
    }

    /// Places for stars, far enough from each other and just clear of the edge.
    fn spots(&self, random: &Random) -> Vec<(i64, i64)> {
        let mut spots: Vec<(i64, i64)> = Vec::new();
        for _ in 0..300 {
            if spots.len() == self.visible + self.unknown {
                break;
            }
            let x = random.between(3 * 256, 256 * (self.width as i64 - 4));
            let y = random.between(3 * 256, 256 * (self.height as i64 - 4));
            let far = |spot: &(i64, i64)| (spot.0 - x).abs().max((spot.1 - y).abs()) >= 7 * 256;
            if spots.iter().all(far) {
                spots.push((x, y));
            }
        }
        spots
    }
}

fn chain_room(random: &Random) -> Buffer<u16> {
    let len = random.pick(&[4_096, 4_096, 4_097, 4_200]);
    Buffer::repeat(len, &[random.below(65_536) as u16, 7, 65_535])
}

/// Where a direction of the camera falls on the frame.
fn project(call: &Call, direction: [i32; 3]) -> (i64, i64) {
    let [x, y, z] = direction.map(i64::from);
    let focal = call.lens.focal().expect("the lens keeps its rule") as i64;
    (call.cx + focal * x / z, call.cy + focal * y / z)
}

/// A tolerance that lets the true match pass, most often with room to spare.
fn scene_tolerance(random: &Random, call: &Call, spots: &[(i64, i64)], stars: &[[i32; 3]]) -> u64 {
    let set = call.settings();
    let list = frame::list(&call.samples.values(), set.width, set.height, set.threshold)
        .expect("the frame keeps its rules");
    let mut view = View { stars: stars.to_vec(), directions: Vec::new(), truth: Vec::new() };
    for star in &list.stars {
        let near = |spot: &(i64, i64)| (spot.0 - star.x).abs().max((spot.1 - star.y).abs()) < 512;
        let seen = direction::direction(set.cx, set.cy, set.lens, star.x.into(), star.y.into())
            .expect("the settings keep their rules");
        view.directions.push(seen.map(|component| component as i32));
        view.truth.push(spots.iter().position(near));
    }
    let least = view.least_tolerance();
    let tolerance = match random.below(10) {
        0 => least,
        1 => least.saturating_sub(1),
        2 => least + least / 2 + 1,
        _ => least + least / 16 + 1,
    };
    tolerance.min(MOST_TOLERANCE)
}

// The burst.

/// A burst over the sky of a chain call: its frame, unchanged and changed in several ways, over and over.
pub fn burst_of(random: &Random, first: &Call, frames: usize) -> Call {
    let mut call = first.clone();
    call.entry = Entry::Burst;
    let size = first.samples.len;
    call.samples = Buffer::repeat(size * frames, &first.samples.pattern);
    for k in 0..frames {
        for (index, sample) in burst_frame(random, first) {
            call.samples.set(size * k + index, sample);
        }
    }
    let spare = random.pick(&[0, 0, 1, 79, 80]);
    call.bytes = Buffer::repeat(burst::RECORD_BYTES * frames + spare, &[0x5A, 3, 255]);
    call
}

/// The lit pixels of one frame of a burst.
fn burst_frame(random: &Random, first: &Call) -> Vec<(usize, u16)> {
    let size = first.samples.len;
    let mut patches = first.samples.patches.clone();
    match random.below(8) {
        // Nothing but the ground: too few directions.
        0 => patches.clear(),
        // A sample too large.
        1 => patches.push((random.below(size), random.pick(&[4_096, 65_535]))),
        // Fewer stars; or the frame turned half round, another attitude if the tolerance lets it pass; or a hot
        // pixel.
        2 => patches.truncate(patches.len() / 2),
        3 => patches.iter_mut().for_each(|patch| patch.0 = size - 1 - patch.0),
        4 => patches.push((random.below(size), 4_095)),
        _ => {}
    }
    patches
}

// Attitude.

pub fn attitude_of(vectors: [[i64; 3]; 4]) -> Call {
    let mut call = Call::new(Entry::Attitude);
    call.vectors = Buffer::of(&flat(&vectors));
    call
}

/// A vector with components of some number of bits, or on the sphere.
pub fn any_vector(random: &Random) -> [i64; 3] {
    if random.chance(40) {
        return sky::anywhere(random).map(i64::from);
    }
    let reach = (1_i64 << random.between(10, 30)).min(1_000_000_000);
    [0; 3].map(|_| match random.below(6) {
        0 => random.pick(&[0, reach, -reach]),
        _ => random.between(-reach, reach),
    })
}

// Any call.

/// A call of this kind, most often a sound one; about a third are damaged, some of them more than once.
pub fn any_call(random: &Random, entry: Entry) -> Call {
    let mut call = match entry {
        Entry::Verdict | Entry::List | Entry::Reason => any_frame(random, entry),
        Entry::Direction => any_direction(random),
        Entry::Catalogue => any_catalogue(random),
        Entry::Ranking => any_ranking(random),
        Entry::Search => any_search(random),
        Entry::Rival => any_rival(random),
        Entry::Attitude => any_attitude(random),
        Entry::Chain => any_chain(random),
        Entry::Index => {
            let most = if random.below(200) == 0 { 512 } else { random.pick(&[1, 3, 12, 40]) };
            index_call(random, &any_stars(random, most))
        }
        Entry::RankingByIndex => by_index(random, any_ranking(random)),
        Entry::ChainByIndex => by_index(random, any_chain(random)),
        Entry::Burst => {
            let frames = if random.below(50) == 0 { 64 } else { random.below(6) };
            let first = any_chain(random);
            burst_of(random, &first, frames)
        }
        Entry::Cosines => any_cosines(random),
        Entry::Turned => any_turned(random),
        Entry::Lens => any_lens(random),
        Entry::Compare => any_compare(random),
        Entry::Cut => any_cut(random),
        Entry::GuiderStart => any_guider_start(random),
        Entry::GuiderFrame => any_guider_frame(random),
    };
    if random.chance(35) && !entry.faults().is_empty() {
        for _ in 0..random.pick(&[1, 1, 1, 2, 3]) {
            let reason = random.pick(entry.faults());
            damage(&mut call, reason, random);
        }
    }
    call
}

fn any_frame(random: &Random, entry: Entry) -> Call {
    if random.below(500) == 0 {
        let noise = made(1_021, || random.below(100) as u16);
        let (width, height) = random.pick(&[(1_024, 1_024), (1_024, 500), (333, 1_024)]);
        return frame_of(entry, width, height, 60, Buffer::repeat(width * height, &noise));
    }
    if random.chance(90) {
        return small_frame(random, entry);
    }
    let mut call = star_field(random, entry, 20, 3);
    call.row = random.below(call.height as usize) as u64;
    call.column = random.below(call.width as usize) as u64;
    call
}

/// A frame of a middle size with stars anywhere, at the sides too.
pub fn star_field(random: &Random, entry: Entry, most_stars: usize, brightnesses: usize) -> Call {
    let (width, height) = random.pick(&[(160, 120), (64, 48), (200, 160), (31, 90), (1_024, 7), (7, 1_024)]);
    let mut call = dark_frame(entry, width, height, 50);
    if random.chance(50) {
        let noise = made(random.pick(&[7, 29, 53]), || random.below(30) as u16);
        call.samples = Buffer::repeat(width * height, &noise);
    }
    for _ in 0..1 + random.below(most_stars) {
        let x = random.between(0, 256 * (width as i64 - 1));
        let y = random.between(0, 256 * (height as i64 - 1));
        draw_star(&mut call, x, y, 4_095 - 300 * random.below(brightnesses) as i64);
    }
    add_hot_pixels(random, &mut call, random.pick(&[0, 0, 2, 10]));
    call
}

pub fn any_direction(random: &Random) -> Call {
    let mut call = Call::new(Entry::Direction);
    let place = |random: &Random| match random.below(8) {
        0 => random.pick(&[0, 1, 261_887, 261_888]),
        _ => random.between(0, 261_888),
    };
    call.cx = place(random);
    call.cy = place(random);
    call.x = place(random);
    call.y = place(random);
    call.lens = plate_of(random, any_focal(random));
    call
}

fn any_stars(random: &Random, most: usize) -> Vec<[i32; 3]> {
    let count = 1 + random.below(most);
    match random.below(3) {
        0 => simple_stars(random, count),
        1 => {
            // A crowded patch of sky.
            let middle = sky::anywhere(random);
            let closeness = random.pick(&[5, 100, 1_000_000, 1_000_000_000]);
            (0..count).map(|_| sky::near(random, middle, closeness)).collect()
        }
        _ => random_stars(random, count),
    }
}

fn any_catalogue(random: &Random) -> Call {
    let mut call = Call::new(Entry::Catalogue);
    let most = random.pick(&[3, 20, 100]);
    let stars = any_stars(random, most);
    call.catalogue = Buffer::of(&sky::catalogue(random, &stars));
    call
}

fn any_tolerance(random: &Random) -> u64 {
    match random.below(6) {
        0 => 0,
        1 => MOST_TOLERANCE,
        2 => random.below(10_000_000_000) as u64,
        _ => random.next() % (1 << random.between(1, 53)),
    }
}

fn any_ranking(random: &Random) -> Call {
    let mut call = Call::new(Entry::Ranking);
    let most = if random.below(100) == 0 { 512 } else { 30 };
    let stars = any_stars(random, most);
    let mut directions: Vec<[i32; 3]> = (0..random.below(9))
        .map(|_| match random.below(4) {
            0 => any_vector(random).map(|component| component as i32),
            1 => sky::simple(random),
            _ => random.pick(&stars),
        })
        .collect();
    if random.chance(50) {
        let turn = Turn::random(random);
        directions.iter_mut().for_each(|v| *v = turn.to_camera(*v));
    }
    call.directions = Buffer::of(&flat(&directions));
    call.catalogue = Buffer::of(&sky::catalogue(random, &stars));
    call.tolerance = any_tolerance(random);
    let words = directions.len() * stars.len() + random.pick(&[0, 0, 1, 5, 200]);
    call.room = Buffer::repeat(words, &[60_000, 7, 1]);
    call
}

fn any_search(random: &Random) -> Call {
    let most = random.pick(&[5, 12, 25]);
    let mut stars = any_stars(random, most);
    while stars.len() < 3 {
        stars.push(sky::anywhere(random));
    }
    let known = 3 + random.below(stars.len().min(8) - 2);
    let unknown = random.below(8 - known + 1).min(2);
    let mut view = View::of(random, stars, known, unknown);
    if random.chance(20) {
        view = view.mirrored();
    }
    let needed = 3 + random.below(known - 2) as u64;
    let mut call = view.search(random, needed);
    if random.chance(20) {
        call.tolerance = any_tolerance(random);
    }
    let catalogue = call.catalogue.values();
    let (directions, stars) = (view.directions.len(), view.stars.len());
    call.ranking = Buffer::of(&match random.below(4) {
        0 => rising_ranking(directions, stars),
        1 => view.ranking_with_truth_last(random),
        2 => shuffled_ranking(random, directions, stars),
        _ => voted_ranking(&view.directions, &catalogue, call.tolerance),
    });
    call
}

/// A search whose answer has a rival as often as not: many stars have a second one in their place or close by, or
/// agree with each other in many ways.
pub fn any_rival(random: &Random) -> Call {
    let mut call = any_search(random);
    if random.chance(50) {
        add_doubles(random, &mut call);
    }
    Call { entry: Entry::Rival, ..call }
}

/// Puts stars in the place of others, or close by, behind the catalogue, each somewhere in every row.
pub fn add_doubles(random: &Random, call: &mut Call) {
    let mut bytes = call.catalogue.values();
    let stars = catalogue::read(&bytes).expect("the catalogue keeps its rules");
    let mut rows: Vec<Vec<u16>> = call.ranking.values().chunks(stars.len()).map(<[u16]>::to_vec).collect();
    let mut identity = stars[stars.len() - 1].identity;
    for double in 0..1 + random.below(3) {
        let place = random.pick(&stars).direction.map(|component| component as i32);
        let star = if random.chance(50) { place } else { sky::near(random, place, 1_000_000_000) };
        identity += 1;
        bytes.extend(sky::record_of(identity, star, sky::any_magnitude(random)));
        for row in &mut rows {
            row.insert(random.below(row.len() + 1), (stars.len() + double) as u16);
        }
    }
    call.catalogue = Buffer::of(&bytes);
    call.ranking = Buffer::of(&rows.concat());
}

pub fn any_attitude(random: &Random) -> Call {
    let pair = || {
        let first = any_vector(random);
        let second = match random.below(16) {
            0 => first,
            1 => first.map(|component| -component),
            2 => first
                .map(|component| (component + random.between(-3, 3)).clamp(-1_000_000_000, 1_000_000_000)),
            _ => any_vector(random),
        };
        [first, second]
    };
    let (camera, sky) = (pair(), pair());
    attitude_of([camera[0], camera[1], sky[0], sky[1]])
}

fn any_chain(random: &Random) -> Call {
    let (width, height) = random.pick(&[(160, 120), (64, 64), (80, 60), (24, 40), (200, 160)]);
    let scene = Scene {
        width,
        height,
        visible: 2 + random.below(7),
        unknown: random.pick(&[0, 0, 0, 1, 2]),
        records: if random.below(100) == 0 { 512 } else { random.pick(&[3, 8, 20, 40]) },
        equal_brightness: random.chance(25),
        background: random.chance(40),
    };
    let mut call = scene.call(random);
    add_hot_pixels(random, &mut call, random.pick(&[0, 0, 0, 1, 3]));
    match random.below(10) {
        // Another sky: most often nothing fits.
        0 => {
            let stars = random_stars(random, scene.records);
            call.catalogue = Buffer::of(&sky::catalogue(random, &stars));
        }
        // A narrow view of a sky where everything agrees and some stars stand in one place.
        1 => {
            let patch = sky::anywhere(random);
            let places = [patch, sky::near(random, patch, 1_000), sky::near(random, patch, 1_000_000_000)];
            let stars: Vec<[i32; 3]> = (0..3 + random.below(6)).map(|_| random.pick(&places)).collect();
            call.catalogue = Buffer::of(&sky::catalogue(random, &stars));
            call.lens = Plate::of_focal(random.pick(&[4_194_304, 1_000_000]));
            call.tolerance = MOST_TOLERANCE;
        }
        // The sky in a mirror.
        2 => call.catalogue = mirrored_catalogue(&call.catalogue),
        _ => {}
    }
    call
}

//! The calls of include/mnemathor.h, compiled from C (see build.rs), with its structs laid out once more here. Their
//! fields are put back among the 64 numbers by name, so that one that the header took from elsewhere is seen.

use crate::answer::Numbers;
use crate::call::{Call, Entry, Lent};
use crate::float::Float;
use std::ptr::null_mut;

#[repr(C)]
#[derive(Clone, Copy)]
struct Refusal {
    number: i64,
    place: i64,
}

#[repr(C)]
struct Lens {
    kind: u32,
    focal_length: f64,
    pitch: f64,
}

#[repr(C)]
struct Settings {
    width: usize,
    height: usize,
    threshold: usize,
    needed: usize,
    cx: i64,
    cy: i64,
    lens: Lens,
    tolerance: u64,
}

#[repr(C)]
#[derive(Default, Clone, Copy)]
struct Centroid {
    x: i64,
    y: i64,
    brightness: i64,
}

#[repr(C)]
#[derive(Default)]
struct Verdict {
    row: i64,
    column: i64,
    kind: i64,
    centroid: Centroid,
}

#[repr(C)]
#[derive(Default)]
struct Reason {
    kind: i64,
    sample: i64,
    threshold: i64,
    row: i64,
    column: i64,
    side: i64,
    largest: i64,
    centroid: Centroid,
}

#[repr(C)]
#[derive(Default)]
struct Report {
    count: i64,
    measured: i64,
    edge: i64,
    lone: i64,
    stars: [Centroid; 8],
}

#[repr(C)]
#[derive(Default, Clone, Copy)]
struct Direction {
    x: i32,
    y: i32,
    z: i32,
}

#[repr(C)]
#[derive(Default)]
struct Assignment {
    count: i64,
    stars: [i64; 8],
}

#[repr(C)]
#[derive(Default)]
struct Rival {
    exists: i64,
    stars: [i64; 8],
}

#[repr(C)]
#[derive(Default)]
struct Matrix {
    entries: [[i64; 3]; 3],
}

#[repr(C)]
#[derive(Default)]
struct Tracked {
    report: Report,
    assignment: Assignment,
    matrix: Matrix,
}

#[repr(C)]
#[derive(Default)]
struct Cosines {
    entries: [[f64; 3]; 3],
}

#[repr(C)]
#[derive(Default, Clone, Copy)]
struct Guide {
    identity: i64,
    x: i64,
    y: i64,
    misses: i64,
}

#[repr(C)]
#[derive(Default)]
struct Guider {
    half_width: i64,
    count: i64,
    guides: [Guide; 4],
}

#[repr(C)]
#[derive(Default)]
struct Star {
    identity: u32,
    direction: Direction,
    magnitude: i32,
}

#[repr(C)]
#[derive(Default)]
struct Pair {
    dot: i64,
    first: u32,
    second: u32,
}

#[repr(C)]
#[derive(Default)]
struct Change {
    identity: u32,
    kind: u32,
}

#[repr(C)]
struct Framed {
    refusal: Refusal,
    matrix: Matrix,
}

extern "C" {
    fn mn_verdict(
        samples: *const u16,
        samples_len: usize,
        settings: &Settings,
        row: usize,
        column: usize,
        verdict: &mut Verdict,
    ) -> Refusal;
    fn mn_reason(
        samples: *const u16,
        samples_len: usize,
        settings: &Settings,
        row: usize,
        column: usize,
        reason: &mut Reason,
    ) -> Refusal;
    fn mn_list(samples: *const u16, samples_len: usize, settings: &Settings, report: &mut Report) -> Refusal;
    fn mn_lens(lens: &Lens, focal_length: &mut i64) -> Refusal;
    fn mn_direction(settings: &Settings, x: i64, y: i64, direction: &mut Direction) -> Refusal;
    fn mn_catalogue(catalogue: *const u8, catalogue_len: usize, records: &mut i64) -> Refusal;
    fn mn_ranking(
        directions: *const Direction,
        directions_count: usize,
        catalogue: *const u8,
        catalogue_len: usize,
        settings: &Settings,
        room: *mut u16,
        room_len: usize,
    ) -> Refusal;
    fn mn_index(
        catalogue: *const u8,
        catalogue_len: usize,
        floor: i64,
        room: *mut u8,
        room_len: usize,
        records: &mut i64,
    ) -> Refusal;
    fn mn_ranking_by_index(
        directions: *const Direction,
        directions_count: usize,
        catalogue: *const u8,
        catalogue_len: usize,
        index: *const u8,
        index_len: usize,
        floor: i64,
        settings: &Settings,
        room: *mut u16,
        room_len: usize,
    ) -> Refusal;
    fn mn_compare(
        first: *const u8,
        first_len: usize,
        second: *const u8,
        second_len: usize,
        room: *mut u8,
        room_len: usize,
        records: &mut i64,
    ) -> Refusal;
    fn mn_cut(
        catalogue: *mut u8,
        catalogue_len: usize,
        limit: i32,
        closeness: i64,
        records: &mut i64,
    ) -> Refusal;
    fn mn_search(
        directions: *const Direction,
        directions_count: usize,
        catalogue: *const u8,
        catalogue_len: usize,
        settings: &Settings,
        ranking: *const u16,
        ranking_len: usize,
        assignment: &mut Assignment,
    ) -> Refusal;
    fn mn_rival(
        directions: *const Direction,
        directions_count: usize,
        catalogue: *const u8,
        catalogue_len: usize,
        settings: &Settings,
        ranking: *const u16,
        ranking_len: usize,
        rival: &mut Rival,
    ) -> Refusal;
    fn mn_attitude(
        first: &Direction,
        second: &Direction,
        first_star: &Direction,
        second_star: &Direction,
        matrix: &mut Matrix,
    ) -> Refusal;
    fn mn_cosines(matrix: &Matrix, cosines: &mut Cosines) -> Refusal;
    fn mn_turned(cosines: &Cosines, target: *const f64, turned: *mut f64) -> Refusal;
    fn mn_chain(
        samples: *const u16,
        samples_len: usize,
        settings: &Settings,
        catalogue: *const u8,
        catalogue_len: usize,
        room: *mut u16,
        room_len: usize,
        tracked: &mut Tracked,
    ) -> Refusal;
    fn mn_chain_by_index(
        samples: *const u16,
        samples_len: usize,
        settings: &Settings,
        catalogue: *const u8,
        catalogue_len: usize,
        index: *const u8,
        index_len: usize,
        floor: i64,
        room: *mut u16,
        room_len: usize,
        tracked: &mut Tracked,
    ) -> Refusal;
    fn mn_burst(
        samples: *const u16,
        samples_len: usize,
        settings: &Settings,
        catalogue: *const u8,
        catalogue_len: usize,
        room: *mut u16,
        room_len: usize,
        records: *mut u8,
        records_len: usize,
        frames: &mut i64,
    ) -> Refusal;
    fn mn_guider_start(half_width: i64, stars: *const i64, stars_len: usize, guider: &mut Guider) -> Refusal;
    fn mn_guider_frame(guider: &mut Guider, seen: Refusal, report: &Report) -> Refusal;
    fn mn_read_star(catalogue: *const u8, k: usize, star: &mut Star);
    fn mn_read_pair(index: *const u8, k: usize, pair: &mut Pair);
    fn mn_read_change(changes: *const u8, k: usize, change: &mut Change);
    fn mn_read_framed(records: *const u8, k: usize, framed: &mut Framed);
}

/// Whether the header can make the call: its types leave no room for a direction of another length than three, for
/// rows, guiders and lists of another length than theirs, or for a vector beyond 32 bits.
pub fn can_make(call: &Call) -> bool {
    let in_threes = call.directions.len % 3 == 0;
    match call.entry {
        Entry::Ranking | Entry::RankingByIndex | Entry::Search | Entry::Rival => in_threes,
        Entry::Attitude => {
            call.vectors.len == 12 && call.vectors.values().iter().all(|&n| i32::try_from(n).is_ok())
        }
        Entry::Cosines => call.matrix.len == 9 && call.rows.len == 9,
        Entry::Turned => call.rows.len == 9 && call.target.len == 3 && call.turned.len == 3,
        Entry::GuiderStart => call.guider.len == 18,
        Entry::GuiderFrame => call.guider.len == 18 && call.list.len == 64,
        _ => true,
    }
}

/// Makes the call through the header, with the buffers lent, and gives the numbers that its answer is made of. An empty
/// buffer is lent as NULL.
pub fn run(call: &Call, lent: &mut Lent) -> Numbers {
    let set = settings(call);
    let (row, column) = (call.row as usize, call.column as usize);
    let samples = lend(&mut lent.samples);
    let (directions, count) = (lend(&mut lent.directions).0.cast(), lent.directions.len() / 3);
    let catalogue = lend(&mut lent.catalogue);
    let ranking = lend(&mut lent.ranking);
    let room = lend(&mut lent.room);
    let index = lend(&mut lent.index);
    let bytes = lend(&mut lent.bytes);
    let other = lend(&mut lent.other);
    let mut out = [0; 64];
    let mut whole = |refusal: Refusal, number: i64| {
        out[2] = number;
        refusal
    };
    // Safe as long as the library keeps to the lengths: every pointer is to a live buffer of that length.
    let refusal = unsafe {
        match call.entry {
            Entry::Verdict => {
                let mut verdict = Verdict::default();
                let refusal = mn_verdict(samples.0, samples.1, &set, row, column, &mut verdict);
                out[2..5].copy_from_slice(&[verdict.row, verdict.column, verdict.kind]);
                out[5..8].copy_from_slice(&three(&verdict.centroid));
                refusal
            }
            Entry::Reason => {
                let mut reason = Reason::default();
                let refusal = mn_reason(samples.0, samples.1, &set, row, column, &mut reason);
                put_reason(&reason, &mut out);
                refusal
            }
            Entry::List => {
                let mut report = Report::default();
                let refusal = mn_list(samples.0, samples.1, &set, &mut report);
                put_report(&report, &mut out);
                refusal
            }
            Entry::Lens => {
                let mut focal_length = 0;
                let refusal = mn_lens(&set.lens, &mut focal_length);
                whole(refusal, focal_length)
            }
            Entry::Direction => {
                let mut direction = Direction::default();
                let refusal = mn_direction(&set, call.x, call.y, &mut direction);
                out[2..5].copy_from_slice(&[direction.x, direction.y, direction.z].map(i64::from));
                refusal
            }
            Entry::Catalogue => {
                let mut records = 0;
                let refusal = mn_catalogue(catalogue.0, catalogue.1, &mut records);
                whole(refusal, records)
            }
            Entry::Ranking => mn_ranking(directions, count, catalogue.0, catalogue.1, &set, room.0, room.1),
            Entry::RankingByIndex => mn_ranking_by_index(
                directions,
                count,
                catalogue.0,
                catalogue.1,
                index.0,
                index.1,
                call.floor,
                &set,
                room.0,
                room.1,
            ),
            Entry::Index => {
                let mut records = 0;
                let refusal = mn_index(catalogue.0, catalogue.1, call.floor, bytes.0, bytes.1, &mut records);
                whole(refusal, records)
            }
            Entry::Compare => {
                let mut records = 0;
                let refusal =
                    mn_compare(catalogue.0, catalogue.1, other.0, other.1, bytes.0, bytes.1, &mut records);
                whole(refusal, records)
            }
            Entry::Cut => {
                let mut records = 0;
                let refusal = mn_cut(catalogue.0, catalogue.1, call.limit, call.closeness, &mut records);
                whole(refusal, records)
            }
            Entry::Search => {
                let mut assignment = Assignment::default();
                let refusal = mn_search(
                    directions,
                    count,
                    catalogue.0,
                    catalogue.1,
                    &set,
                    ranking.0,
                    ranking.1,
                    &mut assignment,
                );
                out[2] = assignment.count;
                out[3..11].copy_from_slice(&assignment.stars);
                refusal
            }
            Entry::Rival => {
                let mut rival = Rival::default();
                let refusal = mn_rival(
                    directions,
                    count,
                    catalogue.0,
                    catalogue.1,
                    &set,
                    ranking.0,
                    ranking.1,
                    &mut rival,
                );
                out[2] = rival.exists;
                out[3..11].copy_from_slice(&rival.stars);
                refusal
            }
            Entry::Attitude => {
                let at = |k: usize| lent.vectors[k] as i32;
                let [first, second, first_star, second_star] =
                    [0, 3, 6, 9].map(|k| Direction { x: at(k), y: at(k + 1), z: at(k + 2) });
                let mut matrix = Matrix::default();
                let refusal = mn_attitude(&first, &second, &first_star, &second_star, &mut matrix);
                out[2..11].copy_from_slice(matrix.entries.as_flattened());
                refusal
            }
            Entry::Cosines => {
                let mut matrix = Matrix::default();
                matrix.entries.as_flattened_mut().copy_from_slice(&lent.matrix);
                let mut cosines = cosines_of(&lent.rows);
                let refusal = mn_cosines(&matrix, &mut cosines);
                put_floats(cosines.entries.as_flattened(), &mut lent.rows);
                refusal
            }
            Entry::Turned => {
                let cosines = cosines_of(&lent.rows);
                let target = [0, 1, 2].map(|k| f64::from_bits(lent.target[k]));
                let mut turned = [0, 1, 2].map(|k| f64::from_bits(lent.turned[k]));
                let refusal = mn_turned(&cosines, target.as_ptr(), turned.as_mut_ptr());
                put_floats(&turned, &mut lent.turned);
                refusal
            }
            Entry::Chain => {
                let mut tracked = Tracked::default();
                let refusal = mn_chain(
                    samples.0,
                    samples.1,
                    &set,
                    catalogue.0,
                    catalogue.1,
                    room.0,
                    room.1,
                    &mut tracked,
                );
                put_tracked(&tracked, &mut out);
                refusal
            }
            Entry::ChainByIndex => {
                let mut tracked = Tracked::default();
                let refusal = mn_chain_by_index(
                    samples.0,
                    samples.1,
                    &set,
                    catalogue.0,
                    catalogue.1,
                    index.0,
                    index.1,
                    call.floor,
                    room.0,
                    room.1,
                    &mut tracked,
                );
                put_tracked(&tracked, &mut out);
                refusal
            }
            Entry::Burst => {
                let mut frames = 0;
                let refusal = mn_burst(
                    samples.0,
                    samples.1,
                    &set,
                    catalogue.0,
                    catalogue.1,
                    room.0,
                    room.1,
                    bytes.0,
                    bytes.1,
                    &mut frames,
                );
                whole(refusal, frames)
            }
            Entry::GuiderStart => {
                let guides = lend(&mut lent.guides);
                let mut guider = Guider::default();
                let refusal = mn_guider_start(call.half_width, guides.0, guides.1, &mut guider);
                started(refusal, &guider, &mut lent.guider, &mut out);
                refusal
            }
            Entry::GuiderFrame => {
                let mut guider = guider_of(&lent.guider);
                let (seen, report) = list_of(&lent.list);
                let refusal = mn_guider_frame(&mut guider, seen, &report);
                put_guider(&guider, &mut lent.guider);
                refusal
            }
        }
    };
    (out[0], out[1]) = (refusal.number, refusal.place);
    out
}

/// The first record of a buffer, as the call left it or was lent it, that the header's readers do not read as it is
/// written; none where they read all.
pub fn misread(call: &Call, lent: &Lent, out: &Numbers) -> Option<String> {
    if out[0] != 0 {
        return None;
    }
    let records = out[2] as usize;
    match call.entry {
        Entry::Catalogue => (0..records)
            .find(|&k| star_bytes(&lent.catalogue, k) != lent.catalogue[20 * k..20 * (k + 1)])
            .map(|k| format!("star {k} is misread")),
        Entry::Index => (0..records)
            .find(|&k| pair_bytes(&lent.bytes, k) != lent.bytes[12 * k..12 * (k + 1)])
            .map(|k| format!("pair {k} is misread")),
        Entry::Compare => (0..records)
            .find(|&k| change_bytes(&lent.bytes, k) != lent.bytes[8 * k..8 * (k + 1)])
            .map(|k| format!("change {k} is misread")),
        Entry::Burst => (0..records)
            .find(|&k| framed_bytes(&lent.bytes, k) != lent.bytes[80 * k..80 * (k + 1)])
            .map(|k| format!("record {k} is misread")),
        _ => None,
    }
}

fn star_bytes(catalogue: &[u8], k: usize) -> Vec<u8> {
    let mut star = Star::default();
    unsafe { mn_read_star(catalogue.as_ptr(), k, &mut star) };
    let Direction { x, y, z } = star.direction;
    let mut bytes = star.identity.to_be_bytes().to_vec();
    bytes.extend([x, y, z, star.magnitude].iter().flat_map(|n| n.to_be_bytes()));
    bytes
}

fn pair_bytes(index: &[u8], k: usize) -> Vec<u8> {
    let mut pair = Pair::default();
    unsafe { mn_read_pair(index.as_ptr(), k, &mut pair) };
    let mut bytes = pair.dot.to_be_bytes().to_vec();
    bytes.extend([pair.first, pair.second].iter().flat_map(|&n| (n as u16).to_be_bytes()));
    bytes
}

fn change_bytes(changes: &[u8], k: usize) -> Vec<u8> {
    let mut change = Change::default();
    unsafe { mn_read_change(changes.as_ptr(), k, &mut change) };
    [change.identity, change.kind].iter().flat_map(|n| n.to_be_bytes()).collect()
}

fn framed_bytes(records: &[u8], k: usize) -> Vec<u8> {
    let mut framed = Framed { refusal: Refusal { number: 0, place: 0 }, matrix: Matrix::default() };
    unsafe { mn_read_framed(records.as_ptr(), k, &mut framed) };
    let Refusal { number, place } = framed.refusal;
    let mut bytes: Vec<u8> = [number, place].iter().flat_map(|&n| (n as u32).to_be_bytes()).collect();
    bytes.extend(framed.matrix.entries.as_flattened().iter().flat_map(|n| n.to_be_bytes()));
    bytes
}

fn settings(call: &Call) -> Settings {
    Settings {
        width: call.width as usize,
        height: call.height as usize,
        threshold: call.threshold as usize,
        needed: call.needed as usize,
        cx: call.cx,
        cy: call.cy,
        lens: Lens {
            kind: call.lens.kind,
            focal_length: f64::from_bits(call.lens.first),
            pitch: f64::from_bits(call.lens.second),
        },
        tolerance: call.tolerance,
    }
}

fn lend<T>(buffer: &mut [T]) -> (*mut T, usize) {
    match buffer.len() {
        0 => (null_mut(), 0),
        len => (buffer.as_mut_ptr(), len),
    }
}

fn three(centroid: &Centroid) -> [i64; 3] {
    [centroid.x, centroid.y, centroid.brightness]
}

/// What the kind names goes to its numbers. A field that it does not name must be 0: else the last number tells of it.
fn put_reason(reason: &Reason, out: &mut Numbers) {
    let Reason { kind, sample, threshold, row, column, side, largest, centroid } = reason;
    let fields =
        [[*sample, *threshold, 0], [*row, *column, 0], [*side, 0, 0], [*largest, 0, 0], three(centroid)];
    out[2] = *kind;
    for (k, named) in fields.into_iter().enumerate() {
        match k as i64 == *kind {
            true => out[3..6].copy_from_slice(&named),
            false => out[63] |= i64::from(named != [0; 3]),
        }
    }
}

fn put_report(report: &Report, out: &mut Numbers) {
    out[2..6].copy_from_slice(&[report.count, report.measured, report.edge, report.lone]);
    for (k, star) in report.stars.iter().enumerate() {
        out[6 + 3 * k..9 + 3 * k].copy_from_slice(&three(star));
    }
}

/// The assignment's count must be the report's: else the last number tells of it.
fn put_tracked(tracked: &Tracked, out: &mut Numbers) {
    put_report(&tracked.report, out);
    out[30..38].copy_from_slice(&tracked.assignment.stars);
    out[38..47].copy_from_slice(tracked.matrix.entries.as_flattened());
    out[63] = i64::from(tracked.assignment.count != tracked.report.count);
}

fn cosines_of(rows: &[Float]) -> Cosines {
    let mut cosines = Cosines::default();
    for (float, bits) in cosines.entries.as_flattened_mut().iter_mut().zip(rows) {
        *float = f64::from_bits(*bits);
    }
    cosines
}

fn put_floats(floats: &[f64], bits: &mut [Float]) {
    for (float, bits) in floats.iter().zip(bits) {
        *bits = float.to_bits();
    }
}

fn guider_of(numbers: &[i64]) -> Guider {
    let mut guider = Guider { half_width: numbers[0], count: numbers[1], ..Guider::default() };
    for (guide, four) in guider.guides.iter_mut().zip(numbers[2..].chunks(4)) {
        *guide = Guide { identity: four[0], x: four[1], y: four[2], misses: four[3] };
    }
    guider
}

fn put_guider(guider: &Guider, numbers: &mut [i64]) {
    (numbers[0], numbers[1]) = (guider.half_width, guider.count);
    for (guide, four) in guider.guides.iter().zip(numbers[2..].chunks_mut(4)) {
        four.copy_from_slice(&[guide.identity, guide.x, guide.y, guide.misses]);
    }
}

/// A start that is refused gives a guider of zeros, where the archive's call leaves the room: else the last number
/// tells of it.
fn started(refusal: Refusal, guider: &Guider, room: &mut [i64], out: &mut Numbers) {
    let mut numbers = [0; 18];
    put_guider(guider, &mut numbers);
    match refusal.number {
        0 => room.copy_from_slice(&numbers),
        _ => out[63] = i64::from(numbers != [0; 18]),
    }
}

/// A list's numbers as what its call returned and reported.
fn list_of(numbers: &[i64]) -> (Refusal, Report) {
    let mut report = Report {
        count: numbers[2],
        measured: numbers[3],
        edge: numbers[4],
        lone: numbers[5],
        ..Report::default()
    };
    for (star, three) in report.stars.iter_mut().zip(numbers[6..].chunks(3)) {
        *star = Centroid { x: three[0], y: three[1], brightness: three[2] };
    }
    (Refusal { number: numbers[0], place: numbers[1] }, report)
}

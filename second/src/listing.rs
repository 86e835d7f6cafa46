//! What the program prints for its three files.

use crate::answer::{Assignment, List, Refusal};
use crate::catalogue::{self, RECORD_BYTES};
use crate::chain::{chain, Settings, CHAIN_ROOM};
use crate::direction::Optics;
use crate::{files, frame, search};

/// The listing for the contents of settings.bin, catalogue.bin and frame.bin; a missing file is empty.
pub fn listing(settings: &[u8], catalogue: &[u8], frame: &[u8]) -> String {
    match files::read(settings, frame) {
        Err(refusal) => refused(refusal),
        Ok((settings, samples)) => chain_listing(&settings, &samples, catalogue),
    }
}

/// The line that tells a refusal.
pub fn refused(refusal: Refusal) -> String {
    format!("refused {} {}\n", refusal.number, refusal.place)
}

fn chain_listing(settings: &Settings, samples: &[u16], catalogue: &[u8]) -> String {
    let mut room = vec![0; CHAIN_ROOM];
    match chain(samples, settings, catalogue, &mut room) {
        Ok(solution) => {
            let rows: String =
                solution.matrix.iter().map(|row| format!("{} {} {}\n", row[0], row[1], row[2])).collect();
            first_lines(&solution.list, &solution.assignment, catalogue) + &rows
        }
        Err(refusal) if !(12..=14).contains(&refusal.number) => refused(refusal),
        Err(refusal) => {
            let list = frame::list(samples, settings.width, settings.height, settings.threshold)
                .expect("the chain accepted the frame");
            let assignment = match refusal.number {
                14 => assignment_found(settings, &list, catalogue, &room),
                _ => vec![None; list.stars.len()],
            };
            first_lines(&list, &assignment, catalogue) + &refused(refusal)
        }
    }
}

/// The counts, then a line for each star.
fn first_lines(list: &List, assignment: &Assignment, catalogue: &[u8]) -> String {
    let counts = format!("measured {} edge {} lone {}\n", list.measured, list.edge, list.lone);
    counts + &star_lines(list, assignment, catalogue)
}

/// For each star its number, position, brightness and identity.
pub fn star_lines(list: &List, assignment: &Assignment, catalogue: &[u8]) -> String {
    let records = catalogue::read(catalogue).expect("the chain accepted the catalogue");
    let mut lines = String::new();
    for (k, (star, record)) in list.stars.iter().zip(assignment).enumerate() {
        let identity = record.map_or("-".to_string(), |record| records[record].identity.to_string());
        lines += &format!("{k} {} {} {} {identity}\n", star.x, star.y, star.brightness);
    }
    lines
}

/// The search's answer for a chain that ended at the attitude: its ranking stands in the room.
fn assignment_found(settings: &Settings, list: &List, catalogue: &[u8], room: &[u16]) -> Assignment {
    let directions = seen_directions(settings, list);
    let words = directions.len() / 3 * (catalogue.len() / RECORD_BYTES);
    search::search(&directions, catalogue, settings.needed, settings.tolerance, &room[..words])
        .expect("the chain's search found an assignment")
}

/// The directions of the listed stars, for settings that the chain accepted.
pub fn seen_directions(settings: &Settings, list: &List) -> Vec<i32> {
    let optics =
        Optics::check(settings.cx, settings.cy, settings.lens).expect("the chain accepted the settings");
    list.stars
        .iter()
        .flat_map(|star| optics.direction(star.x.into(), star.y.into()))
        .map(|component| component as i32)
        .collect()
}

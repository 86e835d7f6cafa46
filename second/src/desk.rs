//! What the desk prints for the people on the ground.

use crate::answer::{Reason, Refusal, Rivalry, Side};
use crate::catalogue::RECORD_BYTES;
use crate::chain::{chain, CHAIN_ROOM};
use crate::compare::{changes, Change};
use crate::listing::{refused, seen_directions, star_lines};
use crate::{cut, files, frame, index, search};

/// The line that says why the pixel is a star or none, for the contents of settings.bin and frame.bin.
pub fn why(settings: &[u8], frame: &[u8], row: u64, column: u64) -> String {
    match reason(settings, frame, row, column) {
        Ok(reason) => reason_line(reason),
        Err(refusal) => refused(refusal),
    }
}

fn reason(settings: &[u8], frame: &[u8], row: u64, column: u64) -> Result<Reason, Refusal> {
    let (set, samples) = files::read(settings, frame)?;
    frame::reason(&samples, set.width, set.height, set.threshold, row.into(), column.into())
}

fn reason_line(reason: Reason) -> String {
    match reason {
        Reason::Dark { sample, threshold } => format!("dark {sample} {threshold}\n"),
        Reason::Beaten { row, column } => format!("beaten {row} {column}\n"),
        Reason::Edge(side) => format!("edge {}\n", side_name(side)),
        Reason::Lone { largest } => format!("lone {largest}\n"),
        Reason::Measured(star) => format!("measured {} {} {}\n", star.x, star.y, star.brightness),
    }
}

fn side_name(side: Side) -> &'static str {
    match side {
        Side::Left => "left",
        Side::Right => "right",
        Side::Top => "top",
        Side::Bottom => "bottom",
    }
}

/// The line about a catalogue's index, and the index where there is one.
pub fn index(catalogue: &[u8], floor: i64) -> (String, Option<Vec<u8>>) {
    // Room for every pair of 512 stars.
    let mut room = vec![0; index::RECORD_BYTES * 512 * 511 / 2];
    match index::index(catalogue, floor.into(), &mut room) {
        Ok(records) => {
            room.truncate(index::RECORD_BYTES * records);
            (format!("records {records}\n"), Some(room))
        }
        Err(refusal) => (refused(refusal), None),
    }
}

/// A line for each star that is not the same in both catalogues; nothing where they are equal.
pub fn compare(old: &[u8], new: &[u8]) -> String {
    match changes(old, new) {
        Ok(changes) => changes.iter().map(|&(identity, change)| change_line(identity, change)).collect(),
        Err(refusal) => refused(refusal),
    }
}

fn change_line(identity: u32, change: Change) -> String {
    let name = match change {
        Change::Removed => "removed",
        Change::Added => "added",
        Change::Changed => "changed",
    };
    format!("{name} {identity}\n")
}

/// `alone`, or the listed stars with the rival's names, for the contents of settings.bin, catalogue.bin and frame.bin.
pub fn rival(settings: &[u8], catalogue: &[u8], frame: &[u8]) -> String {
    rival_lines(settings, catalogue, frame).unwrap_or_else(refused)
}

fn rival_lines(settings: &[u8], catalogue: &[u8], frame: &[u8]) -> Result<String, Refusal> {
    let (set, samples) = files::read(settings, frame)?;
    let mut room = vec![0; CHAIN_ROOM];
    // No attitude is asked for: stars that are too close for one may have a rival.
    match chain(&samples, &set, catalogue, &mut room) {
        Err(refusal) if refusal.number != 14 => return Err(refusal),
        _ => {}
    }
    let list = frame::list(&samples, set.width, set.height, set.threshold)?;
    let directions = seen_directions(&set, &list);
    let ranking = &room[..list.stars.len() * (catalogue.len() / RECORD_BYTES)];
    Ok(match search::rival(&directions, catalogue, set.needed, set.tolerance, ranking)? {
        Rivalry::Alone => "alone\n".to_string(),
        Rivalry::Rival(assignment) => star_lines(&list, &assignment, catalogue),
    })
}

/// The line that tells how many stars a cut keeps, and the flight catalogue; none where it is refused.
pub fn cut(catalogue: &[u8], limit: i32, closeness: i64) -> (String, Option<Vec<u8>>) {
    let mut bytes = catalogue.to_vec();
    match cut::cut(&mut bytes, limit, closeness) {
        Ok(kept) => {
            bytes.truncate(RECORD_BYTES * kept);
            (format!("kept {kept} of {}\n", catalogue.len() / RECORD_BYTES), Some(bytes))
        }
        Err(refusal) => (refused(refusal), None),
    }
}

//! Runs the program on many folders and compares what it prints with the second listing, or with the desk's rivals.
//!
//! `programs PROGRAM FOLDER`: the files of each case are written into FOLDER, and PROGRAM is run there.
//! `programs PROGRAM FOLDER rival`: PROGRAM is the desk, and is given that word.
//! `programs PROGRAM FOLDER BURST`: a burst is written under that name too, PROGRAM is given the name, and the lines of
//! the guider are expected behind the listing.

use second::call::{Buffer, Call, Entry};
use second::desk;
use second::flight::burst_lines;
use second::generate::{dark_frame, random_stars, set_pixel, Scene, MOST_TOLERANCE};
use second::lens::Plate;
use second::listing::listing;
use second::random::Random;
use second::search::Effort;
use second::{float, recorded, sky};
use std::path::Path;
use std::process::{Command, ExitCode};
use std::{env, fs, io};

/// Bursts with longer searches are left out.
const MOST_STARS_TRIED: u64 = 300_000;
const NAMES: [&str; 3] = ["settings.bin", "catalogue.bin", "frame.bin"];

/// The three files; one that is missing counts as empty.
type Files = [Option<Vec<u8>>; 3];

/// What is expected for settings.bin, catalogue.bin and frame.bin.
type Text = fn(&[u8], &[u8], &[u8]) -> String;

fn main() -> ExitCode {
    let arguments: Vec<String> = env::args().skip(1).collect();
    let (program, folder, word) = match &arguments[..] {
        [program, folder] => (Path::new(program), Path::new(folder), None),
        [program, folder, word] => (Path::new(program), Path::new(folder), Some(word.as_str())),
        _ => {
            eprintln!("usage: programs PROGRAM FOLDER [rival | BURST]");
            return ExitCode::FAILURE;
        }
    };
    let (text, burst): (Text, _) = if word == Some("rival") { (desk::rival, None) } else { (listing, word) };
    let cases = cases();
    let (mut followed, mut differences) = (0, 0);
    for (k, files) in cases.iter().enumerate() {
        let (drifting, lines) = match burst.and_then(|_| drifting(files, k)) {
            Some((drifting, lines)) => (Some(drifting), lines),
            None => (None, String::new()),
        };
        followed += usize::from(!lines.is_empty());
        let expected = told(text, files) + &lines;
        let word = word.filter(|_| burst.is_none() || drifting.is_some());
        match printed(program, word, folder, files, burst.zip(drifting)) {
            Ok(text) if text == expected => {}
            Ok(text) => {
                differences += 1;
                if differences <= 3 {
                    println!("case {k} printed\n{text}where this is expected\n{expected}");
                }
            }
            Err(error) => {
                eprintln!("programs: {error}");
                return ExitCode::FAILURE;
            }
        }
    }
    println!("{} folders compared, {differences} differences", cases.len());
    if burst.is_some() {
        println!("{followed} of them with a burst behind the listing");
    }
    if differences == 0 && (burst.is_none() || followed > 0) {
        ExitCode::SUCCESS
    } else {
        ExitCode::FAILURE
    }
}

fn printed(
    program: &Path,
    word: Option<&str>,
    folder: &Path,
    files: &Files,
    burst: Option<(&str, Vec<u8>)>,
) -> io::Result<String> {
    for (name, contents) in NAMES.iter().zip(files) {
        let path = folder.join(name);
        match contents {
            Some(contents) => fs::write(path, contents)?,
            None if path.exists() => fs::remove_file(path)?,
            None => {}
        }
    }
    if let Some((name, contents)) = burst {
        fs::write(folder.join(name), contents)?;
    }
    let output = Command::new(program).args(word).current_dir(folder).output()?;
    Ok(String::from_utf8_lossy(&output.stdout).into_owned())
}

fn told(text: Text, files: &Files) -> String {
    let [settings, catalogue, frame] = files.clone().map(Option::unwrap_or_default);
    text(&settings, &catalogue, &frame)
}

/// A burst of the case's frame that drifts to the right, with a frame that is refused and some dark ones, so many that a
/// guide is dropped in every third case; in some cases it has another length than whole frames. And the lines for it,
/// unless a search takes too long.
fn drifting(files: &Files, case: usize) -> Option<(Vec<u8>, String)> {
    let [settings, catalogue, frame] = files.clone().map(Option::unwrap_or_default);
    let mut burst = Vec::new();
    for k in 0..8 {
        match (k, case % 3) {
            (2, _) => burst.extend(refused_at_the_end(&frame)),
            (3, 0) | (3..8, 1) => burst.extend(vec![0; frame.len()]),
            _ => burst.extend(shifted(&frame, 2 * k)),
        }
    }
    match case % 16 {
        5 => burst.truncate(burst.len().saturating_sub(1)),
        6 => burst.truncate(burst.len().saturating_sub(2)),
        7 if burst.len() < 60_000 => burst = burst.repeat(9),
        _ => {}
    }
    let mut effort = Effort::up_to(MOST_STARS_TRIED);
    let lines = burst_lines(&settings, &catalogue, &frame, &burst, &mut effort).ok()?;
    Some((burst, lines))
}

/// The last sample is above 4,095.
fn refused_at_the_end(frame: &[u8]) -> Vec<u8> {
    let mut frame = frame.to_vec();
    if let Some(high) = frame.iter_mut().rev().nth(1) {
        *high = 255;
    }
    frame
}

/// The samples moved on by so many bytes; those that come in first are dark.
fn shifted(frame: &[u8], bytes: usize) -> Vec<u8> {
    let bytes = bytes.min(frame.len());
    [&vec![0; bytes], &frame[..frame.len() - bytes]].concat()
}

/// The recorded chains that files can hold, and damage that only files can have.
fn cases() -> Vec<Files> {
    let mut cases: Vec<Files> = recorded::cases()
        .iter()
        .map(|case| &case.call)
        .filter(|call| call.entry == Entry::Chain)
        .filter_map(files_of)
        .collect();
    let sound =
        cases.iter().position(|files| told(listing, files).starts_with("measured")).expect("a sound chain");
    let sound = cases[sound].clone();
    cases.extend(damaged(&sound));
    cases.extend(longest());
    cases
}

/// The call as files, where its numbers fit their fields.
fn files_of(call: &Call) -> Option<Files> {
    let mut settings = Vec::new();
    for number in [call.width, call.height, call.threshold, call.needed] {
        settings.extend(u16::try_from(number).ok()?.to_be_bytes());
    }
    for number in [call.cx, call.cy, settings_focal(call.lens)?] {
        settings.extend(u32::try_from(number).ok()?.to_be_bytes());
    }
    // The spare bytes are not looked at.
    settings.extend([255, 0, 7, 1]);
    settings.extend(call.tolerance.to_be_bytes());
    let frame = call.samples.values().iter().flat_map(|sample| sample.to_be_bytes()).collect();
    Some([Some(settings), Some(call.catalogue.values()), Some(frame)])
}

/// The focal number that this plate gives, or of which it is the pixel form to the bit.
fn settings_focal(lens: Plate) -> Option<i64> {
    if let Ok(focal) = lens.focal() {
        return i64::try_from(focal).ok();
    }
    let (size, exponent) = float::parts(lens.first);
    let focal = (size >> (-8 - exponent).clamp(0, 127)) as i64;
    (Plate::of_focal(focal) == lens).then_some(focal)
}

/// Every file missing, empty, a byte short, a byte long and much too long.
fn damaged(sound: &Files) -> Vec<Files> {
    let mut cases = Vec::new();
    for k in 0..3 {
        let whole = sound[k].clone().expect("a sound case has all files");
        let short = whole[..whole.len() - 1].to_vec();
        let long = [&whole[..], &[0]].concat();
        let endless = whole.iter().copied().cycle().take(200_000).collect();
        for contents in [None, Some(Vec::new()), Some(short), Some(long), Some(endless)] {
            let mut files = sound.clone();
            files[k] = contents;
            cases.push(files);
        }
    }
    cases.push([None, None, None]);
    cases
}

/// Each file at its longest and just beyond, for a chain that is accepted and one that ends at the attitude.
fn longest() -> Vec<Files> {
    let random = Random::new(12);
    let (accepted, close) = loop {
        let accepted = largest(&random);
        let close = among_equals(&accepted, &random);
        if all_named(&accepted, 9) && all_named(&close, 7) {
            break (accepted, close);
        }
    };
    let mut cases = Vec::new();
    for call in [accepted, close] {
        let whole = files_of(&call).expect("its numbers fit their fields");
        for (k, more) in [(0, 1), (1, 1), (1, 20), (2, 1), (2, 2)] {
            let mut files = whole.clone();
            files[k].as_mut().expect("all files are there").extend(vec![0; more]);
            cases.push(files);
        }
        cases.push(whole);
    }
    // The smallest frame that has sides in range and more than 32,000 samples.
    cases.extend(files_of(&dark_frame(Entry::Chain, 254, 126, 60)));
    cases
}

/// Whether five stars are listed, every one with a name, and then the matrix or the refusal stands.
fn all_named(call: &Call, lines: usize) -> bool {
    let listing = files_of(call).map(|files| told(listing, &files)).unwrap_or_default();
    listing.starts_with("measured 5 edge 2 lone 0\n")
        && listing.lines().count() == lines
        && !listing.contains(" -\n")
}

/// 32,000 samples and 512 records, with stars in two places at the edge.
fn largest(random: &Random) -> Call {
    let scene = Scene {
        width: 200,
        height: 160,
        visible: 5,
        unknown: 0,
        records: 512,
        equal_brightness: false,
        background: false,
    };
    let mut call = scene.call(random);
    set_pixel(&mut call, 0, 40, 900);
    set_pixel(&mut call, 90, 199, 700);
    call
}

/// The same frame, where half of the catalogue's stars stand in one place and all directions agree with them.
fn among_equals(call: &Call, random: &Random) -> Call {
    let mut call = call.clone();
    call.lens = Plate::of_focal(400_000);
    call.tolerance = MOST_TOLERANCE;
    let mut stars = random_stars(random, 256);
    stars.extend([[0, 0, 1_000_000_000]; 256]);
    call.catalogue = Buffer::of(&sky::catalogue(random, &stars));
    call
}

//! Writes a catalogue's index: `index CATALOGUE FLOOR OUT`, and prints the desk's line.

use second::desk::index;
use std::fs::{read, File};
use std::io::Write;
use std::process::ExitCode;

fn main() -> ExitCode {
    let words: Vec<String> = std::env::args().skip(1).collect();
    let [catalogue, floor, out] = &words[..] else {
        return usage();
    };
    let Some(floor) = number(floor) else {
        return usage();
    };
    // A missing file counts as empty.
    let (line, bytes) = index(&read(catalogue).unwrap_or_default(), floor);
    if let Some(bytes) = bytes {
        let Ok(mut file) = File::create_new(out) else {
            eprintln!("index: {out} is there already or cannot be made");
            return ExitCode::from(2);
        };
        if file.write_all(&bytes).is_err() {
            return ExitCode::from(3);
        }
    }
    print!("{line}");
    ExitCode::from(u8::from(line.starts_with("refused")))
}

/// Digits alone behind a sign or none, and no more than 64 bits hold.
fn number(word: &str) -> Option<i64> {
    let size = word.strip_prefix('-').unwrap_or(word);
    if size.bytes().all(|byte| byte.is_ascii_digit()) {
        word.parse().ok()
    } else {
        None
    }
}

fn usage() -> ExitCode {
    eprintln!("usage: index CATALOGUE FLOOR OUT");
    ExitCode::from(2)
}

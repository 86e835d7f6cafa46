//! Cuts a catalogue file as the desk does: `cut CATALOGUE LIMIT CLOSENESS OUT`.

use second::desk::cut;
use std::fs::{read, File};
use std::io::Write;
use std::process::ExitCode;
use std::str::FromStr;

fn main() -> ExitCode {
    let words: Vec<String> = std::env::args().skip(1).collect();
    let [catalogue, limit, closeness, out] = &words[..] else {
        return usage();
    };
    let (Some(limit), Some(closeness)) = (number(limit), number(closeness)) else {
        return usage();
    };
    // A missing file counts as empty.
    let (line, kept) = cut(&read(catalogue).unwrap_or_default(), limit, closeness);
    let Some(kept) = kept else {
        print!("{line}");
        return ExitCode::from(1);
    };
    // Never over a file that is there.
    if let Err(error) = File::create_new(out).and_then(|mut file| file.write_all(&kept)) {
        eprintln!("cut: {out}: {error}");
        return ExitCode::from(3);
    }
    print!("{line}");
    ExitCode::SUCCESS
}

/// Digits, after a minus sign or none, that the type holds.
fn number<T: FromStr>(word: &str) -> Option<T> {
    let digits = word.strip_prefix('-').unwrap_or(word);
    if digits.bytes().all(|byte| byte.is_ascii_digit()) {
        word.parse().ok()
    } else {
        None
    }
}

fn usage() -> ExitCode {
    eprintln!("usage: cut CATALOGUE LIMIT CLOSENESS OUT");
    ExitCode::from(2)
}

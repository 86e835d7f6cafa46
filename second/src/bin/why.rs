//! Prints the desk's line for a pixel: `why FOLDER ROW COLUMN`.

use second::desk::why;
use std::fs::read;
use std::path::Path;
use std::process::ExitCode;

fn main() -> ExitCode {
    let words: Vec<String> = std::env::args().skip(1).collect();
    let [folder, row, column] = &words[..] else {
        return usage();
    };
    let (Some(row), Some(column)) = (number(row), number(column)) else {
        return usage();
    };
    // A missing file counts as empty.
    let [settings, frame] =
        ["settings.bin", "frame.bin"].map(|name| read(Path::new(folder).join(name)).unwrap_or_default());
    let line = why(&settings, &frame, row, column);
    print!("{line}");
    ExitCode::from(u8::from(line.starts_with("refused")))
}

/// Digits alone, and no more than 64 bits hold.
fn number(word: &str) -> Option<u64> {
    if word.bytes().all(|byte| byte.is_ascii_digit()) {
        word.parse().ok()
    } else {
        None
    }
}

fn usage() -> ExitCode {
    eprintln!("usage: why FOLDER ROW COLUMN");
    ExitCode::from(2)
}

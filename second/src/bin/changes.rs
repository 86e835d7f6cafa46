//! Prints the desk's lines for two catalogue files: `changes OLD NEW`.

use second::desk::compare;
use std::fs::read;
use std::process::ExitCode;

fn main() -> ExitCode {
    let words: Vec<String> = std::env::args().skip(1).collect();
    let [old, new] = &words[..] else {
        eprintln!("usage: changes OLD NEW");
        return ExitCode::from(2);
    };
    // A missing file counts as empty.
    let [old, new] = [old, new].map(|name| read(name).unwrap_or_default());
    let lines = compare(&old, &new);
    print!("{lines}");
    ExitCode::from(u8::from(lines.starts_with("refused")))
}

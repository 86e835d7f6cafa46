//! Prints the desk's lines for a folder: `rival FOLDER`.

use second::desk::rival;
use std::fs::read;
use std::path::Path;
use std::process::ExitCode;

fn main() -> ExitCode {
    let words: Vec<String> = std::env::args().skip(1).collect();
    let [folder] = &words[..] else {
        eprintln!("usage: rival FOLDER");
        return ExitCode::from(2);
    };
    // A missing file counts as empty.
    let [settings, catalogue, frame] = ["settings.bin", "catalogue.bin", "frame.bin"]
        .map(|name| read(Path::new(folder).join(name)).unwrap_or_default());
    let lines = rival(&settings, &catalogue, &frame);
    print!("{lines}");
    ExitCode::from(u8::from(lines.starts_with("refused")))
}

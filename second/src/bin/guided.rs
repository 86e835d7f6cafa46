//! Writes the guided run into a folder, or checks that the folder holds it.
//!
//! `guided DIR` writes DIR/data/run.bin and DIR/stdout; `guided --check DIR` compares them.

use second::guided::run;
use std::path::Path;
use std::process::ExitCode;
use std::{env, fs, io};

fn main() -> ExitCode {
    let arguments: Vec<String> = env::args().skip(1).collect();
    let arguments: Vec<&str> = arguments.iter().map(String::as_str).collect();
    let done = match arguments[..] {
        ["--check", folder] => check(Path::new(folder)),
        [folder] if !folder.starts_with('-') => write(Path::new(folder)),
        _ => {
            eprintln!("usage: guided DIR | guided --check DIR");
            return ExitCode::FAILURE;
        }
    };
    match done {
        Ok(true) => ExitCode::SUCCESS,
        Ok(false) => ExitCode::FAILURE,
        Err(error) => {
            eprintln!("guided: {error}");
            ExitCode::FAILURE
        }
    }
}

/// The files of the run, with what each must hold.
fn files() -> [(&'static str, Vec<u8>); 2] {
    let run = run();
    [("data/run.bin", run.input()), ("stdout", run.output().into_bytes())]
}

fn write(folder: &Path) -> io::Result<bool> {
    fs::create_dir_all(folder.join("data"))?;
    for (name, contents) in files() {
        fs::write(folder.join(name), contents)?;
    }
    Ok(true)
}

fn check(folder: &Path) -> io::Result<bool> {
    let mut sound = true;
    for (name, expected) in files() {
        let same = fs::read(folder.join(name))? == expected;
        println!("{name} {}", if same { "is as recorded" } else { "differs" });
        sound &= same;
    }
    Ok(sound)
}

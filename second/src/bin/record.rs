//! Writes the recorded cases into a folder, or checks that the folder holds them.
//!
//! `record DIR` writes DIR/data/cases.bin and DIR/stdout; `record --check DIR` compares them.

use second::call::{Entry, ENTRIES};
use second::recorded::{calls, cases, input, output, Case};
use std::path::{Path, PathBuf};
use std::process::ExitCode;
use std::{env, fs, io};

fn main() -> ExitCode {
    let arguments: Vec<String> = env::args().skip(1).collect();
    let arguments: Vec<&str> = arguments.iter().map(String::as_str).collect();
    match arguments[..] {
        ["--check", folder] => check(Path::new(folder)),
        [folder] if !folder.starts_with('-') => match write(Path::new(folder)) {
            Ok(()) => ExitCode::SUCCESS,
            Err(error) => {
                eprintln!("record: {folder}: {error}");
                ExitCode::FAILURE
            }
        },
        _ => {
            eprintln!("usage: record DIR | record --check DIR");
            ExitCode::FAILURE
        }
    }
}

/// The files of the recording, with what each must hold.
fn files(folder: &Path, cases: &[Case]) -> [(PathBuf, Vec<u8>); 2] {
    [
        (folder.join("data").join("cases.bin"), input(cases)),
        (folder.join("stdout"), output(cases).into_bytes()),
    ]
}

fn write(folder: &Path) -> io::Result<()> {
    let cases = cases();
    fs::create_dir_all(folder.join("data"))?;
    for (path, contents) in files(folder, &cases) {
        fs::write(&path, &contents)?;
        println!("{} bytes in {}", contents.len(), path.display());
    }
    print_table(&cases);
    Ok(())
}

fn check(folder: &Path) -> ExitCode {
    let mut sound = true;
    for (path, expected) in files(folder, &cases()) {
        match fs::read(&path) {
            Ok(found) if found == expected => println!("{} is as recorded", path.display()),
            Ok(found) => {
                let place = found.iter().zip(&expected).take_while(|(a, b)| a == b).count();
                println!(
                    "{} differs: {} bytes where {} are expected, first difference at byte {place}",
                    path.display(),
                    found.len(),
                    expected.len()
                );
                sound = false;
            }
            Err(error) => {
                println!("{} cannot be read: {error}", path.display());
                sound = false;
            }
        }
    }
    if sound {
        ExitCode::SUCCESS
    } else {
        ExitCode::FAILURE
    }
}

/// The highest refusal number of any call.
const MOST_REFUSAL: i64 = 23;

/// How many bytes and cases there are of each kind, accepted and refused with each number.
fn print_table(cases: &[Case]) {
    print!("{:<16} {:>8} {:>6} {:>6}", "", "bytes", "cases", "ok");
    (1..=MOST_REFUSAL).for_each(|number| print!(" {number:>4}"));
    println!();
    for entry in ENTRIES {
        let of_entry: Vec<&Case> = cases.iter().filter(|case| case.call.entry == entry).collect();
        let given = |number: i64| of_entry.iter().filter(|case| case.outcome.out[0] == number).count();
        let mut bytes = Vec::new();
        of_entry.iter().for_each(|case| case.call.write(&mut bytes));
        print!("{:<16} {:>8} {:>6} {:>6}", entry.name(), bytes.len(), of_entry.len(), given(0));
        (1..=MOST_REFUSAL).for_each(|number| print!(" {:>4}", given(number)));
        println!();
    }
    let tried =
        |entry: Entry| cases.iter().filter(move |case| case.call.entry == entry).map(|case| case.tried);
    println!("cases {}, left out as too long {}", cases.len(), calls().len() - cases.len());
    println!("samples lent {}", cases.iter().map(|case| case.call.samples.len).sum::<usize>());
    for entry in [Entry::Search, Entry::Chain, Entry::ChainByIndex, Entry::Burst, Entry::Rival] {
        println!(
            "stars tried by {}: {} in all, {} at most",
            entry.name(),
            tried(entry).sum::<u64>(),
            tried(entry).max().unwrap_or(0)
        );
    }
}

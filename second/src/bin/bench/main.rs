//! Times the proved library against plain Rust on the same inputs, in one process.
//!
//! `bench` prints a row for each input, `bench PART` for those whose names have this part; `bench scan` and `bench mirrors`
//! the worst and the median of many random searches; `bench growth` how times grow, with plots; `bench stack` the stack that
//! each call takes.

mod bursts;
mod catalogues;
mod clock;
mod frames;
mod growth;
mod indexes;
mod plot;
mod rankings;
mod rivals;
mod scan;
mod small;
mod stack;
mod table;

use second::hard;
use second::random::Random;
use std::env;
use std::process::ExitCode;

fn main() -> ExitCode {
    let equal = match env::args().nth(1).as_deref() {
        Some("scan") => scan::unrelated(),
        Some("mirrors") => scan::mirrored(),
        Some("growth") => growth::run(),
        Some("stack") => stack::run(),
        part => rows(part.unwrap_or("")),
    };
    if equal {
        ExitCode::SUCCESS
    } else {
        ExitCode::FAILURE
    }
}

/// A further kind of input is one more list of names and calls.
fn rows(part: &str) -> bool {
    let random = Random::new(2_024);
    let single = [
        frames::inputs(&random),
        rankings::inputs(&random),
        hard::searches(&random),
        catalogues::inputs(&random),
        rivals::inputs(&random),
    ]
    .concat();
    let mut inputs: Vec<_> = single.into_iter().map(|(name, call)| (name, vec![call])).collect();
    inputs.extend(bursts::inputs(&random));
    inputs.extend(small::inputs(&random));
    inputs.retain(|(name, _)| name.contains(part));
    table::print(&inputs)
}

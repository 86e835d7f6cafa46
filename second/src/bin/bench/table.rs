//! Times inputs, each one call or several, and prints them as a table. Each round times the proved library and
//! plain Rust one after the other; the best round of each counts. Both must give the same.

use crate::clock::busy;
use second::call::{Call, Entry, Lent};
use second::{linked, plain};
use std::hint::black_box;
use std::time::Duration;

const ROUNDS: usize = 25;
/// A timing goes on for at least this long; short ones are less often disturbed by other work.
const LEAST_TIME: Duration = Duration::from_millis(2);
/// A long call has fewer rounds.
const MOST_TIME: Duration = Duration::from_secs(4);

/// Prints a row for each input; false where the two sides differ anywhere.
pub fn print(inputs: &[(&str, Vec<Call>)]) -> bool {
    println!("{:<56} {:>10} {:>10} {:>7} {:>8}", "input", "proved ms", "plain ms", "ratio", "turns");
    let mut equal = true;
    for (name, calls) in inputs {
        if !calls.iter().all(same_outcome) {
            println!("{name:<56} the two differ");
            equal = false;
            continue;
        }
        let (proved, plain) = best_times(calls, ROUNDS);
        let turns =
            calls.iter().map(turns).sum::<Option<u64>>().map_or(String::new(), |turns| turns.to_string());
        println!(
            "{name:<56} {:>10.3} {:>10.3} {:>7.2} {turns:>8}",
            1e3 * proved,
            1e3 * plain,
            proved / plain
        );
    }
    equal
}

pub fn same_outcome(call: &Call) -> bool {
    let (mut proved, mut plain) = (call.lend(), call.lend());
    let mut out = [0; 64];
    linked::run(call, &mut proved, &mut out);
    call.run_plain_on(&mut plain) == out && plain == proved
}

/// The best seconds for all the calls, proved and plain, of rounds that take turns.
pub fn best_times(calls: &[Call], rounds: usize) -> (f64, f64) {
    let start = busy();
    let before: Vec<Lent> = calls.iter().map(Call::lend).collect();
    let mut lent = before.clone();
    let (mut proved, mut plain) = (f64::INFINITY, f64::INFINITY);
    for _ in 0..rounds {
        proved = proved.min(seconds_a_time(|| {
            for ((call, lent), before) in calls.iter().zip(&mut lent).zip(&before) {
                restore(call, lent, before);
                let mut out = [0; 64];
                linked::run(black_box(call), lent, &mut out);
                black_box(&out);
            }
        }));
        plain = plain.min(seconds_a_time(|| {
            for ((call, lent), before) in calls.iter().zip(&mut lent).zip(&before) {
                restore(call, lent, before);
                black_box(black_box(call).run_plain_on(lent));
            }
        }));
        if busy() - start > MOST_TIME {
            break;
        }
    }
    (proved, plain)
}

/// A call that writes over what it reads gets it as it was before. Both sides are timed with this.
fn restore(call: &Call, lent: &mut Lent, before: &Lent) {
    if call.writes_catalogue() {
        lent.catalogue.copy_from_slice(&before.catalogue);
    }
    if call.writes_guider() {
        lent.guider.copy_from_slice(&before.guider);
    }
}

fn seconds_a_time(mut work: impl FnMut()) -> f64 {
    let start = busy();
    let mut times = 0;
    while busy() - start < LEAST_TIME {
        work();
        times += 1;
    }
    (busy() - start).as_secs_f64() / f64::from(times)
}

/// How many stars a search, or that for a rival, places; plain Rust counts them.
pub fn turns(call: &Call) -> Option<u64> {
    let (lent, needed, tolerance) = (call.lend(), call.needed as usize, call.tolerance);
    let (directions, catalogue, ranking) = (&lent.directions, &lent.catalogue, &lent.ranking);
    match call.entry {
        Entry::Search => {
            Some(plain::counted_search(directions, catalogue, needed, tolerance, ranking).ok()?.1)
        }
        Entry::Rival => Some(plain::counted_rival(directions, catalogue, needed, tolerance, ranking).ok()?.1),
        _ => None,
    }
}

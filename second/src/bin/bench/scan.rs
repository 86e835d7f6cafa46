//! Random searches in which much agrees and little fits: the worst and the median of each setting.

use crate::table::{best_times, same_outcome, turns};
use second::call::Call;
use second::hard;
use second::random::Random;
use std::slice::from_ref;

/// 10^14 to 10^16 in four steps.
const WIDE: [u64; 5] = [
    100_000_000_000_000,
    316_000_000_000_000,
    1_000_000_000_000_000,
    3_160_000_000_000_000,
    10_000_000_000_000_000,
];
/// 10^11 to 10^15, closest where the hardest were found.
const ANY: [u64; 10] = [
    100_000_000_000,
    300_000_000_000,
    1_000_000_000_000,
    2_000_000_000_000,
    4_000_000_000_000,
    8_000_000_000_000,
    30_000_000_000_000,
    100_000_000_000_000,
    300_000_000_000_000,
    1_000_000_000_000_000,
];
/// Half the width of a group, in millionths of the sphere's radius.
const GROUPS: [i64; 5] = [1_000, 2_000, 5_000, 10_000, 40_000];
/// Every problem is timed so often, and the best time counts.
const ROUNDS: usize = 3;

/// What was measured of one problem.
struct Measured {
    proved: f64,
    plain: f64,
    turns: u64,
}

/// Eight directions that have nothing to do with 512 stars.
pub fn unrelated() -> bool {
    let random = Random::new(10);
    let problem = |needed: u64, tolerance: u64, k: usize| {
        hard::unrelated(&random, needed, tolerance, hard::REACHES[k % hard::REACHES.len()])
    };
    print_all(&[4, 5, 6, 7, 8], &WIDE, 50, &problem)
}

/// Two dense groups and their mirror images.
pub fn mirrored() -> bool {
    let random = Random::new(11);
    let problem = |needed: u64, tolerance: u64, k: usize| {
        hard::mirrored_groups(&random, needed, tolerance, GROUPS[k % GROUPS.len()])
    };
    print_all(&[5, 6, 7], &ANY, 20, &problem)
}

/// A line for each setting and the worst of all; false where the two sides differ anywhere.
fn print_all(
    needed: &[u64],
    tolerances: &[u64],
    problems: usize,
    problem: &dyn Fn(u64, u64, usize) -> Call,
) -> bool {
    println!(
        "{:>6} {:>9} {:>7} {:>10} {:>10} {:>10} {:>7} {:>12}",
        "needed", "tolerance", "refused", "median ms", "worst ms", "plain ms", "ratio", "worst turns"
    );
    let mut worst = 0.0_f64;
    for &needed in needed {
        for &tolerance in tolerances {
            let calls: Vec<Call> = (0..problems).map(|k| problem(needed, tolerance, k)).collect();
            let Some(mut all) = calls.iter().map(measure).collect::<Option<Vec<_>>>() else {
                println!("{needed:>6} {tolerance:>9.1e} the two differ");
                return false;
            };
            let refused = calls.iter().filter(|call| call.run_plain().out[0] != 0).count();
            all.sort_by(|one, other| one.proved.total_cmp(&other.proved));
            print_line(needed, tolerance, refused, &all);
            worst = worst.max(all[problems - 1].proved);
        }
    }
    println!("the worst of all takes {:.1} ms", 1e3 * worst);
    true
}

fn measure(call: &Call) -> Option<Measured> {
    let turns = turns(call).filter(|_| same_outcome(call))?;
    let (proved, plain) = best_times(from_ref(call), ROUNDS);
    Some(Measured { proved, plain, turns })
}

/// The ratio is that of the whole setting's time.
fn print_line(needed: u64, tolerance: u64, refused: usize, all: &[Measured]) {
    let (median, worst) = (&all[all.len() / 2], &all[all.len() - 1]);
    let sum = |time: fn(&Measured) -> f64| all.iter().map(time).sum::<f64>();
    println!(
        "{needed:>6} {:>9.1e} {refused:>7} {:>10.2} {:>10.2} {:>10.2} {:>7.2} {:>12}",
        tolerance as f64,
        1e3 * median.proved,
        1e3 * worst.proved,
        1e3 * worst.plain,
        sum(|one| one.proved) / sum(|one| one.plain),
        worst.turns
    );
}

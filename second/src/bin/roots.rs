//! Times the proved root against the library's earlier way and against plain Rust's `isqrt`, on the same numbers in
//! one process.
//!
//! A round takes the roots of all numbers, one way after the other; the best round of each way counts. All three
//! must give the root that the wide implementation gives.

use second::random::Random;
use second::{plain, root};
use std::hint::black_box;
use std::process::ExitCode;
use std::time::Instant;

extern "C" {
    fn mnemathor_root(n: u64) -> u64;
}

const ROUNDS: usize = 400;
const NUMBERS: usize = 4_096;
/// Each way is a call, none of them inlined into the loop that times it.
const WAYS: [fn(u64) -> u64; 3] = [proved, by_halving, by_isqrt];

/// It takes and gives plain numbers, so any call is safe.
fn proved(n: u64) -> u64 {
    unsafe { mnemathor_root(n) }
}

#[inline(never)]
fn by_halving(n: u64) -> u64 {
    plain::root_by_halving(n)
}

#[inline(never)]
fn by_isqrt(n: u64) -> u64 {
    n.isqrt()
}

fn main() -> ExitCode {
    let random = Random::new(2_025);
    let full: Vec<u64> = (0..NUMBERS).map(|_| random.next()).collect();
    let shorter: Vec<u64> = full.iter().map(|n| n >> 2).collect();
    let by_length: Vec<u64> = full.iter().map(|n| n >> random.below(64)).collect();
    if let Some(n) = first_difference(&random, &[&full, &shorter, &by_length]) {
        println!("the roots of {n} differ");
        return ExitCode::FAILURE;
    }
    println!(
        "\n{:<52} {:>10} {:>10} {:>10} {:>8} {:>8}",
        "root of", "proved ns", "before ns", "isqrt ns", "/ before", "/ isqrt"
    );
    let inputs = [
        ("numbers below 2^62", &shorter),
        ("full 64-bit numbers", &full),
        ("numbers of any length", &by_length),
    ];
    for (name, numbers) in inputs {
        let [proved, before, isqrt] = best_times(numbers);
        println!(
            "{name:<52} {proved:>10.1} {before:>10.1} {isqrt:>10.1} {:>8.2} {:>8.2}",
            proved / before,
            proved / isqrt
        );
    }
    ExitCode::SUCCESS
}

/// The first number whose root one of the ways gets wrong: of these numbers, of squares and the numbers beside
/// them, and of the smallest and the largest.
fn first_difference(random: &Random, lists: &[&[u64]]) -> Option<u64> {
    let near_squares = (0..NUMBERS).flat_map(|_| {
        let side = random.next() >> (32 + random.below(32));
        [side * side, (side * side).wrapping_sub(1), side * side + 1, side * side + 2 * side]
    });
    let ends = (0..1_000).flat_map(|n| [n, u64::MAX - n]);
    let mut numbers = lists.iter().flat_map(|list| list.iter().copied()).chain(near_squares).chain(ends);
    numbers.find(|&n| WAYS.iter().any(|way| i128::from(way(n)) != root(i128::from(n))))
}

/// The best nanoseconds a root, for each way, of rounds that take turns.
fn best_times(numbers: &[u64]) -> [f64; 3] {
    let mut best = [f64::INFINITY; 3];
    for _ in 0..ROUNDS {
        for (way, best) in WAYS.iter().zip(&mut best) {
            let start = Instant::now();
            for &n in numbers {
                black_box(way(black_box(n)));
            }
            *best = best.min(1e9 * start.elapsed().as_secs_f64() / numbers.len() as f64);
        }
    }
    best
}

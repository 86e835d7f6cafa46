//! How times grow with the input: a table each, and a plot in docs/pictures.

use crate::clock::busy;
use crate::plot::{draw, Line};
use crate::table::{best_times, same_outcome};
use crate::{frames, indexes, rankings};
use second::call::Call;
use second::hard;
use second::random::Random;
use std::fs;
use std::hint::black_box;
use std::slice::from_ref;

const FOLDER: &str = "docs/pictures";
const ROUNDS: usize = 9;
const SIDES: [usize; 5] = [64, 128, 256, 512, 1_024];
const STARS: [usize; 5] = [32, 64, 128, 256, 512];

/// Prints the tables and writes the plots; false where the two sides differ anywhere.
pub fn run() -> bool {
    let random = Random::new(27);
    lists(&random)
        && rankings_by_stars(&random)
        && rankings_by_pairs(&random)
        && searches(&random)
        && chains(&random)
}

/// Columns of times over one input that grows.
struct Table {
    across: &'static str,
    lines: Vec<Line>,
}

impl Table {
    fn new(across: &'static str, columns: &[&str]) -> Table {
        let line = |name: &&str| Line { name: (*name).to_string(), points: Vec::new() };
        Table { across, lines: columns.iter().map(line).collect() }
    }

    /// Seconds become ms.
    fn add(&mut self, x: f64, times: &[f64]) {
        for (line, time) in self.lines.iter_mut().zip(times) {
            line.points.push((x, 1e3 * time));
        }
    }

    fn finish(&self, name: &str, title: &str) {
        println!(
            "\n{title}\n{:>16} {}",
            self.across,
            self.lines.iter().map(|line| format!("{:>16}", line.name)).collect::<String>()
        );
        for k in 0..self.lines[0].points.len() {
            let times: String = self.lines.iter().map(|line| format!("{:>16.3}", line.points[k].1)).collect();
            println!("{:>16} {times}", self.lines[0].points[k].0);
        }
        let file = format!("{FOLDER}/growth-{name}.svg");
        fs::write(&file, draw(title, self.across, &self.lines))
            .unwrap_or_else(|error| panic!("{file}: {error}"));
    }
}

/// Proved and plain seconds, where both give the same.
fn timed(call: &Call) -> Option<(f64, f64)> {
    same_outcome(call).then(|| best_times(from_ref(call), ROUNDS))
}

/// One pass over samples, as fast as memory gives them.
fn one_pass(samples: &[u16]) -> f64 {
    (0..200).fold(f64::INFINITY, |best, _| {
        let start = busy();
        black_box(black_box(samples).iter().fold(0, |largest, &sample| sample.max(largest)));
        best.min((busy() - start).as_secs_f64())
    })
}

fn lists(random: &Random) -> bool {
    let mut table = Table::new("samples", &["proved", "plain", "one pass"]);
    for side in SIDES {
        let call = frames::star_field_list(random, side);
        let Some((proved, plain)) = timed(&call) else { return false };
        table.add((side * side) as f64, &[proved, plain, one_pass(&call.samples.values())]);
    }
    table.finish("list", "List of a star field");
    true
}

fn rankings_by_stars(random: &Random) -> bool {
    let mut table = Table::new("stars", &["proved", "plain", "proved by index", "plain by index"]);
    for stars in STARS {
        let call = rankings::field(random, stars);
        let by_index = indexes::shortest(&call);
        let (Some(all), Some(indexed)) = (timed(&call), timed(&by_index)) else { return false };
        table.add(stars as f64, &[all.0, all.1, indexed.0, indexed.1]);
    }
    table.finish("ranking", "Ranking of 8 directions in a camera's field, T 10^14");
    true
}

/// The index has every pair, and its test is the same for all tolerances.
fn rankings_by_pairs(random: &Random) -> bool {
    let mut table = Table::new("agreeing pairs", &["proved", "plain", "without an index"]);
    let ranking = rankings::anywhere(random);
    for power in 11..=16 {
        let call = Call { tolerance: 10_u64.pow(power), ..ranking.clone() };
        let by_index = indexes::by_index(&call, i64::MIN);
        let (Some(all), Some(indexed)) = (timed(&call), timed(&by_index)) else { return false };
        table.add(indexes::agreeing(&call).max(1) as f64, &[indexed.0, indexed.1, all.0]);
    }
    table.finish("index", "Ranking by an index of every pair, 8 directions, 512 stars");
    true
}

/// The median of problems of each kind.
fn searches(random: &Random) -> bool {
    let needed = [3, 4, 5, 6, 7, 8];
    let names = needed.map(|needed| format!("needed {needed}"));
    let mut table = Table::new("tolerance", &names.each_ref().map(String::as_str));
    for tolerance in [12, 13, 14, 15, 16].map(|power| 10_u64.pow(power)) {
        let mut medians = Vec::new();
        for needed in needed {
            let problem =
                |k: usize| hard::unrelated(random, needed, tolerance, hard::REACHES[k % hard::REACHES.len()]);
            let times: Option<Vec<(f64, f64)>> = (0..9).map(|k| timed(&problem(k))).collect();
            let Some(mut times) = times else { return false };
            times.sort_by(|one, other| one.0.total_cmp(&other.0));
            medians.push(times[times.len() / 2].0);
        }
        table.add(tolerance as f64, &medians);
    }
    table.finish("search", "Search, 8 directions of no star among 512");
    true
}

fn chains(random: &Random) -> bool {
    let mut table = Table::new("stars", &["proved", "plain", "proved by index", "plain by index"]);
    for stars in STARS {
        let Some(times) = chain_times(&rankings::solved_chain(random, 200, 160, stars)) else { return false };
        table.add(stars as f64, &times);
    }
    table.finish("chain-stars", "Chain, 200 x 160 star field");
    let mut table =
        Table::new("samples", &["proved", "plain", "proved by index", "plain by index", "one pass"]);
    for side in SIDES {
        let call = rankings::solved_chain(random, side, side, 512);
        let Some(times) = chain_times(&call) else { return false };
        table.add((side * side) as f64, &[&times[..], &[one_pass(&call.samples.values())]].concat());
    }
    table.finish("chain-samples", "Chain, 512 stars");
    true
}

/// The chain and the chain by the shortest index, proved and plain.
fn chain_times(call: &Call) -> Option<[f64; 4]> {
    let (all, indexed) = (timed(call)?, timed(&indexes::shortest(call))?);
    Some([all.0, all.1, indexed.0, indexed.1])
}

//! The proved library, through its header for C, against the wide implementation.
//!
//! `compare SECONDS SEED` makes the recorded calls, some at once in several threads, and then calls every entry point
//! with sound and damaged inputs for about so long. It compares all 64 numbers and every lent buffer, and ends with 1 if
//! anything differs.

use second::answer::Numbers;
use second::call::{Call, Entry, Lent, Outcome, ENTRIES};
use second::dense;
use second::generate::{any_call, lend_index, Scene};
use second::hard::{true_groups, unrelated, REACHES};
use second::random::Random;
use second::search::Effort;
use second::{linked, recorded, typed};
use std::env;
use std::process::ExitCode;
use std::thread;
use std::time::{Duration, Instant};

/// Longer searches are left out.
const MOST_STARS_TRIED: u64 = 300_000;
/// What the numbers' room holds before a call.
const UNTOUCHED: i64 = 0x7A7A_7A7A_7A7A_7A7A;
const DIFFERENCES_SHOWN: u64 = 5;
/// No call of the library may take more stack than this.
const STACK: usize = 64 * 1024;
/// Threads that call the library at once, and how often each makes every call.
const THREADS: usize = 4;
const ROUNDS: usize = 3;
/// Calls of each entry point in a round: more of the quick ones.
const CALLS_A_ROUND: [usize; ENTRIES.len()] =
    [4, 2, 8, 4, 2, 4, 8, 1, 4, 2, 2, 1, 1, 8, 16, 16, 4, 3, 4, 8, 16];

#[derive(Default, Clone, Copy)]
struct Count {
    compared: u64,
    accepted: u64,
    refused: u64,
    differences: u64,
}

/// The entry points' counts, those of the calls that have no room for their numbers, and how many calls went through
/// the header.
struct Run {
    entries: [Count; ENTRIES.len()],
    nothing: Count,
    typed: u64,
    shown: u64,
}

fn main() -> ExitCode {
    let arguments: Vec<u64> = env::args().skip(1).filter_map(|argument| argument.parse().ok()).collect();
    let [seconds, seed] = arguments[..] else {
        eprintln!("usage: compare SECONDS SEED");
        return ExitCode::FAILURE;
    };
    let random = Random::new(seed);
    let mut run =
        Run { entries: [Count::default(); ENTRIES.len()], nothing: Count::default(), typed: 0, shown: 0 };
    run_with_little_stack(&random);
    let recorded = recorded::cases();
    for case in &recorded {
        run.compare_with(&case.call, &case.outcome);
    }
    println!("{} recorded calls made", recorded.len());
    run.differ_in_threads(&random);
    let start = Instant::now();
    while start.elapsed() < Duration::from_secs(seconds) {
        for (entry, calls) in ENTRIES.into_iter().zip(CALLS_A_ROUND) {
            for _ in 0..calls {
                let call = any_call(&random, entry);
                run.compare(&call);
                if random.chance(2) {
                    run.compare_other_lengths(&random, call);
                }
            }
        }
        let dense = dense::any_search(&random);
        run.compare(&dense);
        run.compare(&Call { entry: Entry::Rival, ..dense });
    }
    run.print_table();
    match run.differences() {
        0 => ExitCode::SUCCESS,
        _ => ExitCode::FAILURE,
    }
}

/// Calls of every entry point, and some with as many stars as there may be, each in a thread with no more
/// stack than a call may take: one that took more would end the program.
fn run_with_little_stack(random: &Random) {
    let largest = Scene {
        width: 200,
        height: 160,
        visible: 8,
        unknown: 0,
        records: 512,
        equal_brightness: false,
        background: true,
    };
    let mut calls: Vec<Call> =
        ENTRIES.iter().flat_map(|&entry| (0..8).map(move |_| any_call(random, entry))).collect();
    // The largest chain, the same with the index of all its pairs, that index to be built, a hard search, and rivals.
    let chain = largest.call(random);
    let mut by_index = Call { entry: Entry::ChainByIndex, ..chain.clone() };
    lend_index(&mut by_index, i64::MIN);
    let mut index = Call { entry: Entry::Index, ..by_index.clone() };
    index.bytes = index.index.clone();
    let hard = unrelated(random, 5, 100_000_000_000_000, REACHES[0]);
    let rival = Call { entry: Entry::Rival, ..true_groups(random, 8, 100_000_000_000, 2_000) };
    calls.extend([chain, by_index, index, hard, rival]);
    for call in calls {
        let mut lent = call.lend();
        thread::scope(|scope| {
            let builder = thread::Builder::new().stack_size(STACK);
            builder.spawn_scoped(scope, || made(&call, &mut lent)).expect("a thread starts");
        });
    }
    println!("every call runs in {STACK} bytes of stack");
}

/// Makes the call through the header, or by the archive's own function where the header's types leave no room for it.
fn made(call: &Call, lent: &mut Lent) -> Numbers {
    if typed::can_make(call) {
        return typed::run(call, lent);
    }
    let mut out = [UNTOUCHED; 64];
    linked::run(call, lent, &mut out);
    out
}

impl Run {
    fn compare(&mut self, call: &Call) {
        if let Ok(expected) = call.run_wide(&mut Effort::up_to(MOST_STARS_TRIED)) {
            self.compare_with(call, &expected);
        }
    }

    fn compare_with(&mut self, call: &Call, expected: &Outcome) {
        let difference = difference_from(call, expected);
        self.typed += u64::from(typed::can_make(call));
        let count = &mut self.entries[call.entry.index()];
        count.compared += 1;
        match expected.out[0] {
            0 => count.accepted += 1,
            _ => count.refused += 1,
        }
        if let Some(difference) = difference {
            count.differences += 1;
            self.show(call, &difference);
        }
    }

    /// Every thread makes all the calls, each on its own buffers, beginning with another one.
    fn differ_in_threads(&mut self, random: &Random) {
        let calls: Vec<(Call, Outcome)> = ENTRIES
            .iter()
            .flat_map(|&entry| (0..40).map(move |_| any_call(random, entry)))
            .filter_map(|call| {
                let expected = call.run_wide(&mut Effort::up_to(MOST_STARS_TRIED)).ok()?;
                Some((call, expected))
            })
            .collect();
        let in_turn = |first: usize| {
            let order = (0..ROUNDS * calls.len()).map(|k| (first + k) % calls.len());
            order.filter_map(|k| Some((k, difference_from(&calls[k].0, &calls[k].1)?))).collect::<Vec<_>>()
        };
        let differences: Vec<(usize, String)> = thread::scope(|scope| {
            let firsts = (0..THREADS).map(|thread| thread * calls.len() / THREADS);
            let in_turn = &in_turn;
            let threads: Vec<_> = firsts.map(|first| scope.spawn(move || in_turn(first))).collect();
            threads.into_iter().flat_map(|thread| thread.join().expect("a thread ends")).collect()
        });
        for (k, difference) in &differences {
            self.entries[calls[*k].0.entry.index()].differences += 1;
            self.show(&calls[*k].0, &format!("in one of several threads: {difference}"));
        }
        println!("{} calls made {ROUNDS} times in each of {THREADS} threads at once", calls.len());
    }

    /// A buffer of another length than the call takes: it is refused. Or room for fewer than 64 numbers: none is
    /// handed over, but the rooms take what the call writes there all the same.
    fn compare_other_lengths(&mut self, random: &Random, mut call: Call) {
        if random.chance(50) && lend_other_length(random, &mut call) {
            return self.compare(&call);
        }
        let Ok(Outcome { lent: expected, .. }) = call.run_wide(&mut Effort::up_to(MOST_STARS_TRIED)) else {
            return;
        };
        let room = random.pick(&[0, 1, 2, 47, 63]);
        let mut lent = call.lend();
        let mut out = vec![UNTOUCHED; room];
        linked::run(&call, &mut lent, &mut out);
        lent.settle_floats();
        self.nothing.compared += 1;
        if let Some(difference) = first_difference(&vec![UNTOUCHED; room], &expected, &out, &lent) {
            self.nothing.differences += 1;
            self.show(&call, &format!("with a room of {room} numbers: {difference}"));
        }
    }

    fn show(&mut self, call: &Call, difference: &str) {
        self.shown += 1;
        if self.shown > DIFFERENCES_SHOWN {
            return;
        }
        println!("{}: {difference}", call.entry.name());
        println!("  scalars {:?}", call.scalars().iter().map(|&word| word as i64).collect::<Vec<_>>());
        let lent = call.lend();
        show_buffer("samples", &lent.samples);
        show_buffer("directions", &lent.directions);
        show_buffer("catalogue", &lent.catalogue);
        show_buffer("second catalogue", &lent.other);
        show_buffer("ranking", &lent.ranking);
        show_buffer("vectors", &lent.vectors);
        show_buffer("index", &lent.index);
        show_buffer("matrix", &lent.matrix);
        show_buffer("rows", &lent.rows);
        show_buffer("target", &lent.target);
        show_buffer("guides", &lent.guides);
        show_buffer("guider", &lent.guider);
        show_buffer("list", &lent.list);
        if call.writes_ranking() {
            println!("  room of {} words", lent.room.len());
        }
        if call.writes_bytes() {
            println!("  room of {} bytes", lent.bytes.len());
        }
    }

    fn differences(&self) -> u64 {
        self.entries.iter().map(|count| count.differences).sum::<u64>() + self.nothing.differences
    }

    fn print_table(&self) {
        println!(
            "{:<17} {:>10} {:>10} {:>10} {:>11}",
            "entry point", "compared", "accepted", "refused", "differences"
        );
        let row = |name: &str, count: &Count| {
            let Count { compared, accepted, refused, differences } = count;
            println!("{name:<17} {compared:>10} {accepted:>10} {refused:>10} {differences:>11}");
        };
        for entry in ENTRIES {
            row(entry.name(), &self.entries[entry.index()]);
        }
        row("no numbers", &self.nothing);
        println!("{} calls went through the header", self.typed);
    }
}

/// Makes the call, and says where its numbers, what it was lent, or a record as the header reads it are not as
/// expected.
fn difference_from(call: &Call, expected: &Outcome) -> Option<String> {
    let mut lent = call.lend();
    let out = made(call, &mut lent);
    lent.settle_floats();
    first_difference(&expected.out, &expected.lent, &out, &lent).or_else(|| typed::misread(call, &lent, &out))
}

/// Lends a call that takes just so many numbers another number of them; false where it is no such call.
fn lend_other_length(random: &Random, call: &mut Call) -> bool {
    match (call.entry, random.below(3)) {
        (Entry::Attitude, _) => {
            call.vectors = call.vectors.resized(random.pick(&[0, 1, 3, 11, 13, 24]));
        }
        (Entry::Cosines, 0) => call.rows = call.rows.resized(random.pick(&[0, 1, 3, 8])),
        (Entry::Cosines, _) => call.matrix = call.matrix.resized(random.pick(&[0, 1, 8, 10, 12])),
        (Entry::Turned, 0) => call.rows = call.rows.resized(random.pick(&[0, 3, 8, 10])),
        (Entry::Turned, 1) => call.target = call.target.resized(random.pick(&[0, 1, 2, 4])),
        (Entry::Turned, _) => call.turned = call.turned.resized(random.pick(&[0, 1, 2])),
        (Entry::GuiderStart, _) | (Entry::GuiderFrame, 0) => {
            call.guider = call.guider.resized(random.pick(&[0, 1, 2, 17]));
        }
        (Entry::GuiderFrame, _) => call.list = call.list.resized(random.pick(&[0, 1, 2, 29, 63])),
        _ => return false,
    }
    true
}

/// A buffer the call is lent; of a long one only the length.
fn show_buffer<T: std::fmt::Debug>(name: &str, values: &[T]) {
    match values.len() {
        0 => {}
        len if len <= 200 => println!("  {name} {values:?}"),
        len => println!("  {len} {name}"),
    }
}

/// Where numbers or memory are not as expected, in words.
fn first_difference(expected: &[i64], expected_memory: &Lent, out: &[i64], lent: &Lent) -> Option<String> {
    if let Some(k) = (0..out.len()).find(|&k| out[k] != expected[k]) {
        return Some(format!("number {k} is {} where {} is expected", out[k], expected[k]));
    }
    buffer_difference("sample", &expected_memory.samples, &lent.samples)
        .or_else(|| buffer_difference("direction number", &expected_memory.directions, &lent.directions))
        .or_else(|| buffer_difference("catalogue byte", &expected_memory.catalogue, &lent.catalogue))
        .or_else(|| buffer_difference("ranking word", &expected_memory.ranking, &lent.ranking))
        .or_else(|| buffer_difference("room word", &expected_memory.room, &lent.room))
        .or_else(|| buffer_difference("vector number", &expected_memory.vectors, &lent.vectors))
        .or_else(|| buffer_difference("index byte", &expected_memory.index, &lent.index))
        .or_else(|| buffer_difference("byte", &expected_memory.bytes, &lent.bytes))
        .or_else(|| buffer_difference("second catalogue's byte", &expected_memory.other, &lent.other))
        .or_else(|| buffer_difference("matrix entry", &expected_memory.matrix, &lent.matrix))
        .or_else(|| buffer_difference("row float", &expected_memory.rows, &lent.rows))
        .or_else(|| buffer_difference("target float", &expected_memory.target, &lent.target))
        .or_else(|| buffer_difference("turned float", &expected_memory.turned, &lent.turned))
        .or_else(|| buffer_difference("guide number", &expected_memory.guides, &lent.guides))
        .or_else(|| buffer_difference("guider number", &expected_memory.guider, &lent.guider))
        .or_else(|| buffer_difference("list number", &expected_memory.list, &lent.list))
}

fn buffer_difference<T: PartialEq + std::fmt::Display>(
    name: &str,
    expected: &[T],
    found: &[T],
) -> Option<String> {
    let k = (0..found.len()).find(|&k| found[k] != expected[k])?;
    Some(format!("{name} {k} is {} where {} is expected", found[k], expected[k]))
}

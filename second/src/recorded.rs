//! The recorded cases: calls of every entry point whose outcome is written down, so that the proved
//! library can be run over them anywhere. The same calls come out each time.

use crate::call::{Call, Entry, Outcome, ENTRIES};
use crate::damage::damage;
use crate::float::Float;
use crate::random::Random;
use crate::search::Effort;

mod attitude;
mod burst;
mod catalogue;
mod chain;
mod compare;
mod cut;
mod direction;
mod frame;
mod gimbal;
mod guider;
mod index;
mod lens;
mod ranking;
mod reason;
mod rival;
mod search;

/// A case whose search tries more stars than this is left out.
const MOST_STARS_TRIED: u64 = 1_000_000;

/// A call and what it must give.
pub struct Case {
    pub call: Call,
    pub outcome: Outcome,
    /// Stars tried by the search.
    pub tried: u64,
}

/// Every recorded case: the calls whose search does not take too long.
pub fn cases() -> Vec<Case> {
    calls().into_iter().filter_map(settle).collect()
}

/// The calls to record, in the order of the entry points.
pub fn calls() -> Vec<Call> {
    let mut calls = Vec::new();
    for entry in ENTRIES {
        let random = Random::new(0x5EC0_0000 + entry.index() as u64);
        match entry {
            Entry::Verdict => frame::verdicts(&random, &mut calls),
            Entry::List => frame::lists(&random, &mut calls),
            Entry::Direction => direction::directions(&random, &mut calls),
            Entry::Catalogue => catalogue::catalogues(&random, &mut calls),
            Entry::Ranking => ranking::rankings(&random, &mut calls),
            Entry::Search => search::searches(&random, &mut calls),
            Entry::Attitude => attitude::attitudes(&random, &mut calls),
            Entry::Chain => chain::chains(&random, &mut calls),
            Entry::Reason => reason::reasons(&random, &mut calls),
            Entry::Index => index::indexes(&random, &mut calls),
            Entry::RankingByIndex => index::rankings_by_index(&random, &mut calls),
            Entry::ChainByIndex => index::chains_by_index(&random, &mut calls),
            Entry::Burst => burst::bursts(&random, &mut calls),
            Entry::Cosines => gimbal::matrices(&random, &mut calls),
            Entry::Turned => gimbal::targets(&random, &mut calls),
            Entry::Lens => lens::plates(&random, &mut calls),
            Entry::Compare => compare::pairs(&random, &mut calls),
            Entry::Rival => rival::rivals(&random, &mut calls),
            Entry::Cut => cut::cuts(&random, &mut calls),
            Entry::GuiderStart => guider::starts(&random, &mut calls),
            Entry::GuiderFrame => guider::frames(&random, &mut calls),
        }
    }
    calls
}

fn settle(call: Call) -> Option<Case> {
    let mut effort = Effort::up_to(MOST_STARS_TRIED);
    let outcome = call.run_wide(&mut effort).ok()?;
    Some(Case { call, outcome, tried: effort.tried })
}

/// The file the proved library is fed with.
pub fn input(cases: &[Case]) -> Vec<u8> {
    let mut bytes = Vec::new();
    for case in cases {
        case.call.write(&mut bytes);
    }
    bytes.push(0);
    bytes
}

/// What must be printed for that file.
pub fn output(cases: &[Case]) -> String {
    let mut text = String::new();
    for case in cases {
        text += &line(case);
        text.push('\n');
    }
    text + &format!("cases {}\n", cases.len())
}

fn line(case: &Case) -> String {
    let entry = case.call.entry;
    let mut numbers = vec![i64::from(entry.kind())];
    numbers.extend(&case.outcome.out[..entry.numbers_shown()]);
    let after = &case.outcome.lent;
    if case.call.writes_ranking() {
        numbers.push(checksum(&case.call.room.values()));
        numbers.push(checksum(&after.room));
    }
    if case.call.writes_bytes() {
        numbers.push(checksum(&case.call.bytes.values()));
        numbers.push(checksum(&after.bytes));
    }
    if case.call.writes_catalogue() {
        numbers.push(checksum(&case.call.catalogue.values()));
        numbers.push(checksum(&after.catalogue));
    }
    if case.call.writes_guider() {
        numbers.extend(&after.guider);
    }
    let floats = case.call.floats_written(after).iter().map(Float::to_string);
    numbers.iter().map(i64::to_string).chain(floats).collect::<Vec<_>>().join(" ")
}

fn checksum<T: Copy + Into<i64>>(room: &[T]) -> i64 {
    room.iter().fold(0, |sum, &element| (sum * 31 + element.into() + 1) % 1_000_003)
}

/// Sound calls damaged by each reason alone, `each` times, by every two reasons, and by several at once.
fn damaged(
    random: &Random,
    entry: Entry,
    each: usize,
    several: usize,
    sound: impl Fn() -> Call,
    calls: &mut Vec<Call>,
) {
    let reasons = entry.faults();
    for &reason in reasons {
        for _ in 0..each {
            let mut call = sound();
            damage(&mut call, reason, random);
            calls.push(call);
        }
    }
    for (k, &higher) in reasons.iter().enumerate() {
        for &lower in &reasons[..k] {
            let mut call = sound();
            damage(&mut call, higher, random);
            damage(&mut call, lower, random);
            calls.push(call);
        }
    }
    for _ in 0..several {
        let mut call = sound();
        for _ in 0..2 + random.below(3) {
            damage(&mut call, random.pick(reasons), random);
        }
        calls.push(call);
    }
}

/// The same call for every value of one of its numbers.
fn vary<T: Copy>(calls: &mut Vec<Call>, sound: &Call, values: &[T], set: impl Fn(&mut Call, T)) {
    for &value in values {
        let mut call = sound.clone();
        set(&mut call, value);
        calls.push(call);
    }
}

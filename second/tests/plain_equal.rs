//! Plain Rust gives what the wide implementation gives: random calls of every kind, damaged ones
//! too.

use second::call::{Call, ENTRIES};
use second::generate::any_call;
use second::random::Random;
use second::search::Effort;

fn calls(seed: u64, count: usize) -> impl Iterator<Item = Call> {
    let random = Random::new(seed);
    (0..count)
        .flat_map(move |_| ENTRIES.into_iter().map(|entry| any_call(&random, entry)).collect::<Vec<_>>())
}

#[test]
fn plain_equals_wide() {
    let mut accepted = [0; ENTRIES.len()];
    let mut refused = [[0; 24]; ENTRIES.len()];
    for call in calls(6, 1_000) {
        let Ok(wide) = call.run_wide(&mut Effort::up_to(200_000)) else {
            continue;
        };
        assert!(call.run_plain() == wide, "{:?} {:?}", call.entry, call.scalars());
        match wide.out[0] {
            0 => accepted[call.entry.index()] += 1,
            number => refused[call.entry.index()][number as usize] += 1,
        }
    }
    for entry in ENTRIES {
        assert!(accepted[entry.index()] > 200, "{entry:?} accepted {}", accepted[entry.index()]);
        for &number in entry.refusals() {
            assert!(refused[entry.index()][usize::from(number)] > 0, "{entry:?} never refused with {number}");
        }
    }
}

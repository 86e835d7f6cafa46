//! Dense searches, in which a search has to turn back often: plain Rust gives what the wide implementation
//! gives.

use second::call::Call;
use second::dense::any_search;
use second::plain;
use second::random::Random;
use second::search::Effort;

/// How many stars plain Rust places.
fn turns(call: &Call) -> u64 {
    let lent = call.lend();
    let needed = call.needed as usize;
    plain::counted_search(&lent.directions, &lent.catalogue, needed, call.tolerance, &lent.ranking).unwrap().1
}

#[test]
fn plain_equals_wide_where_much_agrees() {
    let random = Random::new(10);
    let (mut found, mut none, mut given_up, mut turned_back) = (0, 0, 0, 0);
    for _ in 0..4_000 {
        let call = any_search(&random);
        let Ok(wide) = call.run_wide(&mut Effort::up_to(3_000)) else {
            given_up += 1;
            continue;
        };
        assert!(call.run_plain() == wide, "{:?}", call.scalars());
        match wide.out[0] {
            0 => found += 1,
            13 => none += 1,
            number => panic!("refused with {number}"),
        }
        // A search that never turns back places at most one star a direction.
        if turns(&call) > 2 * (call.directions.len / 3) as u64 {
            turned_back += 1;
        }
    }
    println!("{found} found, {none} without an answer, {turned_back} turned back, {given_up} given up");
    assert!(found > 500 && none > 500 && turned_back > 400 && given_up < 40);
}

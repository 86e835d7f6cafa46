//! The index: building it, and a ranking and a chain that are lent it. Both test it before they vote.

use second::call::{Buffer, Call, Entry};
use second::catalogue;
use second::direction::direction;
use second::dot;
use second::frame;
use second::generate::{index_bytes, lend_index};

pub const NARROW: u64 = 100_000_000_000_000;

/// The index built, its test, the ranking with a narrow tolerance, plain and by index, and the chain by index. The
/// directions of `ranking` are anywhere, so their index has nearly every pair; those of `field` are neighbours, as in
/// a camera, and theirs has few.
pub fn inputs(ranking: &Call, field: &Call, chain: &Call) -> Vec<(&'static str, Call)> {
    let ranking = Call { tolerance: NARROW, ..ranking.clone() };
    let ranking_by_index = shortest(&ranking);
    let field_by_index = shortest(field);
    vec![
        ("index, 512 stars, every pair", build(&ranking)),
        ("test of the index, nearly every pair", test(&ranking_by_index)),
        ("test of the index, a camera's field", test(&field_by_index)),
        ("ranking, anywhere, T 10^14", ranking),
        ("ranking by index, anywhere, T 10^14", ranking_by_index),
        ("ranking, a camera's field, T 10^14", field.clone()),
        ("ranking by index, a camera's field, T 10^14", field_by_index),
        ("chain by index, the same star field", shortest(chain)),
    ]
}

/// Without directions nothing is left but the test.
fn test(by_index: &Call) -> Call {
    Call { directions: Buffer::repeat(0, &[0]), ..by_index.clone() }
}

fn build(ranking: &Call) -> Call {
    let mut call = Call { entry: Entry::Index, floor: i64::MIN, ..ranking.clone() };
    call.bytes = Buffer::repeat(index_bytes(&call.catalogue.values(), i64::MIN).len(), &[0]);
    call
}

/// The same call, with the shortest index by which every pair of its directions is voted.
pub fn shortest(call: &Call) -> Call {
    let directions = directions_of(call);
    let products = directions.iter().flat_map(|v| directions.iter().map(move |w| dot(v, w)));
    let least = products.min().expect("the call has directions");
    let floor = least - i128::from(call.tolerance);
    by_index(call, i64::try_from(floor).expect("products of directions are far from the limits"))
}

/// The same call, with the index for a floor.
pub fn by_index(call: &Call, floor: i64) -> Call {
    let entry = if call.entry == Entry::Ranking { Entry::RankingByIndex } else { Entry::ChainByIndex };
    let mut call = Call { entry, ..call.clone() };
    lend_index(&mut call, floor);
    call
}

/// How often a pair of stars agrees with a pair of directions.
pub fn agreeing(ranking: &Call) -> usize {
    let products = |vectors: &[[i128; 3]]| -> Vec<i128> {
        let before = |(k, v)| vectors[..k].iter().map(move |w| dot(v, w));
        vectors.iter().enumerate().flat_map(before).collect()
    };
    let stars = catalogue::read(&ranking.catalogue.values()).expect("the catalogue is sound");
    let stars: Vec<[i128; 3]> = stars.into_iter().map(|star| star.direction).collect();
    let (pairs, stars) = (products(&directions_of(ranking)), products(&stars));
    let agrees = |p: &i128| stars.iter().filter(|q| (*q - p).abs() <= i128::from(ranking.tolerance)).count();
    pairs.iter().map(agrees).sum()
}

fn directions_of(call: &Call) -> Vec<[i128; 3]> {
    if call.entry == Entry::Ranking {
        return given_directions(call);
    }
    seen_directions(call)
}

fn given_directions(ranking: &Call) -> Vec<[i128; 3]> {
    let numbers = ranking.directions.values();
    numbers.chunks(3).map(|v| [v[0].into(), v[1].into(), v[2].into()]).collect()
}

fn seen_directions(chain: &Call) -> Vec<[i128; 3]> {
    let set = chain.settings();
    let list = frame::list(&chain.samples.values(), set.width, set.height, set.threshold);
    let seen = |x: i64, y: i64| direction(set.cx, set.cy, set.lens, x.into(), y.into());
    let stars = list.expect("the chain is solved").stars;
    stars.iter().map(|star| seen(star.x, star.y).expect("the chain is solved").map(i128::from)).collect()
}

//! Catalogues of the most stars: one tested, two compared, one cut.

use second::call::{Buffer, Call, Entry};
use second::generate::{changed, compare_of, cut_of, random_stars};
use second::random::Random;
use second::sky;

/// The dot product of stars about four degrees apart.
const CLOSE: i64 = 997_500_000_000_000_000;

pub fn inputs(random: &Random) -> Vec<(&'static str, Call)> {
    let first = sky::catalogue(random, &random_stars(random, 512));
    let test = Call { catalogue: Buffer::of(&first), ..Call::new(Entry::Catalogue) };
    vec![
        ("catalogue, 512 stars", test),
        ("compare, 512 stars, some changed", compare_of(&first, &changed(random, &first), 0)),
        ("compare, 512 stars, equal", compare_of(&first, &first, 0)),
        ("cut, 512 stars, some kept", cut_of(&first, 8_000, CLOSE)),
        ("cut, 512 stars, all kept", cut_of(&first, 12_000, i64::MAX)),
    ]
}

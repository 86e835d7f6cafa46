//! Rivals of a search over the sky, as a flight has it: alone, or with a second star close to one that is named.

use second::call::{Buffer, Call, Entry};
use second::generate::{random_stars, voted_ranking, View};
use second::hard::true_groups;
use second::random::Random;
use second::sky;

const STARS: usize = 512;

pub fn inputs(random: &Random) -> Vec<(&'static str, Call)> {
    vec![
        ("rival, 8 directions, 512 stars, alone", flight(random, false)),
        ("rival, the same with a double star", flight(random, true)),
        ("rival, two groups and their mirror images, T 10^11, alone", in_groups(random)),
    ]
}

/// All eight are assigned, and every other choice has to be ruled out.
fn in_groups(random: &Random) -> Call {
    Call { entry: Entry::Rival, ..true_groups(random, 8, 100_000_000_000, 2_000) }
}

fn flight(random: &Random, double: bool) -> Call {
    let mut view = View::of(random, random_stars(random, STARS), 8, 0);
    if double {
        // A star that is not seen moves close to one that is.
        let [seen, unseen] = [true, false].map(|seen| {
            (0..STARS).find(|record| view.truth.contains(&Some(*record)) == seen).expect("eight are seen")
        });
        view.stars[unseen] = sky::near(random, view.stars[seen], 100_000_000);
    }
    let mut call = Call { entry: Entry::Rival, ..view.search(random, 5) };
    call.tolerance = 100_000_000_000;
    let catalogue = call.catalogue.values();
    call.ranking = Buffer::of(&voted_ranking(&view.directions, &catalogue, call.tolerance));
    call
}

//! Laws that hold of any input: roots, verdicts and lists, votes and rows, the search against its
//! definition.

mod definition;

use definition::{fitting, product};
use second::answer::{numbers, Kind, Reason};
use second::call::Entry;
use second::generate::{
    flat, random_stars, rising_ranking, shuffled_ranking, simple_stars, small_frame, View,
};
use second::plain::root_by_halving;
use second::random::Random;
use second::sky::{self, record};
use second::{catalogue, dense, dot, frame, ranking, root, search};

#[test]
fn root_is_the_greatest_whole_number_within() {
    let random = Random::new(1);
    let check = |n: i128| {
        let r = root(n);
        assert!(r * r <= n && n < (r + 1) * (r + 1));
    };
    (0..2_000).for_each(check);
    for _ in 0..2_000 {
        let r = i128::from(random.between(0, 1 << 40));
        [r * r, r * r + 1, (r * r - 1).max(0), r * r + 2 * r].into_iter().for_each(check);
    }
    // Every length up to 64 bits, and the last roots of 64 bits.
    for bits in 0..64 {
        let n = 1_i128 << bits;
        [n - 1, n, n + 1].into_iter().for_each(check);
    }
    let last = (1_i128 << 32) - 1;
    for r in last - 1_000..=last {
        [r * r - 1, r * r, r * r + 1, r * r + 2 * r].into_iter().for_each(check);
    }
    assert_eq!(root(i128::from(u64::MAX)), last);
    assert_eq!(root(last * last - 1), last - 1);
}

#[test]
fn plain_roots_are_the_wide_ones() {
    let random = Random::new(11);
    let check = |n: u64| {
        assert_eq!(i128::from(root_by_halving(n)), root(i128::from(n)));
        assert_eq!(i128::from(n.isqrt()), root(i128::from(n)));
    };
    for _ in 0..2_000 {
        let r = random.next() >> 32;
        [r * r, r * r + 1, (r * r).saturating_sub(1), r * r + 2 * r].into_iter().for_each(check);
        check(random.next() >> random.below(64));
    }
    [0, 1, u64::MAX - 1, u64::MAX].into_iter().for_each(check);
}

#[test]
fn limits_of_the_square_are_exact() {
    let off = |v: [i32; 3]| {
        let wide = v.map(i128::from);
        dot(&wide, &wide) - 1_000_000_000_000_000_000
    };
    assert_eq!(off(sky::LONGEST), 4_000_000_000);
    assert_eq!(off(sky::SHORTEST), -4_000_000_000);
    assert_eq!(off(sky::TOO_LONG), 4_000_000_001);
    assert_eq!(off(sky::TOO_SHORT), -4_000_000_002);
    assert!(catalogue::catalogue(&record(0, sky::LONGEST)).is_ok());
    assert!(catalogue::catalogue(&record(0, sky::SHORTEST)).is_ok());
    assert!(catalogue::catalogue(&record(0, sky::TOO_LONG)).is_err());
    assert!(catalogue::catalogue(&record(0, sky::TOO_SHORT)).is_err());
}

#[test]
fn made_up_stars_keep_the_catalogue_rule() {
    let random = Random::new(2);
    for _ in 0..2_000 {
        let mut star = sky::anywhere(&random);
        if random.chance(50) {
            star = sky::near(&random, star, 1_000);
        }
        assert!(catalogue::catalogue(&record(1, star)).is_ok(), "{star:?}");
        assert!(catalogue::catalogue(&record(1, sky::simple(&random))).is_ok());
    }
}

#[test]
fn list_is_made_of_the_verdicts() {
    let random = Random::new(3);
    for _ in 0..300 {
        let call = small_frame(&random, Entry::List);
        let (samples, set) = (call.samples.values(), call.settings());
        let list = frame::list(&samples, set.width, set.height, set.threshold).unwrap();
        let mut measured = Vec::new();
        let (mut edge, mut lone) = (0, 0);
        for row in 0..set.height {
            for column in 0..set.width {
                match frame::verdict(&samples, set.width, set.height, set.threshold, row, column)
                    .unwrap()
                    .kind
                {
                    Kind::Measured(star) => measured.push(star),
                    Kind::Edge => edge += 1,
                    Kind::Lone => lone += 1,
                    Kind::Dark | Kind::Beaten => {}
                }
            }
        }
        assert_eq!((list.measured, list.edge, list.lone), (measured.len(), edge, lone));
        assert_eq!(list.stars.len(), measured.len().min(8));
        // A star's place: those brighter, and those equal that come before it in row order.
        for (k, star) in measured.iter().enumerate() {
            let before = |j: usize| {
                measured[j].brightness > star.brightness
                    || (measured[j].brightness == star.brightness && j < k)
            };
            let place = (0..measured.len()).filter(|&j| before(j)).count();
            assert_eq!(list.stars.get(place), (place < 8).then_some(star));
        }
    }
}

#[test]
fn peaks_keep_apart() {
    let random = Random::new(9);
    let mut given = [0; 5];
    for _ in 0..1_500 {
        let call = small_frame(&random, Entry::Verdict);
        let (samples, set) = (call.samples.values(), call.settings());
        let mut peaks: Vec<(i128, i128)> = Vec::new();
        for (row, column) in (0..set.height).flat_map(|row| (0..set.width).map(move |column| (row, column))) {
            let verdict =
                frame::verdict(&samples, set.width, set.height, set.threshold, row, column).unwrap();
            if matches!(verdict.kind, Kind::Edge | Kind::Lone | Kind::Measured(_)) {
                assert!(peaks.iter().all(|peak| (peak.0 - row).abs() > 3 || (peak.1 - column).abs() > 3));
                peaks.push((row, column));
                given[verdict.kind.number() as usize] += 1;
            }
        }
    }
    assert!(given[2..].iter().all(|&count| count > 100), "{given:?}");
}

/// The pixels of the window of a pixel that beat it, in row order: by hand, from the rule of beating.
fn beating(samples: &[u16], width: usize, height: usize, row: usize, column: usize) -> Vec<(usize, usize)> {
    let place = row * width + column;
    (0..width * height)
        .filter(|&other| {
            let beats = if other < place {
                samples[other] >= samples[place]
            } else {
                samples[other] > samples[place]
            };
            beats && (other / width).abs_diff(row) <= 3 && (other % width).abs_diff(column) <= 3
        })
        .map(|other| (other / width, other % width))
        .collect()
}

/// The samples of the eight neighbours of a pixel away from the sides, the largest last.
fn neighbours(samples: &[u16], width: usize, place: usize) -> [u16; 8] {
    let (above, below) = (place - width, place + width);
    let places = [above - 1, above, above + 1, place - 1, place + 1, below - 1, below, below + 1];
    let mut eight = places.map(|place| samples[place]);
    eight.sort_unstable();
    eight
}

#[test]
fn reasons_are_true() {
    let random = Random::new(7);
    let mut given = [0; 5];
    for _ in 0..1_500 {
        let call = small_frame(&random, Entry::Reason);
        let (samples, set) = (call.samples.values(), call.settings());
        let (width, height) = (set.width as usize, set.height as usize);
        for place in 0..samples.len() {
            let (row, column) = (place / width, place % width);
            let asked = (set.width, set.height, set.threshold, row as i128, column as i128);
            let reason = frame::reason(&samples, asked.0, asked.1, asked.2, asked.3, asked.4).unwrap();
            let kind = frame::verdict(&samples, asked.0, asked.1, asked.2, asked.3, asked.4).unwrap().kind;
            // The reason's kind is the verdict's.
            assert_eq!(numbers(&Ok(reason))[2], kind.number());
            given[kind.number() as usize] += 1;
            let between = [column, width - 1 - column, row, height - 1 - row];
            match reason {
                Reason::Dark { sample, threshold } => {
                    assert_eq!((sample, threshold), (samples[place].into(), set.threshold as i64));
                    assert!(sample < threshold);
                }
                Reason::Beaten { row: r, column: c } => {
                    assert_eq!(beating(&samples, width, height, row, column)[0], (r, c));
                }
                Reason::Edge(side) => {
                    let side = side as usize;
                    assert!(between[side] < 3 && between[..side].iter().all(|&pixels| pixels >= 3));
                    assert!(beating(&samples, width, height, row, column).is_empty());
                }
                Reason::Lone { largest } => {
                    assert!(between.iter().all(|&pixels| pixels >= 3));
                    assert_eq!(largest, i64::from(neighbours(&samples, width, place)[7]));
                    assert!(i128::from(largest) < set.threshold / 2);
                    assert!(beating(&samples, width, height, row, column).is_empty());
                }
                Reason::Measured(star) => {
                    assert_eq!(kind, Kind::Measured(star));
                    assert!(i128::from(neighbours(&samples, width, place)[7]) >= set.threshold / 2);
                    assert!(between.iter().all(|&pixels| pixels >= 3));
                    assert!(beating(&samples, width, height, row, column).is_empty());
                }
            }
        }
    }
    assert!(given.iter().all(|&count| count > 100), "{given:?}");
}

/// The sum of the border around the window of a pixel, which lies wholly in the frame.
fn border(samples: &[u16], width: usize, row: usize, column: usize) -> i64 {
    let mut sum = 0;
    for r in row - 3..=row + 3 {
        for c in column - 3..=column + 3 {
            if r.abs_diff(row) == 3 || c.abs_diff(column) == 3 {
                sum += i64::from(samples[r * width + c]);
            }
        }
    }
    sum
}

#[test]
fn whatever_is_measured_is_bright() {
    let random = Random::new(8);
    let mut least = i64::MAX;
    for round in 0..4_000 {
        // A peak whose border is as bright as it may be: equal to the peak after it, one less before it.
        let peak = random.pick(&[1, 2, 50, 4_095]);
        let dim = random.pick(&[0, 0, 5, 40]);
        let mut samples: Vec<u16> = (0..49).map(|k| if k < 24 { peak - 1 } else { peak }).collect();
        for sample in &mut samples {
            if random.chance(dim) {
                *sample = random.below(usize::from(peak) + 1) as u16;
            }
        }
        samples[24] = peak;
        if round == 0 {
            samples.fill(peak);
            samples[..24].fill(peak - 1);
        }
        if let Kind::Measured(star) = frame::verdict(&samples, 7, 7, i128::from(peak), 3, 3).unwrap().kind {
            // The peak alone weighs more than nothing.
            assert!(star.brightness >= 24 * i64::from(peak) - border(&samples, 7, 3, 3));
            assert!(24 * i64::from(peak) > border(&samples, 7, 3, 3));
            least = least.min(star.brightness);
        }
    }
    assert!(least > 0 && least < 200, "{least}");
}

/// The votes, word for word from the rule.
fn votes(directions: &[[i128; 3]], i: usize, stars: &[[i128; 3]], a: usize, tolerance: i128) -> usize {
    let mut count = 0;
    for j in 0..directions.len() {
        for b in 0..stars.len() {
            let difference = dot(&directions[i], &directions[j]) - dot(&stars[a], &stars[b]);
            if j != i && b != a && -tolerance <= difference && difference <= tolerance {
                count += 1;
            }
        }
    }
    count
}

#[test]
fn rows_are_sorted_by_votes() {
    let random = Random::new(4);
    for round in 0..120 {
        let count = 1 + random.below(15);
        let stars = if round % 2 == 0 { simple_stars(&random, count) } else { random_stars(&random, count) };
        let false_directions = random.below(3);
        let view = View::of(&random, stars, random.below(7), false_directions);
        let tolerance = random.pick(&[0, 1_000_000_000_000, 10_000_000_000_000_000]);
        let words = view.directions.len() * count;
        let mut room = vec![60_000; words + 3];
        let bytes = sky::catalogue(&random, &view.stars);
        ranking::ranking(&flat(&view.directions), &bytes, tolerance, &mut room).unwrap();
        assert_eq!(room[words..], [60_000; 3]);

        let directions: Vec<[i128; 3]> = view.directions.iter().map(|v| v.map(i128::from)).collect();
        let stars: Vec<[i128; 3]> = view.stars.iter().map(|v| v.map(i128::from)).collect();
        for (i, row) in room[..words].chunks(count).enumerate() {
            let key = |record: u16| {
                let votes = votes(&directions, i, &stars, record.into(), tolerance);
                (-(votes as i64), record)
            };
            // Strictly rising keys: sorted, and no record twice.
            assert!(row.windows(2).all(|pair| key(pair[0]) < key(pair[1])));
            assert!(row.iter().all(|&record| usize::from(record) < count));
        }
    }
}

#[test]
fn dense_searches_give_the_first_assignment_that_fits() {
    let random = Random::new(8);
    let (mut found, mut none) = (0, 0);
    for _ in 0..600 {
        let (directions, stars) = random.pick(&[(3, 3), (3, 8), (4, 5), (5, 3), (5, 4)]);
        let call = dense::search(&random, directions, stars);
        let lent = call.lend();
        let vectors = |numbers: &[i32]| numbers.chunks(3).map(|v| [v[0], v[1], v[2]]).collect::<Vec<_>>();
        let known: Vec<i32> = catalogue::read(&lent.catalogue)
            .unwrap()
            .iter()
            .flat_map(|star| star.direction.map(|component| component as i32))
            .collect();
        let rows: Vec<&[u16]> = lent.ranking.chunks(stars).collect();
        let (needed, tolerance) = (call.needed as usize, i128::from(call.tolerance));
        let fitting = fitting(&vectors(&lent.directions), &vectors(&known), needed, tolerance, &rows);
        let expected = fitting.first().cloned();
        let answer =
            search::search(&lent.directions, &lent.catalogue, needed as i128, tolerance, &lent.ranking);
        match &expected {
            Some(_) => found += 1,
            None => none += 1,
        }
        assert_eq!(answer.map_err(|refusal| refusal.number), expected.ok_or(13));
    }
    assert!(found > 100 && none > 100, "{found} found, {none} without an answer");
}

/// Stars for a small search: anywhere, with few angles, or in a patch so small that every pair agrees and the
/// triple products lie about the limit where they begin to tell.
fn stars_to_search(random: &Random, count: usize) -> Vec<[i32; 3]> {
    match random.below(3) {
        0 => random_stars(random, count),
        1 => simple_stars(random, count),
        _ => {
            let middle = sky::anywhere(random);
            (0..count).map(|_| sky::near(random, middle, 500)).collect()
        }
    }
}

#[test]
fn search_gives_the_first_assignment_that_fits() {
    let random = Random::new(5);
    let (mut found, mut none) = (0, 0);
    for _ in 0..1_500 {
        let count = 3 + random.below(3);
        let stars = stars_to_search(&random, count);
        let known = random.pick(&[2, 3, 4, 4]).min(count);
        let unknown = if count == 5 { 4 - known } else { random.below(2) };
        let mut view = View::of(&random, stars, known, unknown);
        if view.directions.len() < 3 {
            continue;
        }
        if random.chance(50) {
            view = view.mirrored();
        }
        let needed = 3 + random.below(view.directions.len() - 2);
        let tolerance = i128::from(random.pick(&[view.least_tolerance(), 0, 10_000_000_000_000_000]));
        let words = if random.chance(50) {
            shuffled_ranking(&random, view.directions.len(), count)
        } else {
            rising_ranking(view.directions.len(), count)
        };
        let rows: Vec<&[u16]> = words.chunks(count).collect();
        let fitting = fitting(&view.directions, &view.stars, needed, tolerance, &rows);
        let expected = fitting.first().cloned();
        let bytes = sky::catalogue(&random, &view.stars);
        let answer = search::search(&flat(&view.directions), &bytes, needed as i128, tolerance, &words);
        match &expected {
            Some(_) => found += 1,
            None => none += 1,
        }
        assert_eq!(answer.map_err(|refusal| refusal.number), expected.ok_or(13));
    }
    assert!(found > 200 && none > 200, "{found} found, {none} without an answer");
}

#[test]
fn products_at_the_limit_tell_mirror_images() {
    let unit = 1_000_000_000;
    let at_limit = |z: i32| [[unit, 0, 0], [0, unit, 0], [600_000_000, 800_000_000, z]];
    let below = [[999_999_999, 0, 0], [0, 999_999_999, 10_999], [600_000_999, 799_999_999, 9_999]];
    assert_eq!(product(at_limit(1_000)), 1_000_000_000_000);
    assert_eq!(product(at_limit(-1_999)), -1_000_000_000_000);
    assert_eq!(product(at_limit(-999)), 0);
    assert_eq!(product(below), 999_999_999_999);
    let fits = |seen: [[i32; 3]; 3], known: [[i32; 3]; 3]| {
        let bytes: Vec<u8> = known.iter().zip(1..).flat_map(|(star, k)| record(k, *star)).collect();
        search::search(&flat(&seen), &bytes, 3, 10_000_000_000_000, &rising_ranking(3, 3)).is_ok()
    };
    assert!(!fits(at_limit(1_000), at_limit(-1_000)));
    assert!(!fits(at_limit(-1_999), at_limit(1_999)));
    assert!(fits(at_limit(999), at_limit(-1_000)));
    assert!(fits(at_limit(1_000), at_limit(-999)));
    assert!(fits(below, at_limit(-1_000)));
    assert!(fits(at_limit(1_000), at_limit(1_000)));
}

//! The guider: by hand, its refusals, its laws, and the guided run.

use second::answer::{Numbers, Refusal};
use second::call::Entry;
use second::generate::{any_call, any_guider_frame, listed, refused_frame};
use second::guided::run;
use second::guider::{guider_frame, guider_start, Guide, Guider, Position, GUIDER_NUMBERS};
use second::random::Random;

fn guide(identity: i64, x: i64, y: i64, misses: i64) -> Guide {
    Guide { identity, position: [x, y], misses }
}

/// The guides after a list, for a half-width of 100.
fn after(guides: &[Guide], stars: &[Position]) -> Vec<Guide> {
    Guider { half_width: 100, guides: guides.to_vec() }.frame(Some(stars)).unwrap().guides
}

#[test]
fn a_box_is_closed() {
    let one = |x: i64, y: i64| after(&[guide(7, 1_000, 1_000, 2)], &[[x, y]])[0];
    for (x, y) in [(1_000, 1_000), (900, 900), (1_100, 900), (900, 1_100), (1_100, 1_100), (1_050, 1_100)] {
        assert_eq!(one(x, y), guide(7, x, y, 0));
    }
    for (x, y) in [(899, 1_000), (1_101, 1_000), (1_000, 899), (1_000, 1_101), (1_101, 1_101), (0, 0)] {
        assert_eq!(one(x, y), guide(7, 1_000, 1_000, 3));
    }
    // A half-width of 0: the very place.
    let narrow = Guider { half_width: 0, guides: vec![guide(7, 5, 6, 0)] };
    assert_eq!(narrow.frame(Some(&[[5, 6]])).unwrap().guides, [guide(7, 5, 6, 0)]);
    assert_eq!(narrow.frame(Some(&[[5, 7]])).unwrap().guides, [guide(7, 5, 6, 1)]);
}

#[test]
fn exactly_one_star_that_is_nobody_elses() {
    let alone = [guide(7, 1_000, 1_000, 0)];
    // Two stars in the box, one of them in the middle, or both in one place.
    assert_eq!(after(&alone, &[[1_000, 1_000], [1_090, 1_000]]), [guide(7, 1_000, 1_000, 1)]);
    assert_eq!(after(&alone, &[[1_001, 1_000]; 2]), [guide(7, 1_000, 1_000, 1)]);
    assert_eq!(after(&alone, &[]), [guide(7, 1_000, 1_000, 1)]);
    // A star in two boxes: neither guide follows, though each has only that one.
    let two = [guide(7, 1_000, 1_000, 0), guide(8, 1_150, 1_000, 3)];
    assert_eq!(after(&two, &[[1_080, 1_000]]), [guide(7, 1_000, 1_000, 1), guide(8, 1_150, 1_000, 4)]);
    // The first has its own star and the shared one; the second only the shared one.
    assert_eq!(
        after(&two, &[[950, 1_000], [1_080, 1_000]]),
        [guide(7, 1_000, 1_000, 1), guide(8, 1_150, 1_000, 4)]
    );
    assert_eq!(
        after(&two, &[[950, 1_000], [1_200, 1_000]]),
        [guide(7, 950, 1_000, 0), guide(8, 1_200, 1_000, 0)]
    );
    // A dropped guide's box does not count.
    let dropped = [guide(7, 1_000, 1_000, 4), guide(8, 1_150, 1_000, 5)];
    assert_eq!(after(&dropped, &[[1_080, 1_000]]), [guide(7, 1_080, 1_000, 0), guide(8, 1_150, 1_000, 5)]);
}

#[test]
fn boxes_are_judged_as_they_stood() {
    // The first guide moves to 1,100, from where its box would take in the second one's star at 1,190.
    let guides = [guide(7, 1_000, 0, 0), guide(8, 1_250, 0, 0)];
    let expected = [guide(7, 1_100, 0, 0), guide(8, 1_190, 0, 0)];
    assert_eq!(after(&guides, &[[1_100, 0], [1_190, 0]]), expected);
    // The second is dropped by this frame, but was live before it: the star in both boxes is followed by none.
    let guides = [guide(7, 1_000, 0, 0), guide(8, 1_150, 0, 4)];
    assert_eq!(after(&guides, &[[1_100, 0]]), [guide(7, 1_000, 0, 1), guide(8, 1_150, 0, 5)]);
    assert_eq!(after(&after(&guides, &[[1_100, 0]]), &[[1_100, 0]])[0], guide(7, 1_100, 0, 0));
}

#[test]
fn dropped_at_the_fifth_miss_and_for_good() {
    let mut guides = vec![guide(7, 1_000, 1_000, 0)];
    for misses in 1..=5 {
        guides = after(&guides, &[]);
        assert_eq!(guides, [guide(7, 1_000, 1_000, misses)]);
    }
    assert_eq!(after(&guides, &[]), guides);
    assert_eq!(after(&guides, &[[1_000, 1_001]]), guides);
    // Four misses and then its star: from the beginning again.
    assert_eq!(after(&[guide(7, 1_000, 1_000, 4)], &[[1_000, 1_001]]), [guide(7, 1_000, 1_001, 0)]);
    // A refused frame is none.
    let guider = Guider { half_width: 100, guides: vec![guide(7, 1_000, 1_000, 4)] };
    assert_eq!(guider.frame(None), Ok(guider));
}

fn start(half_width: i64, guides: &[[i64; 3]]) -> Result<[i64; GUIDER_NUMBERS], Refusal> {
    let mut numbers = [-3; GUIDER_NUMBERS];
    let answer = guider_start(half_width, guides.as_flattened(), &mut numbers);
    assert!(answer.is_ok() || numbers == [-3; GUIDER_NUMBERS]);
    answer.map(|()| numbers)
}

#[test]
fn a_start_by_hand() {
    let expected = [640, 2, 11, 5_120, 4_096, 0, 22, 0, 261_888, 0, 0, 0, 0, 0, 0, 0, 0, 0];
    assert_eq!(start(640, &[[11, 5_120, 4_096], [22, 0, 261_888]]), Ok(expected));
    let mut none = [0; GUIDER_NUMBERS];
    none[0] = 2_560;
    assert_eq!(start(2_560, &[]), Ok(none));
    let refused = Err(Refusal::new(22));
    for half_width in [-1, 2_561, i64::MIN, i64::MAX] {
        assert_eq!(start(half_width, &[]), refused);
    }
    let four = [[1, 5, 5], [2, 5, 5], [3, 5, 5], [4, 5, 5]];
    assert!(start(0, &four).is_ok());
    assert_eq!(start(0, &[&four[..], &[[5, 5, 5]]].concat()), refused);
    for beyond in [-1, 261_889] {
        assert_eq!(start(0, &[[1, beyond, 0]]), refused);
        assert_eq!(start(0, &[[1, 0, 0], [2, 0, beyond]]), refused);
    }
    assert_eq!(start(0, &[[1, 0, 0], [2, 9, 9], [1, 500, 500]]), refused);
    assert!(start(0, &[[u32::MAX.into(), 0, 0], [0, 0, 0]]).is_ok());
    assert_eq!(start(0, &[[1 << 32, 0, 0]]), refused);
}

/// The guider's numbers after a frame; they stay as they were where it is refused.
fn frame(before: [i64; GUIDER_NUMBERS], list: &Numbers) -> Result<[i64; GUIDER_NUMBERS], Refusal> {
    let mut numbers = before;
    let answer = guider_frame(&mut numbers, list);
    assert!(answer.is_ok() || numbers == before);
    answer.map(|()| numbers)
}

#[test]
fn what_is_handed_in_is_tested() {
    let sound = [100, 2, 11, 500, 600, 4, 22, 900, 600, 5, 0, 0, 0, 0, 0, 0, 0, 0];
    let list = listed(&[[520, 610]]);
    let with = |place: usize, value: i64, list: &Numbers| {
        let mut numbers = sound;
        numbers[place] = value;
        frame(numbers, list)
    };
    let mut expected = sound;
    expected[3..6].copy_from_slice(&[520, 610, 0]);
    assert_eq!(frame(sound, &list), Ok(expected));
    let broken =
        [(0, -1), (0, 2_561), (1, -1), (1, 5), (3, -1), (4, 261_889), (5, 6), (5, -1), (6, 11), (9, 6)];
    for (place, value) in broken {
        assert_eq!(with(place, value, &list), Err(Refusal::new(22)));
        // A refused frame is no frame, but the guider is tested.
        assert_eq!(with(place, value, &refused_frame(3)), Err(Refusal::new(22)));
    }
    assert_eq!(frame(sound, &refused_frame(3)), Ok(sound));
    // Lists: too many stars, or one that cannot be.
    let spoilt = |place: usize, value: i64| {
        let mut list = listed(&[[520, 610], [0, 261_888]]);
        list[place] = value;
        frame(sound, &list)
    };
    assert_eq!(spoilt(8, -5), Ok(expected));
    for (place, value) in [(2, 9), (2, -1), (6, -1), (7, 261_889), (9, 261_889), (10, -1)] {
        assert_eq!(spoilt(place, value), Err(Refusal::new(22)));
    }
    assert_eq!(frame(sound, &listed(&[[520, 610]; 8])).map(|numbers| numbers[5]), Ok(5));
}

/// The guider and the list of a sound call.
fn any_step(random: &Random) -> (Guider, Vec<Position>) {
    loop {
        let call = any_guider_frame(random);
        let list = call.list.values();
        if list[0] == 0 {
            let guider = Guider::read(&call.guider.values().try_into().unwrap()).unwrap();
            let stars = list[6..].chunks(3).take(list[2] as usize).map(|star| [star[0], star[1]]).collect();
            return (guider, stars);
        }
    }
}

#[test]
fn the_rule_in_plain_terms() {
    let random = Random::new(101);
    let (mut followed, mut missed, mut dropped) = (0, 0, 0);
    for _ in 0..20_000 {
        let (guider, stars) = any_step(&random);
        let after = guider.frame(Some(&stars)).unwrap();
        let inside = |guide: &Guide, star: &Position| {
            let [x, y] = [star[0] - guide.position[0], star[1] - guide.position[1]];
            x.abs().max(y.abs()) <= guider.half_width
        };
        for (k, guide) in guider.guides.iter().enumerate() {
            let own: Vec<&Position> = stars.iter().filter(|star| inside(guide, star)).collect();
            let live = |j: usize| guider.guides[j].misses < 5;
            let follows = live(k)
                && own.len() == 1
                && (0..guider.guides.len()).all(|j| j == k || !live(j) || !inside(&guider.guides[j], own[0]));
            let expected = match (live(k), follows) {
                (false, _) => *guide,
                (true, true) => Guide { position: *own[0], misses: 0, ..*guide },
                (true, false) => Guide { misses: guide.misses + 1, ..*guide },
            };
            assert_eq!(after.guides[k], expected);
            followed += u32::from(follows);
            missed += u32::from(live(k) && !follows);
            dropped += u32::from(!live(k));
        }
    }
    assert!(followed > 2_000 && missed > 2_000 && dropped > 1_000, "{followed} {missed} {dropped}");
}

#[test]
fn the_order_of_the_guides_and_of_the_list_changes_nothing() {
    let random = Random::new(102);
    for _ in 0..3_000 {
        let (guider, stars) = any_step(&random);
        let after = guider.frame(Some(&stars)).unwrap();
        let (mut order, mut turned_stars) = ((0..guider.guides.len()).collect::<Vec<_>>(), stars);
        random.shuffle(&mut order);
        random.shuffle(&mut turned_stars);
        let turned = |guides: &[Guide]| order.iter().map(|&k| guides[k]).collect::<Vec<_>>();
        let other = Guider { half_width: guider.half_width, guides: turned(&guider.guides) };
        assert_eq!(other.frame(Some(&turned_stars)).unwrap().guides, turned(&after.guides));
    }
}

#[test]
fn number_5_is_never_given() {
    let random = Random::new(103);
    for _ in 0..4_000 {
        for entry in [Entry::GuiderStart, Entry::GuiderFrame] {
            let outcome = any_call(&random, entry).run_plain();
            assert!([0, 22].contains(&outcome.out[0]) && outcome.out[1] == 0);
        }
    }
}

#[test]
fn the_guided_run() {
    let run = run();
    let steps = run.steps();
    assert_eq!(steps.len(), 36);
    let misses =
        |frame: usize| steps[frame].after.guides.iter().map(|guide| guide.misses).collect::<Vec<_>>();
    // All follow; the second is lost from frame 8 on and dropped at its fifth miss; its record stays.
    assert!((0..8).all(|frame| misses(frame) == [0; 4]));
    assert_eq!((8..14).map(|frame| misses(frame)[1]).collect::<Vec<_>>(), [1, 2, 3, 4, 5, 5]);
    assert!(steps[12..].iter().all(|step| step.after.guides[1] == steps[12].after.guides[1]));
    // The last two wait four frames and go on.
    assert_eq!(
        (15..21).map(|frame| misses(frame)[2..].to_vec()).collect::<Vec<_>>(),
        [[0, 0], [1, 1], [2, 2], [3, 3], [4, 4], [0, 0]]
    );
    // The first has a short cloud; the refused frame is no miss.
    assert_eq!((19..23).map(|frame| misses(frame)[0]).collect::<Vec<_>>(), [0, 1, 2, 0]);
    assert!(steps[30].list[0] == 4 && steps[30].before == steps[30].after);
    // In the end the three are where their own stars are, within half a pixel.
    let last = &steps[35].after.guides;
    let own = [
        [5_120 + 35 * 115, 4_608 + 35 * 77],
        [10_240 + 35 * 51, 12_800 - 35 * 64],
        [12_813 - 35 * 51, 11_648 + 35 * 64],
    ];
    for (k, star) in [0, 2, 3].into_iter().zip(own) {
        let [x, y] = last[k].position;
        assert!((x - star[0]).abs().max((y - star[1]).abs()) < 128, "{k}");
        assert_eq!(last[k].misses, 0);
    }
    assert_eq!(run.output().lines().count(), 36);
    assert!(run.output().starts_with("0 0 101 5120 4608 0 202 8832 6144 0 303 "));
}

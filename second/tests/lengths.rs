//! Lists and rooms of a wrong length are refused, by both implementations alike, and nothing lent is written.

use second::call::{Call, Entry};
use second::generate::any_call;
use second::random::Random;
use second::search::Effort;

/// The number that a call of this kind is refused with once a length is changed.
fn refused(entry: Entry, change: impl Fn(&mut Call)) -> i64 {
    let mut call = any_call(&Random::new(7), entry);
    change(&mut call);
    let wide = call.run_wide(&mut Effort::up_to(1)).expect("nothing is searched");
    assert_eq!(call.run_plain(), wide);
    assert_eq!(wide.lent, call.lend());
    wide.out[0]
}

#[test]
fn an_attitude_of_twelve_numbers() {
    for len in [0, 1, 11, 13, 24] {
        assert_eq!(refused(Entry::Attitude, |call| call.vectors = call.vectors.resized(len)), 8);
    }
}

#[test]
fn cosines_of_nine_entries_in_room_for_nine() {
    for len in [0, 8, 10] {
        assert_eq!(refused(Entry::Cosines, |call| call.matrix = call.matrix.resized(len)), 23);
    }
    for len in [0, 8] {
        assert_eq!(refused(Entry::Cosines, |call| call.rows = call.rows.resized(len)), 18);
    }
}

#[test]
fn a_target_of_three_floats_by_nine_in_room_for_three() {
    for len in [0, 2, 4] {
        assert_eq!(refused(Entry::Turned, |call| call.target = call.target.resized(len)), 8);
    }
    for len in [0, 8, 10] {
        assert_eq!(refused(Entry::Turned, |call| call.rows = call.rows.resized(len)), 23);
    }
    for len in [0, 2] {
        assert_eq!(refused(Entry::Turned, |call| call.turned = call.turned.resized(len)), 18);
    }
}

#[test]
fn a_guider_of_eighteen_numbers_and_a_list_of_64() {
    for len in [0, 17, 19] {
        assert_eq!(refused(Entry::GuiderStart, |call| call.guider = call.guider.resized(len)), 22);
        assert_eq!(refused(Entry::GuiderFrame, |call| call.guider = call.guider.resized(len)), 22);
    }
    for len in [0, 63, 65] {
        assert_eq!(refused(Entry::GuiderFrame, |call| call.list = call.list.resized(len)), 22);
    }
}

//! The recorded cases: the file reads back as the calls it was made from, keeps its limits, and plain Rust
//! gives the recorded outcomes.

use second::call::{Call, Entry, Lent, ENTRIES};
use second::recorded::{self, input, output, Case};
use second::search::Effort;
use std::sync::OnceLock;

/// The cases, made once for all tests.
fn cases() -> &'static [Case] {
    static CASES: OnceLock<Vec<Case>> = OnceLock::new();
    CASES.get_or_init(recorded::cases)
}

/// A reader of the file of cases, as small as the one the proved library is run with.
struct Reader<'a> {
    rest: &'a [u8],
}

impl Reader<'_> {
    /// The next number of so many bytes, high byte first, with its sign.
    fn number(&mut self, bytes: usize) -> i64 {
        let (now, rest) = self.rest.split_at(bytes);
        self.rest = rest;
        let unsigned = now.iter().fold(0, |n, &byte| n << 8 | u64::from(byte));
        let unused = 64 - 8 * bytes as u32;
        (unsigned << unused) as i64 >> unused
    }

    fn buffer(&mut self, width: usize, most: i64) -> Vec<i64> {
        let (len, period) = (self.number(8), self.number(8));
        assert!(len <= most && (0..=len).contains(&period));
        let pattern: Vec<i64> = (0..period).map(|_| self.number(width)).collect();
        let mut values: Vec<i64> =
            (0..len).map(|k| if period == 0 { 0 } else { pattern[(k % period) as usize] }).collect();
        let patches = self.number(8);
        assert!((0..=4_096).contains(&patches));
        for _ in 0..patches {
            let index = self.number(8) as usize;
            values[index] = self.number(width);
        }
        values
    }

    fn samples(&mut self) -> Vec<u16> {
        self.buffer(2, 1_050_000).into_iter().map(|n| n as u16).collect()
    }

    fn words(&mut self) -> Vec<u16> {
        self.buffer(2, 4_200).into_iter().map(|n| n as u16).collect()
    }

    fn directions(&mut self) -> Vec<i32> {
        self.buffer(4, 40).into_iter().map(|n| n as i32).collect()
    }

    fn catalogue(&mut self) -> Vec<u8> {
        self.buffer(1, 20 * 520).into_iter().map(|n| n as u8).collect()
    }

    /// An index, or a room for one, for a burst's records or for a list of changes.
    fn bytes(&mut self) -> Vec<u8> {
        self.buffer(1, 12_288).into_iter().map(|n| n as u8).collect()
    }

    fn floats(&mut self) -> Vec<u64> {
        self.buffer(8, 9).into_iter().map(|n| n as u64).collect()
    }

    fn scalars(&mut self, count: usize) -> Vec<u64> {
        (0..count).map(|_| self.number(8) as u64).collect()
    }

    /// Reads the buffers of a call and compares them with the ones it lends.
    fn check_buffers(&mut self, entry: Entry, lent: &Lent) {
        match entry {
            Entry::Verdict | Entry::List | Entry::Reason => assert_eq!(self.samples(), lent.samples),
            Entry::Direction | Entry::Lens => {}
            Entry::Catalogue | Entry::Cut => assert_eq!(self.catalogue(), lent.catalogue),
            Entry::Ranking => {
                assert_eq!(self.directions(), lent.directions);
                assert_eq!(self.catalogue(), lent.catalogue);
                assert_eq!(self.words(), lent.room);
            }
            Entry::Search | Entry::Rival => {
                assert_eq!(self.directions(), lent.directions);
                assert_eq!(self.catalogue(), lent.catalogue);
                assert_eq!(self.words(), lent.ranking);
            }
            Entry::Attitude => assert_eq!(self.buffer(8, 12), lent.vectors),
            Entry::Chain => {
                assert_eq!(self.samples(), lent.samples);
                assert_eq!(self.catalogue(), lent.catalogue);
                assert_eq!(self.words(), lent.room);
            }
            Entry::Index => {
                assert_eq!(self.catalogue(), lent.catalogue);
                assert_eq!(self.bytes(), lent.bytes);
            }
            Entry::RankingByIndex => {
                assert_eq!(self.directions(), lent.directions);
                assert_eq!(self.catalogue(), lent.catalogue);
                assert_eq!(self.bytes(), lent.index);
                assert_eq!(self.words(), lent.room);
            }
            Entry::ChainByIndex => {
                assert_eq!(self.samples(), lent.samples);
                assert_eq!(self.catalogue(), lent.catalogue);
                assert_eq!(self.bytes(), lent.index);
                assert_eq!(self.words(), lent.room);
            }
            Entry::Burst => {
                assert_eq!(self.samples(), lent.samples);
                assert_eq!(self.catalogue(), lent.catalogue);
                assert_eq!(self.words(), lent.room);
                assert_eq!(self.bytes(), lent.bytes);
            }
            Entry::GuiderStart => {
                assert_eq!(self.buffer(8, 18), lent.guides);
                assert_eq!(self.buffer(8, 18), lent.guider);
            }
            Entry::GuiderFrame => {
                assert_eq!(self.buffer(8, 18), lent.guider);
                assert_eq!(self.buffer(8, 64), lent.list);
            }
            Entry::Compare => {
                assert_eq!(self.catalogue(), lent.catalogue);
                assert_eq!(self.catalogue(), lent.other);
                assert_eq!(self.bytes(), lent.bytes);
            }
            Entry::Cosines => {
                assert_eq!(self.buffer(8, 9), lent.matrix);
                assert_eq!(self.floats(), lent.rows);
            }
            Entry::Turned => {
                assert_eq!(self.floats(), lent.rows);
                assert_eq!(self.floats(), lent.target);
                assert_eq!(self.floats(), lent.turned);
            }
        }
    }
}

fn scalar_count(entry: Entry) -> usize {
    [5, 3, 7, 0, 1, 2, 0, 10, 5, 1, 2, 11, 10, 0, 0, 3, 0, 2, 2, 1, 0][entry.index()]
}

#[test]
fn recorded_cases_are_sound() {
    let cases = cases();
    let bytes = input(cases);
    let text = output(cases);
    assert!(bytes.len() < 6_000_000, "{} bytes of input", bytes.len());
    assert!(text.len() < 1_500_000, "{} bytes of output", text.len());

    let mut reader = Reader { rest: &bytes };
    for case in cases {
        let call: &Call = &case.call;
        assert_eq!(reader.number(1), i64::from(call.entry.kind()));
        assert_eq!(reader.scalars(scalar_count(call.entry)), call.scalars());
        reader.check_buffers(call.entry, &call.lend());
        assert!(call.run_plain() == case.outcome, "{:?} {:?}", call.entry, call.scalars());
    }
    assert_eq!(reader.rest, [0]);

    for entry in ENTRIES {
        for &number in [0].iter().chain(entry.refusals()) {
            let given = cases
                .iter()
                .filter(|case| case.call.entry == entry && case.outcome.out[0] == i64::from(number))
                .count();
            assert!(given >= 10, "{entry:?} gives {number} in {given} cases");
        }
    }
    assert_eq!(text.lines().count(), cases.len() + 1);
    assert_eq!(text.lines().last(), Some(format!("cases {}", cases.len()).as_str()));
}

#[test]
fn the_first_lines_are_the_bench_set() {
    let text = output(&cases()[..49]);
    // Frame A, its pixels in row order: only the middle one is lit, and it is lone.
    assert_eq!(text.lines().nth(24), Some("1 0 0 3 3 3 0 0 0"));
    assert_eq!(text.lines().nth(23), Some("1 0 0 3 2 0 0 0 0"));
}

#[test]
fn calls_by_an_index_give_what_plain_calls_give() {
    let mut compared = 0;
    for case in cases() {
        let plain = match case.call.entry {
            Entry::RankingByIndex => Entry::Ranking,
            Entry::ChainByIndex => Entry::Chain,
            _ => continue,
        };
        // Where the index is right, or is not come to, nothing is different.
        if case.outcome.out[0] != 17 {
            let call = Call { entry: plain, ..case.call.clone() };
            assert!(call.run_wide(&mut Effort::unlimited()).unwrap() == case.outcome);
            compared += 1;
        }
    }
    assert!(compared > 300, "{compared}");
}

#[test]
fn bursts_have_every_refusal_of_a_frame() {
    let mut given = [0; 20];
    for case in cases().iter().filter(|case| case.call.entry == Entry::Burst) {
        let records = case.outcome.out[2] as usize;
        for record in case.outcome.lent.bytes[..80 * records].chunks(80) {
            given[usize::from(record[3])] += 1;
        }
    }
    for number in [0, 3, 4, 5, 6, 7, 9, 10, 12, 13, 14, 19] {
        assert!(given[number] >= 10, "{given:?}");
    }
}

//! The program's listing: the whole one of the scope document, and what refusals print. The desk's rival on the same
//! files, and the lines that the example in C prints for a burst.

use second::desk;
use second::flight::burst_lines;
use second::listing::listing;
use second::search::Effort;
use second::sky::record;

const LEFT: [i32; 3] = [-600_000_000, 0, 800_000_000];
const RIGHT: [i32; 3] = [600_000_000, 0, 800_000_000];
const BELOW: [i32; 3] = [0, 600_000_000, 800_000_000];

/// The three files of a run.
#[derive(Clone)]
struct Files {
    settings: Vec<u8>,
    catalogue: Vec<u8>,
    frame: Vec<u8>,
}

impl Files {
    /// The files of the document's listing.
    fn of_document() -> Files {
        let mut files = Files {
            settings: settings(160, 120, 50, 3, [20_480, 15_360, 16_384], 0),
            catalogue: [record(11, LEFT), record(22, RIGHT), record(33, BELOW)].concat(),
            frame: vec![0; 2 * 160 * 120],
        };
        for (row, column) in [(60, 32), (60, 128), (108, 80)] {
            files.set_star(160 * row + column, 100);
        }
        files
    }

    fn set_sample(&mut self, index: usize, sample: u16) {
        self.frame[2 * index..2 * index + 2].copy_from_slice(&sample.to_be_bytes());
    }

    /// A pixel with half its light to the left and to the right.
    fn set_star(&mut self, index: usize, sample: u16) {
        self.set_sample(index - 1, sample / 2);
        self.set_sample(index, sample);
        self.set_sample(index + 1, sample / 2);
    }

    fn listing(&self) -> String {
        listing(&self.settings, &self.catalogue, &self.frame)
    }

    fn burst_lines(&self, burst: &[u8]) -> String {
        burst_lines(&self.settings, &self.catalogue, &self.frame, burst, &mut Effort::unlimited())
            .expect("an unlimited search ends with an answer")
    }

    fn rival(&self) -> String {
        desk::rival(&self.settings, &self.catalogue, &self.frame)
    }
}

fn settings(
    width: u16,
    height: u16,
    threshold: u16,
    needed: u16,
    optics: [u32; 3],
    tolerance: u64,
) -> Vec<u8> {
    let mut bytes: Vec<u8> =
        [width, height, threshold, needed].iter().flat_map(|n| n.to_be_bytes()).collect();
    bytes.extend(optics.iter().flat_map(|n| n.to_be_bytes()));
    bytes.extend([1, 2, 3, 4]);
    bytes.extend(tolerance.to_be_bytes());
    bytes
}

#[test]
fn whole_listing() {
    let expected = "measured 3 edge 0 lone 0\n\
                    0 8192 15360 4800 11\n\
                    1 32768 15360 4800 22\n\
                    2 20480 27648 4800 33\n\
                    1000000000 0 0\n\
                    0 1000000000 0\n\
                    0 0 1000000000\n";
    assert_eq!(Files::of_document().listing(), expected);
}

#[test]
fn exchanged_stars_are_named_by_their_directions() {
    let mut files = Files::of_document();
    files.catalogue = [record(11, RIGHT), record(22, LEFT), record(33, BELOW)].concat();
    let expected = "measured 3 edge 0 lone 0\n\
                    0 8192 15360 4800 22\n\
                    1 32768 15360 4800 11\n\
                    2 20480 27648 4800 33\n\
                    1000000000 0 0\n\
                    0 1000000000 0\n\
                    0 0 1000000000\n";
    assert_eq!(files.listing(), expected);
}

#[test]
fn mirrored_sky_does_not_fit() {
    let mut files = Files::of_document();
    let mirrored = [[100_000_000, 0], [-300_000_000, 400_000_000], [500_000_000, 100_000_000]];
    let upright = |[x, y]: [i64; 2]| {
        let z = (1_000_000_000_000_000_000 - x * x - y * y).isqrt();
        [x as i32, y as i32, z as i32]
    };
    // Three pixels whose directions are these stars' with the x axis turned round, near enough.
    files.settings = settings(160, 120, 50, 3, [20_480, 15_360, 16_384], 10_000_000_000_000_000);
    files.frame.fill(0);
    for [x, y, z] in mirrored.map(upright).map(|star| star.map(i64::from)) {
        let (column, row) = (80 - (64 * x + z / 2) / z, 60 + (64 * y + z / 2) / z);
        files.set_star((160 * row + column) as usize, 100);
    }
    let stars = mirrored.map(upright);
    files.catalogue = [record(1, stars[0]), record(2, stars[1]), record(3, stars[2])].concat();
    assert!(files.listing().ends_with("refused 13 0\n"), "{}", files.listing());
    // The sky itself is found.
    let turned = stars.map(|[x, y, z]| [-x, y, z]);
    files.catalogue = [record(1, turned[0]), record(2, turned[1]), record(3, turned[2])].concat();
    assert!(!files.listing().contains("refused"), "{}", files.listing());
}

#[test]
fn unassigned_star_shows_a_dash() {
    let mut files = Files::of_document();
    files.set_star(160 * 20 + 20, 90);
    let shown = files.listing();
    assert!(shown.starts_with("measured 4 edge 0 lone 0\n"));
    assert!(shown.contains("\n3 5120 5120 4320 -\n1000000000 0 0\n"));
}

#[test]
fn hot_pixels_are_counted_and_not_listed() {
    let whole = Files::of_document().listing();
    let mut files = Files::of_document();
    // Brighter than every star, away from them, one of them at the edge.
    for index in [160 * 20 + 20, 160 * 20 + 40, 160 * 90 + 140, 160 * 2 + 80] {
        files.set_sample(index, 4_095);
    }
    assert_eq!(files.listing(), whole.replace("edge 0 lone 0", "edge 1 lone 3"));
    // Without the light beside it a star is a hot pixel too.
    files.set_sample(160 * 60 + 31, 24);
    files.set_sample(160 * 60 + 33, 24);
    assert!(files.listing().starts_with("measured 2 edge 1 lone 4\n"));
}

#[test]
fn refusal_12_prints_the_first_lines() {
    let mut files = Files::of_document();
    files.settings[7] = 4;
    let expected = "measured 3 edge 0 lone 0\n\
                    0 8192 15360 4800 -\n\
                    1 32768 15360 4800 -\n\
                    2 20480 27648 4800 -\n\
                    refused 12 0\n";
    assert_eq!(files.listing(), expected);
    files.frame.fill(0);
    assert_eq!(files.listing(), "measured 0 edge 0 lone 0\nrefused 12 0\n");
}

#[test]
fn refusal_13_prints_the_first_lines() {
    let mut files = Files::of_document();
    files.catalogue = [record(11, LEFT), record(22, RIGHT)].concat();
    let expected = "measured 3 edge 0 lone 0\n\
                    0 8192 15360 4800 -\n\
                    1 32768 15360 4800 -\n\
                    2 20480 27648 4800 -\n\
                    refused 13 0\n";
    assert_eq!(files.listing(), expected);
}

#[test]
fn refusal_14_shows_the_stars_found() {
    let mut files = Files::of_document();
    // A narrow view, a wide tolerance, and stars that all stand in one place.
    files.settings = settings(160, 120, 50, 3, [20_480, 15_360, 4_194_304], 10_000_000_000_000_000);
    files.catalogue = [record(11, LEFT), record(22, LEFT), record(33, LEFT)].concat();
    let expected = "measured 3 edge 0 lone 0\n\
                    0 8192 15360 4800 11\n\
                    1 32768 15360 4800 22\n\
                    2 20480 27648 4800 33\n\
                    refused 14 0\n";
    assert_eq!(files.listing(), expected);
}

#[test]
fn earlier_refusals_print_one_line() {
    let sound = Files::of_document();
    let refused = |damage: &dyn Fn(&mut Files)| {
        let mut files = sound.clone();
        damage(&mut files);
        files.listing()
    };
    let narrow_optics = [20_480, 15_360, 16_384];
    assert_eq!(refused(&|f| f.settings.clear()), "refused 1 0\n");
    assert_eq!(refused(&|f| f.settings.push(0)), "refused 1 0\n");
    assert_eq!(refused(&|f| f.settings = settings(6, 120, 50, 3, narrow_optics, 0)), "refused 1 0\n");
    assert_eq!(refused(&|f| f.frame.clear()), "refused 2 0\n");
    assert_eq!(refused(&|f| f.frame.push(0)), "refused 2 0\n");
    assert_eq!(
        refused(&|f| {
            // 200 x 161 samples are more than the program takes.
            f.settings = settings(200, 161, 50, 3, narrow_optics, 0);
            f.frame = vec![0; 2 * 200 * 161];
        }),
        "refused 2 0\n"
    );
    assert_eq!(refused(&|f| f.settings[5] = 0), "refused 3 0\n");
    assert_eq!(refused(&|f| f.set_sample(77, 4_096)), "refused 4 77\n");
    for focal in [0, 1, 16_383, 4_194_305, u32::MAX] {
        let optics = [20_480, 15_360, focal];
        assert_eq!(refused(&|f| f.settings = settings(160, 120, 50, 3, optics, 0)), "refused 19 0\n");
    }
    assert_eq!(refused(&|f| f.settings[8] = 255), "refused 5 0\n");
    // The lens after the frame and before the centre.
    assert_eq!(refused(&|f| f.settings[8..20].fill(255)), "refused 19 0\n");
    assert_eq!(
        refused(&|f| {
            f.settings[8..20].fill(255);
            f.set_sample(5, 4_096);
        }),
        "refused 4 5\n"
    );
    assert_eq!(refused(&|f| f.catalogue.clear()), "refused 6 0\n");
    assert_eq!(refused(&|f| f.catalogue[43] = 22), "refused 7 2\n");
    assert_eq!(refused(&|f| f.settings[7] = 2), "refused 9 0\n");
    assert_eq!(refused(&|f| f.settings[24] = 255), "refused 9 0\n");
    // Several at once: the lowest number is given.
    assert_eq!(
        refused(&|f| {
            f.settings[7] = 2;
            f.catalogue.clear();
            f.set_sample(3, 65_535);
        }),
        "refused 4 3\n"
    );
}

#[test]
fn the_largest_frame_is_taken() {
    let files = Files {
        settings: settings(200, 160, 50, 3, [20_480, 15_360, 16_384], 0),
        catalogue: record(0, LEFT).to_vec(),
        frame: vec![0; 2 * 32_000],
    };
    assert_eq!(files.listing(), "measured 0 edge 0 lone 0\nrefused 12 0\n");
}

#[test]
fn the_rival_of_the_listing() {
    let mut files = Files::of_document();
    // With the stars to the left and right exchanged every three is mirrored.
    assert_eq!(files.rival(), "alone\n");
    // A second star below, in the same place.
    files.catalogue = [record(11, LEFT), record(22, RIGHT), record(33, BELOW), record(44, BELOW)].concat();
    assert!(files.listing().contains("\n2 20480 27648 4800 33\n"));
    assert_eq!(files.rival(), "0 8192 15360 4800 11\n1 32768 15360 4800 22\n2 20480 27648 4800 44\n");
    // A fourth star on the frame that the catalogue does not know has no name.
    files.set_star(160 * 20 + 20, 60);
    let rival = files.rival();
    assert!(
        rival.starts_with("0 8192 15360 4800 11\n") && rival.contains(" 44\n3 5120 5120 2880 -\n"),
        "{rival}"
    );
}

#[test]
fn the_rival_needs_no_attitude() {
    let mut files = Files::of_document();
    // All stars stand in one place and everything agrees: 14 for the chain, and 11, 33, 22 for the rival.
    files.settings = settings(160, 120, 50, 3, [20_480, 15_360, 4_194_304], 10_000_000_000_000_000);
    files.catalogue = [record(11, LEFT), record(22, LEFT), record(33, LEFT)].concat();
    assert!(files.listing().ends_with("refused 14 0\n"));
    assert_eq!(files.rival(), "0 8192 15360 4800 11\n1 32768 15360 4800 33\n2 20480 27648 4800 22\n");
}

#[test]
fn the_rival_is_refused_as_the_chain_is() {
    let refused = |damage: &dyn Fn(&mut Files)| {
        let mut files = Files::of_document();
        damage(&mut files);
        files.rival()
    };
    assert_eq!(refused(&|f| f.settings.clear()), "refused 1 0\n");
    assert_eq!(refused(&|f| f.frame.clear()), "refused 2 0\n");
    assert_eq!(refused(&|f| f.settings[5] = 0), "refused 3 0\n");
    assert_eq!(refused(&|f| f.set_sample(77, 4_096)), "refused 4 77\n");
    assert_eq!(refused(&|f| f.settings[16] = 255), "refused 19 0\n");
    assert_eq!(refused(&|f| f.settings[8] = 255), "refused 5 0\n");
    assert_eq!(refused(&|f| f.catalogue.clear()), "refused 6 0\n");
    assert_eq!(refused(&|f| f.catalogue[3] = 22), "refused 7 1\n");
    assert_eq!(refused(&|f| f.settings[7] = 2), "refused 9 0\n");
    assert_eq!(refused(&|f| f.settings[7] = 4), "refused 12 0\n");
    assert_eq!(refused(&|f| f.catalogue.truncate(40)), "refused 13 0\n");
}

#[test]
fn a_burst_behind_the_listing() {
    let files = Files::of_document();
    // The same frame, the same two rows lower, a dark one, and one that is refused.
    let lower = [vec![0; 2 * 2 * 160], files.frame[..files.frame.len() - 2 * 2 * 160].to_vec()].concat();
    let dark = vec![0; files.frame.len()];
    let mut damaged = files.clone();
    damaged.set_sample(5, 4_096);
    let burst = [files.frame.clone(), lower, dark, damaged.frame].concat();
    assert_eq!(
        files.burst_lines(&burst),
        "0 0 0 11 8192 15360 0 22 32768 15360 0 33 20480 27648 0\n\
         1 13 0 11 8192 15872 0 22 32768 15872 0 33 20480 28160 0\n\
         2 12 0 11 8192 15872 1 22 32768 15872 1 33 20480 28160 1\n\
         3 4 5 11 8192 15872 1 22 32768 15872 1 33 20480 28160 1\n"
    );
    // Half a sample too many counts as nothing, half a frame too many is refused, and so are 65 frames.
    assert_eq!(files.burst_lines(&burst[1..]), "");
    assert_eq!(files.burst_lines(&burst[160..]), "refused 2 0\n");
    assert_eq!(files.burst_lines(&files.frame.repeat(65)), "refused 2 0\n");
    // No identification, no guides.
    assert_eq!(Files { frame: vec![0; files.frame.len()], ..files.clone() }.burst_lines(&burst), "");
}

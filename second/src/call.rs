//! One call of an entry point with all it is lent, its form in the recorded cases, and its outcome.

use crate::answer::{counted, counted_mut, numbers, room_for, Numbers};
use crate::burst::burst_within;
use crate::chain::{chain_by_index_within, chain_within, Settings};
use crate::compare::compare;
use crate::cut::cut;
use crate::float::{settled, Float};
use crate::index::Index;
use crate::lens::Plate;
use crate::search::{rival_within, search_within, Effort, GaveUp};
use crate::{attitude, catalogue, direction, frame, gimbal, guider, index, plain, ranking};

#[derive(Debug, Clone, Copy, PartialEq, Eq)]
pub enum Entry {
    Verdict,
    List,
    Direction,
    Catalogue,
    Ranking,
    Search,
    Attitude,
    Chain,
    Reason,
    Index,
    RankingByIndex,
    ChainByIndex,
    Burst,
    Cosines,
    Turned,
    Lens,
    Compare,
    Rival,
    Cut,
    GuiderStart,
    GuiderFrame,
}

pub const ENTRIES: [Entry; 21] = [
    Entry::Verdict,
    Entry::List,
    Entry::Direction,
    Entry::Catalogue,
    Entry::Ranking,
    Entry::Search,
    Entry::Attitude,
    Entry::Chain,
    Entry::Reason,
    Entry::Index,
    Entry::RankingByIndex,
    Entry::ChainByIndex,
    Entry::Burst,
    Entry::Cosines,
    Entry::Turned,
    Entry::Lens,
    Entry::Compare,
    Entry::Rival,
    Entry::Cut,
    Entry::GuiderStart,
    Entry::GuiderFrame,
];

impl Entry {
    pub fn name(self) -> &'static str {
        match self {
            Entry::Verdict => "verdict",
            Entry::List => "list",
            Entry::Direction => "direction",
            Entry::Catalogue => "catalogue",
            Entry::Ranking => "ranking",
            Entry::Search => "search",
            Entry::Attitude => "attitude",
            Entry::Chain => "chain",
            Entry::Reason => "reason",
            Entry::Index => "index",
            Entry::RankingByIndex => "ranking by index",
            Entry::ChainByIndex => "chain by index",
            Entry::Burst => "burst",
            Entry::Cosines => "cosines",
            Entry::Turned => "row by target",
            Entry::Lens => "lens",
            Entry::Compare => "compare",
            Entry::Rival => "rival",
            Entry::Cut => "cut",
            Entry::GuiderStart => "guider start",
            Entry::GuiderFrame => "guider frame",
        }
    }

    pub fn index(self) -> usize {
        self as usize
    }

    /// The kind byte of the recorded cases.
    pub fn kind(self) -> u8 {
        self as u8 + 1
    }

    /// How many of the 64 numbers the recorded output shows.
    pub fn numbers_shown(self) -> usize {
        [8, 30, 5, 3, 2, 11, 11, 47, 6, 3, 2, 47, 3, 2, 2, 3, 3, 11, 3, 2, 2][self.index()]
    }

    /// The refusals this call can give, the one that goes before the others first.
    pub fn refusals(self) -> &'static [u8] {
        match self {
            Entry::Verdict | Entry::Reason => &[1, 2, 3, 4, 15],
            Entry::List => &[1, 2, 3, 4],
            Entry::Direction => &[19, 5],
            Entry::Catalogue => &[6, 7],
            Entry::Ranking => &[6, 7, 8, 9, 10],
            Entry::Search | Entry::Rival => &[6, 7, 8, 9, 11, 12, 13],
            Entry::Attitude => &[8, 14],
            Entry::Chain => &[1, 2, 3, 4, 19, 5, 6, 7, 9, 10, 12, 13, 14],
            Entry::Index => &[6, 7, 16],
            Entry::RankingByIndex => &[6, 7, 17, 8, 9, 10],
            Entry::ChainByIndex => &[1, 2, 3, 4, 19, 5, 6, 7, 17, 9, 10, 12, 13, 14],
            Entry::Burst => &[1, 2, 18],
            Entry::Cosines => &[23],
            Entry::Turned => &[],
            Entry::Lens => &[19],
            Entry::Compare => &[6, 7, 20],
            Entry::Cut => &[6, 7, 21],
            Entry::GuiderStart | Entry::GuiderFrame => &[22],
        }
    }

    /// What can be wrong with the call, those that concern one frame of a burst too.
    pub fn faults(self) -> &'static [u8] {
        match self {
            Entry::Burst => &[1, 2, 18, 3, 4, 19, 5, 6, 7, 9, 10, 12],
            _ => self.refusals(),
        }
    }
}

/// An element of a lent buffer.
pub trait Element: Copy + Default + PartialEq {
    fn write(self, bytes: &mut Vec<u8>);
}

macro_rules! element {
    ($($type:ty),*) => {$(
        impl Element for $type {
            fn write(self, bytes: &mut Vec<u8>) {
                bytes.extend(self.to_be_bytes());
            }
        }
    )*};
}
element!(u8, u16, i32, i64, u64);

/// A lent buffer: a repeated pattern with patches on top, so that a large frame takes little room in a file.
#[derive(Debug, Clone, Default)]
pub struct Buffer<T> {
    pub len: usize,
    pub pattern: Vec<T>,
    pub patches: Vec<(usize, T)>,
}

impl<T: Element> Buffer<T> {
    pub fn repeat(len: usize, pattern: &[T]) -> Self {
        let mut buffer = Buffer { len, pattern: pattern.to_vec(), patches: Vec::new() };
        buffer.pattern.truncate(len);
        buffer
    }

    /// Exactly these elements, as their shortest repeated pattern.
    pub fn of(values: &[T]) -> Self {
        Buffer::repeat(values.len(), &values[..shortest_period(values)])
    }

    /// Exactly these elements, as patches on zeros.
    pub fn sparse(values: &[T]) -> Self {
        let lit = |&(_, value): &(usize, T)| value != T::default();
        Buffer {
            len: values.len(),
            pattern: Vec::new(),
            patches: values.iter().copied().enumerate().filter(lit).collect(),
        }
    }

    pub fn set(&mut self, index: usize, value: T) {
        assert!(index < self.len);
        self.patches.push((index, value));
    }

    pub fn get(&self, index: usize) -> T {
        let patch = self.patches.iter().rev().find(|patch| patch.0 == index);
        match patch {
            Some(patch) => patch.1,
            None if self.pattern.is_empty() => T::default(),
            None => self.pattern[index % self.pattern.len()],
        }
    }

    /// The same pattern and patches, cut off or gone on with.
    pub fn resized(&self, len: usize) -> Self {
        let mut buffer = self.clone();
        buffer.len = len;
        buffer.pattern.truncate(len);
        buffer.patches.retain(|patch| patch.0 < len);
        buffer
    }

    pub fn values(&self) -> Vec<T> {
        let mut values = match self.pattern.len() {
            0 => vec![T::default(); self.len],
            _ => self.pattern.iter().copied().cycle().take(self.len).collect(),
        };
        for &(index, value) in &self.patches {
            values[index] = value;
        }
        values
    }

    pub(crate) fn write(&self, bytes: &mut Vec<u8>) {
        assert!(self.pattern.len() <= self.len && self.patches.len() <= 4_096);
        write_word(bytes, self.len as u64);
        write_word(bytes, self.pattern.len() as u64);
        for &element in &self.pattern {
            element.write(bytes);
        }
        write_word(bytes, self.patches.len() as u64);
        for &(index, value) in &self.patches {
            write_word(bytes, index as u64);
            value.write(bytes);
        }
    }
}

/// The smallest p for which every element equals the one p before it.
fn shortest_period<T: PartialEq>(values: &[T]) -> usize {
    // shared[i]: how long a beginning of the values also ends just after element i.
    let mut shared = vec![0; values.len()];
    for i in 1..values.len() {
        let mut length: usize = shared[i - 1];
        while length > 0 && values[i] != values[length] {
            length = shared[length - 1];
        }
        shared[i] = if values[i] == values[length] { length + 1 } else { 0 };
    }
    values.len() - shared.last().copied().unwrap_or(0)
}

pub(crate) fn write_word(bytes: &mut Vec<u8>, word: u64) {
    bytes.extend(word.to_be_bytes());
}

/// Everything any entry point is lent; each one looks at its own part only.
#[derive(Debug, Clone)]
pub struct Call {
    pub entry: Entry,
    pub samples: Buffer<u16>,
    pub width: u64,
    pub height: u64,
    pub threshold: u64,
    pub row: u64,
    pub column: u64,
    pub cx: i64,
    pub cy: i64,
    pub lens: Plate,
    pub x: i64,
    pub y: i64,
    pub directions: Buffer<i32>,
    pub catalogue: Buffer<u8>,
    pub needed: u64,
    pub tolerance: u64,
    pub ranking: Buffer<u16>,
    pub room: Buffer<u16>,
    pub vectors: Buffer<i64>,
    pub floor: i64,
    pub index: Buffer<u8>,
    pub limit: i32,
    pub closeness: i64,
    /// The room for an index to be built, for a burst's records, or for a list of changes.
    pub bytes: Buffer<u8>,
    /// The second catalogue of two.
    pub other: Buffer<u8>,
    pub matrix: Buffer<i64>,
    /// The room for the direction cosines, or the rows that a target is turned by.
    pub rows: Buffer<Float>,
    pub target: Buffer<Float>,
    /// The room for the turned target.
    pub turned: Buffer<Float>,
    pub half_width: i64,
    /// Identity, x and y of each guide to start with.
    pub guides: Buffer<i64>,
    /// The room for a guider's numbers, or a guider handed in.
    pub guider: Buffer<i64>,
    /// The numbers that the list's call gave for a frame.
    pub list: Buffer<i64>,
}

/// The buffers of a call, as memory.
#[derive(Debug, Clone, PartialEq, Eq)]
pub struct Lent {
    pub samples: Vec<u16>,
    pub directions: Vec<i32>,
    pub catalogue: Vec<u8>,
    pub ranking: Vec<u16>,
    pub room: Vec<u16>,
    pub vectors: Vec<i64>,
    pub index: Vec<u8>,
    pub bytes: Vec<u8>,
    pub other: Vec<u8>,
    pub matrix: Vec<i64>,
    pub rows: Vec<Float>,
    pub target: Vec<Float>,
    pub turned: Vec<Float>,
    pub guides: Vec<i64>,
    pub guider: Vec<i64>,
    pub list: Vec<i64>,
}

impl Lent {
    /// Any non-number that a call has written is as good as another.
    pub fn settle_floats(&mut self) {
        self.turned.iter_mut().for_each(|float| *float = settled(*float));
    }
}

/// The elements of a buffer that a call is lent with just so many.
pub fn exactly<T: Copy, const N: usize>(values: &[T]) -> [T; N] {
    values.try_into().expect("the call is lent so many numbers")
}

/// What a call gives: its numbers, and all it was lent as it is after the call.
#[derive(Debug, Clone, PartialEq, Eq)]
pub struct Outcome {
    pub out: Numbers,
    pub lent: Lent,
}

impl Call {
    pub fn new(entry: Entry) -> Self {
        Call {
            entry,
            samples: Buffer::default(),
            width: 0,
            height: 0,
            threshold: 0,
            row: 0,
            column: 0,
            cx: 0,
            cy: 0,
            lens: Plate::default(),
            x: 0,
            y: 0,
            directions: Buffer::default(),
            catalogue: Buffer::default(),
            needed: 0,
            tolerance: 0,
            ranking: Buffer::default(),
            room: Buffer::default(),
            vectors: Buffer::default(),
            floor: 0,
            index: Buffer::default(),
            limit: 0,
            closeness: 0,
            bytes: Buffer::default(),
            other: Buffer::default(),
            matrix: Buffer::default(),
            rows: Buffer::default(),
            target: Buffer::default(),
            turned: Buffer::default(),
            half_width: 0,
            guides: Buffer::default(),
            guider: Buffer::default(),
            list: Buffer::default(),
        }
    }

    /// The scalar parameters in the interface's order, as 64-bit words.
    pub fn scalars(&self) -> Vec<u64> {
        let signed = |n: i64| n as u64;
        let frame = [self.width, self.height, self.threshold];
        let lens = [self.lens.kind.into(), self.lens.first, self.lens.second];
        let optics = [&[signed(self.cx), signed(self.cy)], &lens[..]].concat();
        match self.entry {
            Entry::Verdict | Entry::Reason => [&frame[..], &[self.row, self.column]].concat(),
            Entry::List => frame.to_vec(),
            Entry::Direction => [&optics[..], &[signed(self.x), signed(self.y)]].concat(),
            Entry::Catalogue | Entry::Attitude | Entry::Cosines | Entry::Turned | Entry::Compare => vec![],
            Entry::Ranking => vec![self.tolerance],
            Entry::Search | Entry::Rival => vec![self.needed, self.tolerance],
            Entry::Chain | Entry::Burst => [&frame[..], &optics, &[self.needed, self.tolerance]].concat(),
            Entry::Index => vec![signed(self.floor)],
            Entry::RankingByIndex => vec![signed(self.floor), self.tolerance],
            Entry::ChainByIndex => {
                [&frame[..], &optics, &[signed(self.floor), self.needed, self.tolerance]].concat()
            }
            Entry::Lens => lens.to_vec(),
            Entry::Cut => vec![signed(self.limit.into()), signed(self.closeness)],
            Entry::GuiderStart => vec![signed(self.half_width)],
            Entry::GuiderFrame => vec![],
        }
    }

    /// The call as it stands in the file of recorded cases.
    pub fn write(&self, bytes: &mut Vec<u8>) {
        bytes.push(self.entry.kind());
        for word in self.scalars() {
            write_word(bytes, word);
        }
        // Writes these buffers, one after the other.
        macro_rules! put {
            ($($buffer:ident)*) => {{ $(self.$buffer.write(bytes);)* }};
        }
        match self.entry {
            Entry::Verdict | Entry::List | Entry::Reason => put!(samples),
            Entry::Direction | Entry::Lens => put!(),
            Entry::Catalogue | Entry::Cut => put!(catalogue),
            Entry::Ranking => put!(directions catalogue room),
            Entry::Search | Entry::Rival => put!(directions catalogue ranking),
            Entry::Attitude => put!(vectors),
            Entry::Chain => put!(samples catalogue room),
            Entry::Index => put!(catalogue bytes),
            Entry::RankingByIndex => put!(directions catalogue index room),
            Entry::ChainByIndex => put!(samples catalogue index room),
            Entry::Burst => put!(samples catalogue room bytes),
            Entry::Compare => put!(catalogue other bytes),
            Entry::Cosines => put!(matrix rows),
            Entry::Turned => put!(rows target turned),
            Entry::GuiderStart => put!(guides guider),
            Entry::GuiderFrame => put!(guider list),
        }
    }

    pub fn settings(&self) -> Settings {
        Settings {
            width: self.width.into(),
            height: self.height.into(),
            threshold: self.threshold.into(),
            cx: self.cx.into(),
            cy: self.cy.into(),
            lens: self.lens,
            needed: self.needed.into(),
            tolerance: self.tolerance.into(),
        }
    }

    /// The buffers as a caller lends them.
    pub fn lend(&self) -> Lent {
        Lent {
            samples: self.samples.values(),
            directions: self.directions.values(),
            catalogue: self.catalogue.values(),
            ranking: self.ranking.values(),
            room: self.room.values(),
            vectors: self.vectors.values(),
            index: self.index.values(),
            bytes: self.bytes.values(),
            other: self.other.values(),
            matrix: self.matrix.values(),
            rows: self.rows.values(),
            target: self.target.values(),
            turned: self.turned.values(),
            guides: self.guides.values(),
            guider: self.guider.values(),
            list: self.list.values(),
        }
    }

    /// The outcome by the wide implementation, unless its search goes beyond the effort.
    pub fn run_wide(&self, effort: &mut Effort) -> Result<Outcome, GaveUp> {
        let set = self.settings();
        let (row, column) = (self.row.into(), self.column.into());
        let floor = self.floor.into();
        let mut lent = self.lend();
        let out = match self.entry {
            Entry::Verdict => {
                numbers(&frame::verdict(&lent.samples, set.width, set.height, set.threshold, row, column))
            }
            Entry::List => numbers(&frame::list(&lent.samples, set.width, set.height, set.threshold)),
            Entry::Direction => {
                numbers(&direction::direction(set.cx, set.cy, set.lens, self.x.into(), self.y.into()))
            }
            Entry::Catalogue => numbers(&catalogue::catalogue(&lent.catalogue)),
            Entry::Ranking => {
                numbers(&ranking::ranking(&lent.directions, &lent.catalogue, set.tolerance, &mut lent.room))
            }
            Entry::Search => numbers(&search_within(
                &lent.directions,
                &lent.catalogue,
                set.needed,
                set.tolerance,
                &lent.ranking,
                effort,
            )?),
            Entry::Attitude => {
                numbers(&counted(&lent.vectors, 8).and_then(|vectors| attitude::attitude(&vectors)))
            }
            Entry::Chain => {
                numbers(&chain_within(&lent.samples, &set, &lent.catalogue, &mut lent.room, effort)?)
            }
            Entry::Reason => {
                numbers(&frame::reason(&lent.samples, set.width, set.height, set.threshold, row, column))
            }
            Entry::Index => numbers(&index::index(&lent.catalogue, floor, &mut lent.bytes)),
            Entry::RankingByIndex => numbers(&ranking::ranking_by_index(
                &lent.directions,
                &lent.catalogue,
                Index { bytes: &lent.index, floor },
                set.tolerance,
                &mut lent.room,
            )),
            Entry::ChainByIndex => numbers(&chain_by_index_within(
                &lent.samples,
                &set,
                &lent.catalogue,
                Index { bytes: &lent.index, floor },
                &mut lent.room,
                effort,
            )?),
            Entry::Burst => numbers(&burst_within(
                &lent.samples,
                &set,
                &lent.catalogue,
                &mut lent.room,
                &mut lent.bytes,
                effort,
            )?),
            Entry::Cosines => numbers(&room_for(&mut lent.rows, 18).and_then(|room| {
                *room = gimbal::cosines(&counted(&lent.matrix, 23)?)?;
                Ok(())
            })),
            Entry::Turned => numbers(&counted(&lent.target, 8).and_then(|target| {
                let room = room_for(&mut lent.turned, 18)?;
                *room = gimbal::turned(&counted(&lent.rows, 23)?, &target);
                Ok(())
            })),
            Entry::Lens => numbers(&self.lens.focal().map(|focal| focal as usize)),
            Entry::Compare => numbers(&compare(&lent.catalogue, &lent.other, &mut lent.bytes)),
            Entry::Rival => numbers(&rival_within(
                &lent.directions,
                &lent.catalogue,
                set.needed,
                set.tolerance,
                &lent.ranking,
                effort,
            )?),
            Entry::Cut => numbers(&cut(&mut lent.catalogue, self.limit, self.closeness)),
            Entry::GuiderStart => {
                numbers(&guider::guider_start(self.half_width, &lent.guides, &mut lent.guider))
            }
            Entry::GuiderFrame => numbers(
                &counted_mut(&mut lent.guider, 22)
                    .and_then(|guider| guider::guider_frame(guider, &counted(&lent.list, 22)?)),
            ),
        };
        Ok(Outcome { out, lent })
    }

    pub fn run_plain(&self) -> Outcome {
        let mut lent = self.lend();
        let out = self.run_plain_on(&mut lent);
        lent.settle_floats();
        Outcome { out, lent }
    }

    /// The numbers plain Rust gives for the buffers lent.
    pub fn run_plain_on(&self, lent: &mut Lent) -> Numbers {
        let (width, height, threshold) = (self.width as usize, self.height as usize, self.threshold as usize);
        let needed = self.needed as usize;
        let [first, second] = [self.lens.first, self.lens.second].map(f64::from_bits);
        let lens = plain::Plate { kind: self.lens.kind, first, second };
        let (cx, cy, tolerance) = (self.cx, self.cy, self.tolerance);
        let settings = plain::Settings { width, height, threshold, cx, cy, lens, needed, tolerance };
        match self.entry {
            Entry::Verdict => {
                let (row, column) = (self.row as usize, self.column as usize);
                numbers(&plain::verdict(&lent.samples, width, height, threshold, row, column))
            }
            Entry::List => numbers(&plain::list(&lent.samples, width, height, threshold)),
            Entry::Direction => numbers(&plain::direction(self.cx, self.cy, lens, self.x, self.y)),
            Entry::Catalogue => numbers(&plain::catalogue(&lent.catalogue)),
            Entry::Ranking => {
                numbers(&plain::ranking(&lent.directions, &lent.catalogue, self.tolerance, &mut lent.room))
            }
            Entry::Search => numbers(&plain::search(
                &lent.directions,
                &lent.catalogue,
                needed,
                self.tolerance,
                &lent.ranking,
            )),
            Entry::Attitude => {
                numbers(&counted(&lent.vectors, 8).and_then(|vectors| plain::attitude(&vectors)))
            }
            Entry::Chain => numbers(&plain::chain(&lent.samples, &settings, &lent.catalogue, &mut lent.room)),
            Entry::Index => numbers(&plain::index(&lent.catalogue, self.floor, &mut lent.bytes)),
            Entry::RankingByIndex => numbers(&plain::ranking_by_index(
                &lent.directions,
                &lent.catalogue,
                plain::Index { bytes: &lent.index, floor: self.floor },
                self.tolerance,
                &mut lent.room,
            )),
            Entry::ChainByIndex => numbers(&plain::chain_by_index(
                &lent.samples,
                &settings,
                &lent.catalogue,
                plain::Index { bytes: &lent.index, floor: self.floor },
                &mut lent.room,
            )),
            Entry::Burst => numbers(&plain::burst(
                &lent.samples,
                &settings,
                &lent.catalogue,
                &mut lent.room,
                &mut lent.bytes,
            )),
            Entry::Cosines => numbers(&room_for(&mut lent.rows, 18).and_then(|room| {
                *room = plain::cosines(&counted(&lent.matrix, 23)?)?.map(f64::to_bits);
                Ok(())
            })),
            Entry::Turned => numbers(&counted(&lent.target, 8).and_then(|target: [Float; 3]| {
                let room = room_for(&mut lent.turned, 18)?;
                let rows: [Float; 9] = counted(&lent.rows, 23)?;
                *room =
                    plain::turned(&rows.map(f64::from_bits), &target.map(f64::from_bits)).map(f64::to_bits);
                Ok(())
            })),
            Entry::Lens => numbers(&plain::lens(lens).map(|focal| focal as usize)),
            Entry::Compare => numbers(&plain::compare(&lent.catalogue, &lent.other, &mut lent.bytes)),
            Entry::Rival => numbers(&plain::rival(
                &lent.directions,
                &lent.catalogue,
                needed,
                self.tolerance,
                &lent.ranking,
            )),
            Entry::Cut => numbers(&plain::cut(&mut lent.catalogue, self.limit, self.closeness)),
            Entry::GuiderStart => numbers(&counted_mut(&mut lent.guider, 22).and_then(|guider| {
                *guider = plain::guider_start(self.half_width, &lent.guides)?;
                Ok(())
            })),
            Entry::GuiderFrame => numbers(
                &counted_mut(&mut lent.guider, 22)
                    .and_then(|guider| plain::guider_frame(guider, &counted(&lent.list, 22)?)),
            ),
            Entry::Reason => {
                let (row, column) = (self.row as usize, self.column as usize);
                numbers(&plain::reason(&lent.samples, width, height, threshold, row, column))
            }
        }
    }

    /// Whether the call is lent a ranking room to write in.
    pub fn writes_ranking(&self) -> bool {
        matches!(
            self.entry,
            Entry::Ranking | Entry::Chain | Entry::RankingByIndex | Entry::ChainByIndex | Entry::Burst
        )
    }

    /// Whether the call is lent a room of bytes to write in.
    pub fn writes_bytes(&self) -> bool {
        matches!(self.entry, Entry::Index | Entry::Burst | Entry::Compare)
    }

    /// Whether the call is lent room for a guider's numbers.
    pub fn writes_guider(&self) -> bool {
        matches!(self.entry, Entry::GuiderStart | Entry::GuiderFrame)
    }

    /// Whether the call writes over the catalogue.
    pub fn writes_catalogue(&self) -> bool {
        self.entry == Entry::Cut
    }

    /// The floats that the call was lent room for, as they are after it.
    pub fn floats_written<'a>(&self, lent: &'a Lent) -> &'a [Float] {
        match self.entry {
            Entry::Cosines => &lent.rows,
            Entry::Turned => &lent.turned,
            _ => &[],
        }
    }
}

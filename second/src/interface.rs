//! The proved library's C interface, each call once: its entry, its function, what it is handed, and what plain Rust
//! answers, which stands in for the archive. Buffers, numbers and lens are called as `Call` and `Lent` call them.

/// Hands the list to another macro. A buffer is a pointer and a length in elements, a `Plate` its three numbers; every
/// call writes its answer into a last buffer, `out`.
macro_rules! interface {
    ($each:ident) => {
        $each! {
            Verdict mnemathor_verdict(
                samples: &[u16], width: usize, height: usize, threshold: usize, row: usize, column: usize
            ) => plain::verdict(samples, width, height, threshold, row, column);
            List mnemathor_list(samples: &[u16], width: usize, height: usize, threshold: usize)
                => plain::list(samples, width, height, threshold);
            Direction mnemathor_direction(cx: i64, cy: i64, lens: Plate, x: i64, y: i64)
                => plain::direction(cx, cy, lens, x, y);
            Catalogue mnemathor_catalogue(catalogue: &[u8]) => plain::catalogue(catalogue);
            Ranking mnemathor_ranking(directions: &[i32], catalogue: &[u8], tolerance: u64, room: &mut [u16])
                => plain::ranking(directions, catalogue, tolerance, room);
            Search mnemathor_search(
                directions: &[i32], catalogue: &[u8], needed: usize, tolerance: u64, ranking: &[u16]
            ) => plain::search(directions, catalogue, needed, tolerance, ranking);
            Attitude mnemathor_attitude(vectors: &[i64]) => plain::attitude(&counted(vectors, 8)?);
            Chain mnemathor_chain(
                samples: &[u16], width: usize, height: usize, threshold: usize, cx: i64, cy: i64, lens: Plate,
                catalogue: &[u8], needed: usize, tolerance: u64, room: &mut [u16]
            ) => {
                let settings = Settings { width, height, threshold, cx, cy, lens, needed, tolerance };
                plain::chain(samples, &settings, catalogue, room)
            };
            Reason mnemathor_reason(
                samples: &[u16], width: usize, height: usize, threshold: usize, row: usize, column: usize
            ) => plain::reason(samples, width, height, threshold, row, column);
            Index mnemathor_index(catalogue: &[u8], floor: i64, bytes: &mut [u8])
                => plain::index(catalogue, floor, bytes);
            RankingByIndex mnemathor_ranking_by_index(
                directions: &[i32], catalogue: &[u8], index: &[u8], floor: i64, tolerance: u64, room: &mut [u16]
            ) => plain::ranking_by_index(directions, catalogue, Index { bytes: index, floor }, tolerance, room);
            ChainByIndex mnemathor_chain_by_index(
                samples: &[u16], width: usize, height: usize, threshold: usize, cx: i64, cy: i64, lens: Plate,
                catalogue: &[u8], index: &[u8], floor: i64, needed: usize, tolerance: u64, room: &mut [u16]
            ) => {
                let settings = Settings { width, height, threshold, cx, cy, lens, needed, tolerance };
                plain::chain_by_index(samples, &settings, catalogue, Index { bytes: index, floor }, room)
            };
            Burst mnemathor_burst(
                samples: &[u16], width: usize, height: usize, threshold: usize, cx: i64, cy: i64, lens: Plate,
                catalogue: &[u8], needed: usize, tolerance: u64, room: &mut [u16], bytes: &mut [u8]
            ) => {
                let settings = Settings { width, height, threshold, cx, cy, lens, needed, tolerance };
                plain::burst(samples, &settings, catalogue, room, bytes)
            };
            Cosines mnemathor_cosines(matrix: &[i64], rows: &mut [f64]) => {
                let room = room_for(rows, 18)?;
                *room = plain::cosines(&counted(matrix, 23)?)?;
                Ok(())
            };
            Turned mnemathor_turned(rows: &[f64], target: &[f64], turned: &mut [f64]) => {
                let target = counted(target, 8)?;
                let room = room_for(turned, 18)?;
                *room = plain::turned(&counted(rows, 23)?, &target);
                Ok(())
            };
            Lens mnemathor_lens(lens: Plate) => plain::lens(lens).map(|focal| focal as usize);
            Compare mnemathor_compare(catalogue: &[u8], other: &[u8], bytes: &mut [u8])
                => plain::compare(catalogue, other, bytes);
            Rival mnemathor_rival(
                directions: &[i32], catalogue: &[u8], needed: usize, tolerance: u64, ranking: &[u16]
            ) => plain::rival(directions, catalogue, needed, tolerance, ranking);
            Cut mnemathor_cut(catalogue: &mut [u8], limit: i32, closeness: i64)
                => plain::cut(catalogue, limit, closeness);
            GuiderStart mnemathor_guider_start(half_width: i64, guides: &[i64], guider: &mut [i64]) => {
                let guider = counted_mut(guider, 22)?;
                *guider = plain::guider_start(half_width, guides)?;
                Ok(())
            };
            GuiderFrame mnemathor_guider_frame(guider: &mut [i64], list: &[i64])
                => plain::guider_frame(counted_mut(guider, 22)?, &counted(list, 22)?);
        }
    };
}
pub(crate) use interface;

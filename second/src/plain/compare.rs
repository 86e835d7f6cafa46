//! Two catalogues compared by one walk over both, taken twice: to count, then to write.

use super::{read_catalogue, CATALOGUE_RECORD};
use crate::answer::Refusal;
use std::cmp::Ordering;

const RECORD_BYTES: usize = 8;

pub fn compare(first: &[u8], second: &[u8], room: &mut [u8]) -> Result<usize, Refusal> {
    read_catalogue(first)?;
    read_catalogue(second)?;
    let mut count = 0;
    walk(first, second, |_, _| count += 1);
    let Some(list) = room.get_mut(..RECORD_BYTES * count) else {
        return Err(Refusal::new(20));
    };
    let mut records = list.chunks_exact_mut(RECORD_BYTES);
    walk(first, second, |identity, change| {
        if let Some(record) = records.next() {
            record[..4].copy_from_slice(identity);
            record[4..].copy_from_slice(&change.to_be_bytes());
        }
    });
    Ok(count)
}

/// Tells every change of two valid catalogues, by rising identity. Records of one identity are the same star exactly
/// if all their bytes are the same.
fn walk(first: &[u8], second: &[u8], mut tell: impl FnMut(&[u8], u32)) {
    let mut first = first.chunks_exact(CATALOGUE_RECORD).peekable();
    let mut second = second.chunks_exact(CATALOGUE_RECORD).peekable();
    loop {
        let order = match (first.peek(), second.peek()) {
            (Some(one), Some(other)) => one[..4].cmp(&other[..4]),
            (Some(_), None) => Ordering::Less,
            (None, Some(_)) => Ordering::Greater,
            (None, None) => return,
        };
        let one = first.next_if(|_| order.is_le());
        let other = second.next_if(|_| order.is_ge());
        match (one, other) {
            (Some(one), None) => tell(&one[..4], 1),
            (None, Some(other)) => tell(&other[..4], 2),
            (Some(one), Some(other)) if one != other => tell(&one[..4], 3),
            _ => {}
        }
    }
}

//! A list of writes in one call: tested as a whole, and then written range by range. A range is its offset and its
//! length.

use crate::homes::{Record, Tiles};
use crate::layout::{Layout, Shape};
use crate::pool;

const MOST_RANGES: usize = 64;

/// Number and range of the refusal, the range counted from 1 and 0 where it is no range's; 0 and 0 for a sound list.
fn refusal(capacity: u64, ranges: &[[u64; 2]], length: usize) -> (u64, u64) {
    if ranges.len() > MOST_RANGES {
        return (4, 0);
    }
    let outside = |&[offset, length]: &[u64; 2]| offset > capacity || length > capacity - offset;
    if let Some(i) = ranges.iter().position(outside) {
        return (4, i as u64 + 1);
    }
    let sum: u64 = ranges.iter().map(|range| range[1]).sum();
    (if sum == length as u64 { 0 } else { 5 }, 0)
}

pub fn write(
    layout: Layout,
    record: &Record,
    image: &mut [u8],
    ranges: &[[u64; 2]],
    bytes: &[u8],
) -> (u64, u64) {
    let shape = Shape::of(layout);
    let refused = refusal(shape.capacity(), ranges, bytes.len());
    if refused != (0, 0) {
        return refused;
    }
    let mut tiles = Tiles::new(&shape);
    let mut rest = bytes;
    for &[offset, length] in ranges {
        let (now, later) = rest.split_at(length as usize);
        pool::write_range(&layout, record, &mut tiles, image, offset, now);
        rest = later;
    }
    (0, 0)
}

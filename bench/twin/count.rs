//! The count of missing units by a walk over the frames of one target, for records that are sound. The target is none
//! of the repaired ones: so on it a content's own place is its home, and only of a spare it must be asked.

use crate::homes::{Record, Tiles};
use crate::layout::{Layout, Shape};

/// The contents whose home is on a target that is none of the repaired ones.
fn on_target(shape: &Shape, record: &Record, target: u64) -> u64 {
    let contents = shape.layout.n + shape.layout.k;
    let mut tiles = Tiles::new(shape);
    let mut count = 0;
    for tile in 0..shape.layout.t {
        let column = tiles.column(tile, target);
        for row in 0..shape.rows {
            let (group, unit) = shape.unit_at(tile, row, column);
            if unit < contents || record.q > 0 && tiles.is_home(record, group, unit) {
                count += 1;
            }
        }
    }
    count
}

pub fn fail(layout: Layout, record: Record, target: u64) -> Record {
    let waiting = record.waiting + on_target(&Shape::of(layout), &record, target);
    let mut failed = record.failed;
    failed[record.k as usize] = target;
    Record { failed, k: record.k + 1, waiting, ..record }
}

/// The missing units, which lie on the targets that are not repaired.
pub fn missing_units(shape: &Shape, record: &Record) -> u64 {
    let broken = &record.failed[record.q as usize..record.k as usize];
    broken.iter().map(|&target| on_target(shape, record, target)).sum()
}

/// Whether the record's count is that of the missing units.
pub fn is_true(layout: Layout, record: &Record) -> bool {
    record.waiting == missing_units(&Shape::of(layout), record)
}

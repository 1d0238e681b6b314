//! The same file in the other edition, for layouts and records that are sound.

use crate::code::{missing_data, parity_of};
use crate::homes::{Record, Tiles};
use crate::layout::{Layout, Shape};
use crate::pool::held;

/// Fills the new image group by group: data as the old pool shows them, their parity, and zeros in the spares.
pub fn move_edition(layout: Layout, record: &Record, old: &[u8], new: &mut [u8]) {
    let (n, k, u) = (layout.n as usize, layout.k as usize, layout.u as usize);
    let (from, to) =
        (Shape::of(layout), Shape::of(Layout { edition: 3 - layout.edition, ..layout }));
    let (mut old_tiles, mut new_tiles) = (Tiles::new(&from), Tiles::new(&to));
    for g in 0..from.groups() {
        let group = old_tiles.group(record, g);
        let present = held(old, &group, &(0..u));
        let rebuilt = missing_data(n, &present, u);
        let data: Vec<&[u8]> =
            (0..n).map(|j| present[j].unwrap_or_else(|| &rebuilt[group.rank(j)])).collect();
        for (unit, start) in new_tiles.unit_starts(g).into_iter().enumerate() {
            let bytes = &mut new[start..start + u];
            match unit {
                j if j < n => bytes.copy_from_slice(data[j]),
                c if c < n + k => parity_of(c - n, data.iter().copied(), bytes),
                _ => bytes.fill(0),
            }
        }
    }
}

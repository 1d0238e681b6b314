//! A swapped drive taken back, for layouts and records that are sound and a list that is wholly repaired.

use crate::homes::{Record, Tiles};
use crate::layout::{Layout, Shape};

/// The record without the target, the others in order.
fn without(record: &Record, target: u64) -> Record {
    let listed = record.k as usize;
    let mut failed = record.failed;
    let at = failed[..listed].iter().position(|&t| t == target).expect("a target of the list");
    failed.copy_within(at + 1..listed, at);
    failed[listed - 1] = 0;
    Record { failed, k: record.k - 1, q: record.q - 1, ..*record }
}

/// Takes the units of a group that move up, and then puts them down: one may go to where another stood.
fn move_group(image: &mut [u8], old: &[usize], new: &[usize], u: usize) {
    let moved = old.iter().zip(new).filter(|(from, to)| from != to);
    let taken: Vec<(usize, Vec<u8>)> =
        moved.map(|(&from, &to)| (to, image[from..from + u].to_vec())).collect();
    for (to, bytes) in taken {
        image[to..to + u].copy_from_slice(&bytes);
    }
}

/// Moves every content to its home under the list without the target, and answers the record with that list.
pub fn take_back(layout: Layout, record: &Record, image: &mut [u8], target: u64) -> Record {
    let shorter = without(record, target);
    let shape = Shape::of(layout);
    let mut tiles = Tiles::new(&shape);
    for g in 0..shape.groups() {
        let (old, new) = (tiles.new_starts(record, g), tiles.new_starts(&shorter, g));
        move_group(image, &old, &new, layout.u as usize);
    }
    shorter
}

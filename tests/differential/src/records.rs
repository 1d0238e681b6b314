//! Failure records: good and bad ones, with anything in the entries that are not in use, with true and false counts.

use crate::counts;
use crate::draws::Draws;
use oracle::layout::Layout;
use oracle::pool::Record;
use oracle::pool_count::most_missing;
use splicebell::raw::splicebell_record;

pub fn lent(r: &Record) -> splicebell_record {
    splicebell_record { failed: r.failed, k: r.k, q: r.q, waiting: r.waiting }
}

/// No failures yet; anything in the entries.
pub fn empty(draws: &mut Draws) -> Record {
    Record { failed: [(); 3].map(|()| unused(draws)), k: 0, q: 0, waiting: 0 }
}

/// An entry from k on, which must not matter: often one that would be bad if it were in use.
fn unused(draws: &mut Draws) -> u64 {
    if draws.one_in(2) {
        draws.edge()
    } else {
        draws.below(4)
    }
}

/// A good record of an accepted layout.
pub fn good(draws: &mut Draws, y: &Layout) -> Record {
    let k = draws.between(0, y.k);
    let q = draws.between(0, k);
    listed(draws, y, k, q)
}

/// A good record with a target that has failed and is not repaired. The layout has parity units.
pub fn unrepaired(draws: &mut Draws, y: &Layout) -> Record {
    let k = draws.between(1, y.k);
    let q = draws.below(k);
    listed(draws, y, k, q)
}

/// A good record of failed targets that are all repaired, often as many as may be. The layout has parity units.
pub fn repaired(draws: &mut Draws, y: &Layout) -> Record {
    let k = draws.between(1, y.k).max(draws.between(1, y.k));
    listed(draws, y, k, k)
}

/// Any k targets, of which q are repaired.
fn listed(draws: &mut Draws, y: &Layout, k: u64, q: u64) -> Record {
    let mut record = Record { k, q, ..empty(draws) };
    for i in 0..record.k as usize {
        record.failed[i] = loop {
            let target = draws.below(y.p);
            if !record.failed[..i].contains(&target) {
                break target;
            }
        };
    }
    record.waiting = counts::within(draws, y, &record);
    record
}

/// A record that is bad in that a target is listed twice. The layout has two parity units at least.
pub fn repeated(draws: &mut Draws, y: &Layout) -> Record {
    let k = draws.between(2, y.k);
    let q = draws.between(0, k);
    let mut record = listed(draws, y, k, q);
    repeat(draws, &mut record);
    record
}

/// A record that is bad in that a listed target is outside. The layout has a parity unit at least.
pub fn outside(draws: &mut Draws, y: &Layout) -> Record {
    let k = draws.between(1, y.k);
    let q = draws.between(0, k);
    let mut record = listed(draws, y, k, q);
    put_outside(draws, y, &mut record);
    record
}

/// Puts a number that is no target in the place of one. The list is not empty.
fn put_outside(draws: &mut Draws, y: &Layout, record: &mut Record) {
    let edge = draws.edge();
    let entry = draws.below(record.k) as usize;
    record.failed[entry] = draws.pick(&[y.p, y.p.saturating_add(1), edge]);
}

/// Puts an earlier target in the place of a later one. The list has two at least.
fn repeat(draws: &mut Draws, record: &mut Record) {
    let last = draws.between(1, record.k - 1) as usize;
    record.failed[last] = record.failed[draws.below(last as u64) as usize];
}

/// The record as if nothing had been repaired: each content's home is its own place.
pub fn as_at_first(r: &Record) -> Record {
    Record { q: 0, ..*r }
}

pub fn is_within_k(y: &Layout, r: &Record) -> bool {
    r.k <= y.k
}

/// Whether a target of a list within K is outside.
pub fn has_a_target_outside(y: &Layout, r: &Record) -> bool {
    r.failed[..r.k as usize].iter().any(|target| *target >= y.p)
}

/// Whether a target of a list within K is listed twice.
pub fn has_a_target_twice(r: &Record) -> bool {
    let listed = &r.failed[..r.k as usize];
    (1..listed.len()).any(|i| listed[..i].contains(&listed[i]))
}

/// Whether a record is good for an accepted layout.
pub fn is_good(y: &Layout, r: &Record) -> bool {
    is_within_k(y, r)
        && r.q <= r.k
        && !has_a_target_outside(y, r)
        && !has_a_target_twice(r)
        && r.waiting <= most_missing(y)
}

/// A record that is bad in one way, where the layout has room for that way.
pub fn bad(draws: &mut Draws, y: &Layout) -> Record {
    let mut record = good(draws, y);
    let edge = draws.edge();
    match draws.below(7) {
        0 => record.k = draws.pick(&[y.k.saturating_add(1), 4, edge]),
        1 => record.q = draws.pick(&[record.k + 1, edge]),
        2 if record.k > 0 => put_outside(draws, y, &mut record),
        3 if record.k > 1 => repeat(draws, &mut record),
        4 => record = Record { failed: [edge; 3], k: edge, q: edge, waiting: edge },
        5 => record.waiting = counts::above(draws, y),
        _ => {
            let ones = u64::MAX;
            record = Record { failed: [ones; 3], k: ones, q: ones, waiting: ones };
        }
    }
    record
}

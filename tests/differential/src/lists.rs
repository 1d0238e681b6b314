//! Lists of writes: drawn, made in one call, and sometimes made again as writes one after the other.

use crate::bench::{hex, Bench};
use crate::count_kinds::Counted;
use crate::count_rules::Library;
use crate::draws::Draws;
use crate::list_kinds::{Listed, Range};
use crate::pool_calls::write_at;
use crate::pools::Pool;
use crate::tally::Call;
use oracle::pool_list::{self, MOST_RANGES};
use splicebell::raw::{self, splicebell_range};

/// All ranges of a list together mostly touch no more groups than this: the model takes its time for each.
const USUAL_GROUPS: u64 = 60;
/// No buffer is made for a longer sum: the file holds no such ranges.
const LONGEST_SUM: u64 = 1 << 24;
/// One in so many accepted lists is written once more, range by range.
const IN_TURN: u64 = 10;

/// How many ranges: mostly few, often as many as may be, or more.
fn count(draws: &mut Draws) -> u64 {
    let most = MOST_RANGES as u64;
    match draws.below(18) {
        0 | 1 => 0,
        2 | 3 => most,
        4 => most + 1,
        5 => draws.between(most + 1, 3 * most),
        6 | 7 => draws.between(2, most),
        _ => draws.between(1, 6),
    }
}

/// A range inside the file, of at most `most` bytes: often beside the one before it, or at the very end.
fn inside(draws: &mut Draws, capacity: u64, before: Range, most: u64) -> Range {
    let beside = (before.0 + draws.below(20)).saturating_sub(draws.below(20));
    let anywhere = draws.between(0, capacity);
    let offset =
        draws.pick(&[beside, beside, anywhere, anywhere, anywhere, capacity]).min(capacity);
    let rest = most.min(capacity - offset);
    let length = match draws.below(8) {
        0 => 0,
        1 => rest,
        _ if rest > 0 => draws.size(rest),
        _ => 0,
    };
    (offset, length)
}

/// Mostly a range outside the file, by a little or by so much that a sum of 64 bits wraps.
fn outside(draws: &mut Draws, capacity: u64, (offset, length): Range) -> Range {
    let (edge, little) = (draws.edge(), draws.below(40));
    match draws.below(7) {
        0 => (capacity + 1, 0),
        1 => (capacity, 1),
        2 => (offset, capacity.saturating_sub(offset) + 1),
        3 => (edge, length),
        4 => (offset, edge),
        5 => (edge, edge),
        _ => (offset, little.wrapping_sub(offset)),
    }
}

/// Puts ranges outside: the first, the last, any, or several.
fn put_outside(draws: &mut Draws, capacity: u64, ranges: &mut [Range]) {
    let last = ranges.len() - 1;
    loop {
        let any = draws.between(0, last as u64) as usize;
        let place = draws.pick(&[0, last, last, any]);
        ranges[place] = outside(draws, capacity, ranges[place]);
        if !draws.one_in(3) {
            return;
        }
    }
}

/// The lengths' sum, in the 64 bits of one number.
fn wrapped_sum(ranges: &[Range]) -> u64 {
    ranges.iter().fold(0, |sum, range| sum.wrapping_add(range.1))
}

/// Makes one range so long that the sum wraps to a small number.
fn wrap(draws: &mut Draws, ranges: &mut [Range]) {
    let place = draws.below(ranges.len() as u64) as usize;
    ranges[place].1 = 0;
    ranges[place].1 = draws.below(40).wrapping_sub(wrapped_sum(ranges));
}

/// The ranges of a list: all inside more often than not.
fn drawn(draws: &mut Draws, pool: &Pool) -> Vec<Range> {
    let y = &pool.layout;
    let (capacity, count) = (y.derived().capacity, count(draws));
    // A layout that the image does not fit may have a file that no memory holds.
    let groups = USUAL_GROUPS / count.max(1) + 1;
    let most = y.n.saturating_mul(y.u).saturating_mul(groups).min(pool.image.len() as u64 + 40);
    let mut ranges = Vec::new();
    for _ in 0..count {
        let before = ranges.last().copied().unwrap_or_default();
        ranges.push(inside(draws, capacity, before, most));
    }
    match draws.below(12) {
        0..=3 if count > 0 => put_outside(draws, capacity, &mut ranges),
        4 if count > 0 => wrap(draws, &mut ranges),
        _ => {}
    }
    ranges
}

/// Bytes for all ranges, or some too few or too many.
fn bytes_for(draws: &mut Draws, ranges: &[Range]) -> Vec<u8> {
    let sum = wrapped_sum(ranges);
    let right = if sum > LONGEST_SUM { draws.below(40) } else { sum } as usize;
    let length = match draws.below(14) {
        0 => right.saturating_sub(1),
        1 => right + 1,
        2 => draws.wrong_length(right),
        // Wrong in one bit: seen only where all bits are compared.
        3 => right ^ (1 << draws.below(17)),
        _ => right,
    };
    draws.bytes(length)
}

/// Answers what the model says the pool is afterwards, as write does.
pub fn write_list(bench: &mut Bench, pool: &Pool) -> Pool {
    let ranges = drawn(&mut bench.draws, pool);
    let bytes = bytes_for(&mut bench.draws, &ranges);
    let (refusal, after) = at_once(bench, pool, &ranges, &bytes);
    if refusal == 0 && bench.draws.one_in(IN_TURN) {
        in_turn(bench, pool, &ranges, &bytes, &after);
    }
    after
}

/// Makes one call; its refusal and the pool afterwards.
fn at_once(bench: &mut Bench, pool: &Pool, ranges: &[Range], stored: &[u8]) -> (u64, Pool) {
    let list = ranges.iter().map(|&(offset, length)| splicebell_range { offset, length });
    let list: Vec<_> = list.collect();
    let inputs = || format!("{} ranges {ranges:?} bytes {}", pool.told(), hex(stored));
    let mut trial = bench.begin(Call::WriteList, &inputs);
    let (image, lent_ranges, bytes) =
        (bench.lend_mut(&pool.image), bench.lend(&list), bench.lend(stored));
    let (y, r) = (trial.layout(&pool.layout), Library::of(bench).record(pool));
    let (at, length) = (image.pointer(), image.len());
    let (first, count) = (lent_ranges.pointer(), lent_ranges.len());
    // SAFETY: the pointers lead to that many elements, and the buffers lie apart.
    let answer = unsafe {
        raw::splicebell_write_list(y, r, at, length, first, count, bytes.pointer(), bytes.len())
    };
    let mut after = pool.clone();
    let (layout, record) = (&pool.layout, &pool.record);
    let (refusal, range) = pool_list::write_list(layout, record, &mut after.image, ranges, stored);
    trial.number("refusal", answer.refusal, refusal);
    trial.number("range", answer.range, range);
    trial.buffer("image", &image, &after.image);
    trial.buffer("ranges", &lent_ranges, &list);
    trial.buffer("bytes", &bytes, stored);
    bench.end(trial, refusal);
    bench.tally.add_list(&Listed { pool, ranges, bytes: stored.len(), refusal, range });
    bench.tally.add_count(&Counted::of(Call::WriteList, pool, refusal));
    (refusal, after)
}

/// "The end state equals writing them one after the other": by the library's own writes.
fn in_turn(bench: &mut Bench, pool: &Pool, ranges: &[Range], bytes: &[u8], wanted: &Pool) {
    let (mut pool, mut rest) = (pool.clone(), bytes);
    for (i, (offset, length)) in ranges.iter().enumerate() {
        let (own, others) = rest.split_at(*length as usize);
        let wanted = (i + 1 == ranges.len()).then_some(&wanted.image[..]);
        pool = write_at(bench, &pool, *offset, own, wanted);
        rest = others;
    }
}

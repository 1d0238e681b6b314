//! What lists of writes are like: each kind by its name, told of a list as it was asked for and answered.

use crate::pools::Pool;
use oracle::layout::range_refusal;
use oracle::pool_list::MOST_RANGES;

/// An offset and a length.
pub type Range = (u64, u64);

/// A list, as it was asked for, and what the model answered.
pub struct Listed<'a> {
    pub pool: &'a Pool,
    pub ranges: &'a [Range],
    pub bytes: usize,
    pub refusal: u64,
    pub range: u64,
}

type Test = fn(&Listed) -> bool;

/// A library that is wrong for one of these may be right for all others, so each must be met.
pub const KINDS: [(&str, Test); 30] = [
    ("no ranges", |list| list.is_accepted() && list.ranges.is_empty()),
    ("no ranges, but bytes", |list| list.refusal == 5 && list.ranges.is_empty()),
    ("64 ranges", |list| list.is_accepted() && list.ranges.len() == MOST_RANGES),
    ("65 ranges, else right", |list| {
        list.ranges.len() == MOST_RANGES + 1 && list.is_only_too_long()
    }),
    ("over 64, and one outside", |list| list.is_too_long() && list.outside() > 0),
    ("over 64, and a wrong sum", |list| list.is_too_long() && list.sum() != list.bytes as u128),
    ("the first outside", |list| list.range == 1),
    ("one between outside", |list| list.range > 1 && list.range < list.ranges.len() as u64),
    ("the last outside", |list| list.range > 1 && list.range == list.ranges.len() as u64),
    ("the 64th outside", |list| list.range == MOST_RANGES as u64),
    ("several outside", |list| list.range > 0 && list.outside() > 1),
    ("bytes before the one outside", |list| list.before_told().any(|(_, length)| *length > 0)),
    ("outside with no bytes", |list| list.told().is_some_and(|(_, length)| length == 0)),
    ("an end that wraps", |list| {
        list.told().is_some_and(|told| told.0.checked_add(told.1).is_none())
    }),
    ("a sum that wraps", |list| list.range > 0 && list.sum() > u128::from(u64::MAX)),
    ("a sum that wraps to the bytes", |list| list.wraps_to_the_bytes()),
    ("outside, and a wrong sum", |list| list.range > 0 && list.sum() != list.bytes as u128),
    ("a byte too few", |list| list.refusal == 5 && list.sum() == list.bytes as u128 + 1),
    ("a byte too many", |list| list.refusal == 5 && list.sum() + 1 == list.bytes as u128),
    ("a bad pool, and over 64", |list| list.is_of_bad_pool() && list.ranges.len() > MOST_RANGES),
    ("a bad pool, and one outside", |list| list.is_of_bad_pool() && list.outside() > 0),
    ("no bytes in a range", |list| list.stores() && list.ranges.iter().any(|range| range.1 == 0)),
    ("no bytes at capacity", |list| {
        list.is_accepted() && list.ranges.contains(&(list.capacity(), 0))
    }),
    ("overlapping ranges", |list| list.is_accepted() && list.overlaps()),
    ("back to an earlier tile", |list| list.goes(|now, next| next.0 < now.0)),
    ("back in a tile", |list| list.goes(|now, next| next.0 == now.0 && next.1 < now.1)),
    ("the same group again", |list| list.goes(|now, next| next == now)),
    ("missing contents", |list| list.stores() && list.pool.record.q < list.pool.record.k),
    ("homes on spares", |list| list.stores() && list.pool.record.q > 0),
    ("a dead drive scribbled on", |list| list.stores() && list.pool.is_scribbled),
];

impl Listed<'_> {
    fn is_accepted(&self) -> bool {
        self.refusal == 0
    }

    /// Accepted, with a byte at least.
    fn stores(&self) -> bool {
        self.is_accepted() && self.bytes > 0
    }

    /// Refused for the layout, the image's length or the record.
    fn is_of_bad_pool(&self) -> bool {
        (1..=3).contains(&self.refusal)
    }

    fn is_too_long(&self) -> bool {
        self.refusal == 4 && self.range == 0
    }

    fn is_only_too_long(&self) -> bool {
        self.is_too_long() && self.outside() == 0 && self.sum() == self.bytes as u128
    }

    fn capacity(&self) -> u64 {
        self.pool.layout.derived().capacity
    }

    /// How many ranges are outside.
    fn outside(&self) -> usize {
        let is_outside = |range: &&Range| range_refusal(&self.pool.layout, range.0, range.1) != 0;
        self.ranges.iter().filter(is_outside).count()
    }

    /// The range that was answered.
    fn told(&self) -> Option<Range> {
        Some(self.ranges[(self.range as usize).checked_sub(1)?])
    }

    /// The ranges before it.
    fn before_told(&self) -> impl Iterator<Item = &Range> {
        self.ranges.iter().take((self.range as usize).saturating_sub(1))
    }

    fn sum(&self) -> u128 {
        self.ranges.iter().map(|range| u128::from(range.1)).sum()
    }

    fn wraps_to_the_bytes(&self) -> bool {
        let sum = self.sum();
        self.range > 0 && sum > u128::from(u64::MAX) && sum as u64 == self.bytes as u64
    }

    /// Whether two of the ranges, all inside, have a byte of the file in common.
    fn overlaps(&self) -> bool {
        let mut sorted: Vec<_> = self.ranges.iter().filter(|range| range.1 > 0).collect();
        sorted.sort();
        sorted.windows(2).any(|pair| pair[1].0 < pair[0].0 + pair[0].1)
    }

    /// Whether in an accepted list the tile and group of some last byte, and those of the next range's first byte,
    /// pass a test. Ranges of no bytes are passed over.
    fn goes(&self, test: impl Fn((u64, u64), (u64, u64)) -> bool) -> bool {
        let y = &self.pool.layout;
        let place = |x: u64| {
            let group = x / (y.n * y.u);
            (group / y.derived().c, group)
        };
        let stored: Vec<_> = self.ranges.iter().filter(|range| range.1 > 0).collect();
        let goes = |pair: &[&Range]| test(place(pair[0].0 + pair[0].1 - 1), place(pair[1].0));
        self.is_accepted() && stored.windows(2).any(goes)
    }
}

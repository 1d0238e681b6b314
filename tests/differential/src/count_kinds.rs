//! What calls that are given a record are like by its count of missing units: each kind by its name, told of a call as it was
//! made and answered.

use crate::pools::Pool;
use crate::records::as_at_first;
use crate::tally::Call;
use oracle::pool::Record;
use oracle::pool_count::{contents_on, missing_units, most_missing};

/// A call that was given a record, and what the model answered.
pub struct Counted<'a> {
    /// One of [`TAKERS`].
    pub call: &'static str,
    pub pool: &'a Pool,
    pub refusal: u64,
    /// The target of a fail, of a line that tells one, and of a swap.
    pub target: Option<u64>,
}

type Test = fn(&Counted) -> bool;
/// A comparison of the count with the true one.
type Comparison = fn(u64, u64) -> bool;

/// The calls that take a record, the events of a replayed line last.
pub const TAKERS: [&str; 18] = [
    "fail",
    "read",
    "write",
    "write_list",
    "repair",
    "check_plan",
    "repair_by",
    "draw_plan",
    "swap",
    "move_edition",
    "panel",
    "audit",
    "prepare",
    "show",
    "line of a write",
    "line of a fail",
    "line of a repair",
    "line of a read",
];

/// The name of an event's line, by the event's place among [`crate::line_kinds::EVENTS`].
pub fn line_of(event: usize) -> &'static str {
    TAKERS[TAKERS.len() - 4 + event]
}

/// Counts that each of the calls must have met: what is tested in one of them may be forgotten in another.
pub const COUNTS: [(&str, Test); 5] = [
    ("a false count", |c| c.is_taken() && c.compares(|count, truth| count != truth)),
    ("a count of 0, not true", |c| {
        c.is_taken() && c.compares(|count, truth| count == 0 && truth > 0)
    }),
    ("a count at the bound", |c| c.is_taken() && c.is_at_the_bound()),
    ("a count one above it", |c| c.is_bad_by_its_count() && c.waiting() == c.most() + 1),
    ("a count of 2^64-1", |c| c.is_bad_by_its_count() && c.waiting() == u64::MAX),
];

/// A library that is wrong for one of these may be right for all others, so each must be met.
pub const COUNT_KINDS: [(&str, Test); 37] = [
    ("fail: raised to the bound", |c| {
        c.fails(0, |c, raise| raise > 0 && c.goes(raise) == c.most())
    }),
    ("fail: 3, raised to one above", |c| c.fails(3, |c, raise| c.goes(raise) == c.most() + 1)),
    ("fail: 3, raised further", |c| c.fails(3, |c, raise| c.goes(raise) > c.most() + 1)),
    ("fail: 4, at the bound", |c| c.fails(4, |c, _| c.is_at_the_bound())),
    ("fail: 6, and a raise above", |c| c.fails(6, |c, raise| c.goes(raise) > c.most())),
    ("fail: 7, and a raise above", |c| c.fails(7, |c, raise| c.goes(raise) > c.most())),
    ("fail: repaired contents there", |c| c.fails(0, |c, raise| raise > c.own_places())),
    ("fail: spares there, no homes", |c| c.fails(0, |c, raise| raise < c.frames())),
    ("fail: spares of both kinds", |c| {
        c.fails(0, |c, raise| raise > c.own_places() && raise < c.frames())
    }),
    ("fail: no content there", |c| c.fails(0, |_, raise| raise == 0)),
    ("fail: while others wait", |c| c.fails(0, |c, raise| raise > 0 && c.some_wait())),
    ("fail: a count too low", |c| c.fails(0, |c, _| c.compares(|count, truth| count < truth))),
    ("fail: a count too high", |c| c.fails(0, |c, _| c.compares(|count, truth| count > truth))),
    ("fail: refused, with a count", |c| c.is_refused("fail") && c.waiting() > 0),
    ("repair: a count too low", |c| c.is("repair", 0) && c.compares(|count, truth| count < truth)),
    ("repair: a count too high", |c| c.is("repair", 0) && c.compares(|count, truth| count > truth)),
    ("repair: a count, none missing", |c| {
        c.is("repair", 0) && c.compares(|count, truth| count > 0 && truth == 0)
    }),
    ("repair: refused, with a count", |c| c.is_refused("repair") && c.waiting() > 0),
    ("repair_by: a count too low", |c| {
        c.is("repair_by", 0) && c.compares(|count, truth| count < truth)
    }),
    ("repair_by: a count too high", |c| {
        c.is("repair_by", 0) && c.compares(|count, truth| count > truth)
    }),
    ("repair_by: count, none missing", |c| {
        c.is("repair_by", 0) && c.compares(|count, truth| count > 0 && truth == 0)
    }),
    ("repair_by: refused, with a count", |c| c.is_refused("repair_by") && c.waiting() > 0),
    ("panel: three other numbers", |c| {
        let Record { k, q, waiting, .. } = c.pool.record;
        c.is("panel", 0) && k != q && k != waiting && q != waiting
    }),
    ("panel: refused, with a count", |c| c.is_refused("panel") && c.waiting() > 0),
    ("audit: all are repaired", |c| c.is("audit", 0) && c.pool.record.k > 0 && !c.some_wait()),
    ("audit: some missing", |c| c.is("audit", 0) && c.waiting() > 0),
    ("audit: two drives wait", |c| c.is("audit", 0) && c.pool.record.k > c.pool.record.q + 1),
    ("audit: missing after a repair", |c| c.is("audit", 0) && c.misses_repaired()),
    ("audit: 14, one too low", |c| {
        c.is("audit", 14) && c.compares(|count, truth| count + 1 == truth)
    }),
    ("audit: 14, one too high", |c| {
        c.is("audit", 14) && c.compares(|count, truth| count == truth + 1)
    }),
    ("audit: 14, none missing", |c| c.is("audit", 14) && c.compares(|_, truth| truth == 0)),
    ("audit: 14, at the bound", |c| c.is("audit", 14) && c.is_at_the_bound()),
    ("audit: 14, as if none repaired", |c| c.is("audit", 14) && c.counts_own_places()),
    ("audit: 14, of all units", |c| c.is("audit", 14) && c.counts_all_units()),
    ("line: 3, by a fail's raise", |c| c.is("line of a fail", 3) && c.raises_above()),
    ("line: a fail raises", |c| c.is("line of a fail", 0) && c.raise().is_some_and(|by| by > 0)),
    ("line: repaired, a false count", |c| {
        c.is("line of a repair", 0) && c.compares(|count, truth| count != truth)
    }),
];

/// The contents of a pool are counted where there are so few; most pools are that small.
const FEW: u64 = 600;

impl<'a> Counted<'a> {
    /// A call that names no target.
    pub fn of(call: Call, pool: &'a Pool, refusal: u64) -> Counted<'a> {
        Counted { call: call.name(), pool, refusal, target: None }
    }

    pub fn is(&self, call: &str, refusal: u64) -> bool {
        self.call == call && self.refusal == refusal
    }

    fn is_refused(&self, call: &str) -> bool {
        self.call == call && self.refusal != 0
    }

    /// Refused neither for the layout, nor the image's length, nor the record.
    fn is_taken(&self) -> bool {
        !(1..=3).contains(&self.refusal)
    }

    /// Whether layout, image and list are good, so that 3 is for the count.
    fn is_bad_by_its_count(&self) -> bool {
        self.refusal == 3 && !self.pool.is_sound() && self.pool.with_count(0).is_sound()
    }

    fn waiting(&self) -> u64 {
        self.pool.record.waiting
    }

    /// Whether its target was taken back before.
    pub fn came_back(&self) -> bool {
        self.target.is_some_and(|target| self.pool.returned.contains(&target))
    }

    /// T·C·(N+K) of an accepted layout.
    fn most(&self) -> u64 {
        most_missing(&self.pool.layout)
    }

    fn is_at_the_bound(&self) -> bool {
        self.waiting() == self.most()
    }

    pub fn some_wait(&self) -> bool {
        self.pool.record.k > self.pool.record.q
    }

    fn frames(&self) -> u64 {
        self.pool.layout.derived().frames
    }

    /// Whether the pool is sound and has few contents.
    fn is_counted(&self) -> bool {
        self.pool.is_sound() && self.most() <= FEW
    }

    /// How the count compares with the true one, where that is counted.
    fn compares(&self, is_so: Comparison) -> bool {
        let Pool { layout, record, .. } = self.pool;
        self.is_counted() && is_so(self.waiting(), missing_units(layout, record))
    }

    /// The contents whose home is on the target of a fail, where they are counted.
    fn raise(&self) -> Option<u64> {
        let Pool { layout, record, .. } = self.pool;
        let target = self.target.filter(|_| self.is_counted())?;
        Some(contents_on(layout, record, target))
    }

    /// What a raise makes of the count.
    fn goes(&self, raise: u64) -> u64 {
        self.waiting() + raise
    }

    fn raises_above(&self) -> bool {
        self.raise().is_some_and(|raise| self.goes(raise) > self.most())
    }

    /// A fail of a sound pool that was answered so, by what it would raise the count.
    fn fails(&self, refusal: u64, is_so: fn(&Self, u64) -> bool) -> bool {
        self.is("fail", refusal) && self.raise().is_some_and(|raise| is_so(self, raise))
    }

    /// The contents whose own place is on the target of a fail.
    fn own_places(&self) -> u64 {
        let target = self.target.expect("a fail has a target");
        contents_on(&self.pool.layout, &as_at_first(&self.pool.record), target)
    }

    /// Whether more is missing than the contents whose own place is on a drive that waits: some that were repaired too.
    fn misses_repaired(&self) -> bool {
        let Pool { layout, record, .. } = self.pool;
        let own = |target: &u64| contents_on(layout, &as_at_first(record), *target);
        let wait = || &record.failed[record.q as usize..record.k as usize];
        self.is_counted() && missing_units(layout, record) > wait().iter().map(own).sum()
    }

    /// A count that would be true if nothing had been repaired.
    fn counts_own_places(&self) -> bool {
        let Pool { layout, record, .. } = self.pool;
        self.is_counted() && record.waiting == missing_units(layout, &as_at_first(record))
    }

    /// A count of all units on the drives that wait.
    fn counts_all_units(&self) -> bool {
        let Record { k, q, waiting, .. } = self.pool.record;
        waiting == (k - q) * self.frames()
    }
}

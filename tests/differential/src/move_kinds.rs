//! What moves between editions are like: each kind by its name, told of a move as it was asked for and answered.

use crate::count_kinds::Counted;
use crate::layouts::MOST_TILES;
use crate::pools::Pool;
use crate::records;
use oracle::layout::Layout;
use oracle::place::{place, unit_targets};
use oracle::pool::{homes, Record};
use oracle::pool_count::most_missing;
use oracle::pool_move::other_edition;
use std::collections::BTreeSet;

/// A pool that was to be moved, and what the model answered.
pub struct Moved<'a> {
    pub pool: &'a Pool,
    /// The new image as it was lent, and what the model makes of it.
    pub before: &'a [u8],
    pub after: &'a [u8],
    pub refusal: u64,
}

/// A pool that was moved and moved back, and the image that it has then.
pub struct Back<'a> {
    pub first: &'a Pool,
    pub image: &'a [u8],
}

type Test = fn(&Moved) -> bool;
type BackTest = fn(&Back) -> bool;
type LaterTest = fn(&Counted) -> bool;

/// Of accepted moves, from edition 1 and from edition 2 each. A library that is wrong for one of these may be right for all
/// others, so each must be met.
pub const MOVE_KINDS: [(&str, Test); 29] = [
    ("nothing failed", |m| m.record().k == 0),
    ("one waits", |m| m.wait() == 1 && m.record().q == 0),
    ("two wait", |m| m.wait() == 2 && m.record().q == 0),
    ("three wait", |m| m.wait() == 3),
    ("all repaired", |m| m.record().k > 0 && m.wait() == 0),
    ("three repaired", |m| m.record().q == 3),
    ("some repaired, some wait", |m| m.record().q > 0 && m.wait() > 0),
    ("missing after a repair", |m| m.has(|content| content.is_missing && content.is_on_a_spare())),
    ("present on a spare", |m| m.has(|content| !content.is_missing && content.is_on_a_spare())),
    ("data missing", |m| m.has(|content| content.is_missing && content.number < m.layout().n)),
    ("parity missing", |m| m.has(|content| content.is_missing && content.number >= m.layout().n)),
    ("of a file", |m| m.pool.holds_file),
    ("of no file", |m| !m.pool.holds_file),
    ("parity that disagrees", |m| m.has(|content| m.is_other_parity(content))),
    ("missing, dead drives changed", |m| m.pool.is_scribbled && m.wait() > 0),
    ("unused spares not zero", |m| m.has_spares_with_bytes()),
    ("no parity", |m| m.layout().k == 0),
    ("one target", |m| m.layout().p == 1),
    ("64 targets", |m| m.layout().p == 64),
    ("16 data units", |m| m.layout().n == 16),
    ("one group", |m| m.layout().derived().groups == 1),
    ("several tiles", |m| m.layout().t > 1),
    ("more than 65,536 groups", |m| m.layout().derived().groups > MOST_TILES),
    ("unused entries outside", |m| m.has_unused_entries_outside()),
    ("the same bytes in both", |m| m.after == m.pool.image && !is_zero(m.after)),
    ("into zeros", |m| is_zero(m.before)),
    ("into no zeros", |m| m.holds_no_zero()),
    ("into a copy of the old image", |m| m.before == m.pool.image && m.before != m.after),
    ("into its own result", |m| m.before == m.after && !is_zero(m.after)),
];

/// Of refused moves. Each must leave zeros in an image that held none.
pub const REFUSED_KINDS: [(&str, Test); 24] = [
    ("1, all else right", |m| m.is(1, [true, true, true])),
    ("1, and the old length", |m| m.is(1, [false, true, true])),
    ("1, and the new length", |m| m.is(1, [true, false, true])),
    ("1, and the record", |m| m.is(1, [true, true, false])),
    ("1, and all of these", |m| m.is(1, [false, false, false])),
    ("2, the old a byte too short", |m| m.is_alone(2, |old, _, right| old + 1 == right)),
    ("2, the old a byte too long", |m| m.is_alone(2, |old, _, right| old == right + 1)),
    ("2, the old empty", |m| m.is_alone(2, |old, _, _| old == 0)),
    ("2, the old above twice as long", |m| m.is_alone(2, |old, _, right| old > 2 * right)),
    ("2, the new a byte too short", |m| m.is_alone(2, |_, new, right| new + 1 == right)),
    ("2, the new a byte too long", |m| m.is_alone(2, |_, new, right| new == right + 1)),
    ("2, the new above twice as long", |m| m.is_alone(2, |_, new, right| new > 2 * right)),
    ("2, the new empty", |m| m.refusal == 2 && m.before.is_empty() && m.rights()[0]),
    ("2, the new as long as the file", |m| m.is(2, [true, false, true]) && m.is_a_files()),
    ("2, both, alike", |m| m.is(2, [false, false, true]) && m.pool.image.len() == m.before.len()),
    ("2, both, not alike", |m| {
        m.is(2, [false, false, true]) && m.pool.image.len() != m.before.len()
    }),
    ("2, the old, and the record", |m| m.is(2, [false, true, false])),
    ("2, the new, and the record", |m| m.is(2, [true, false, false])),
    ("2, both, and the record", |m| m.is(2, [false, false, false])),
    ("3, k above K", |m| m.is_zeroed(3) && m.record().k > m.layout().k),
    ("3, q above k", |m| m.is_bad(|_, r| r.q > r.k)),
    ("3, a target outside", |m| m.is_bad(records::has_a_target_outside)),
    ("3, a target twice", |m| m.is_bad(|_, r| records::has_a_target_twice(r))),
    ("3, the count alone", |m| m.is_zeroed(3) && m.pool.with_count(0).is_sound()),
];

/// Of pools that were moved there and back: which image that gives.
pub const BACK_KINDS: [(&str, BackTest); 4] = [
    ("the first image", |b| b.is_first() && !is_zero(b.image)),
    ("another, by failures", |b| b.first.record.k > 0 && b.first.holds_file && !b.is_first()),
    ("another, by spares alone", |b| b.first.record.k == 0 && b.first.holds_file && !b.is_first()),
    ("another, by no file", |b| b.first.record.k == 0 && !b.first.holds_file && !b.is_first()),
];

/// Of calls that were accepted on a pool that a move left, perhaps after other such calls.
pub const LATER_KINDS: [(&str, LaterTest); 9] = [
    ("read", |c| c.is("read", 0)),
    ("written", |c| c.is("write", 0)),
    ("written by a list", |c| c.is("write_list", 0)),
    ("a drive fails", |c| c.is("fail", 0)),
    ("read with drives dead", |c| c.is("read", 0) && c.some_wait()),
    ("written with drives dead", |c| c.is("write", 0) && c.some_wait()),
    ("repaired", |c| c.is("repair", 0) && c.some_wait()),
    ("moved with drives dead", |c| c.is("move_edition", 0) && c.some_wait()),
    ("moved, all repaired", |c| c.is("move_edition", 0) && c.pool.record.k > 0 && !c.some_wait()),
];

/// The contents of a pool are looked at where there are so few; most pools are that small.
const FEW: u64 = 600;

/// A content of a group: the unit that it lies on, which is its own number but after a repair, and whether that is lost.
pub struct Content {
    pub group: u64,
    pub number: u64,
    pub home: u64,
    pub is_missing: bool,
}

impl Content {
    fn is_on_a_spare(&self) -> bool {
        self.home != self.number
    }
}

/// All contents of a sound pool, groups rising and contents rising within each.
pub fn contents(pool: &Pool) -> impl Iterator<Item = Content> + '_ {
    let (y, r) = (&pool.layout, &pool.record);
    let (listed, repaired) = (&r.failed[..r.k as usize], &r.failed[..r.q as usize]);
    (0..y.derived().groups).flat_map(move |group| {
        let targets = unit_targets(y, group);
        let homes = homes(y.contents() as usize, &targets, repaired);
        (0..).zip(homes).map(move |(number, home)| {
            let is_missing = listed.contains(&targets[home]);
            Content { group, number, home: home as u64, is_missing }
        })
    })
}

/// The bytes of a unit in an image of this layout.
pub fn unit<'a>(y: &Layout, image: &'a [u8], group: u64, unit: u64) -> &'a [u8] {
    &image[place(y, group, unit).1.begins as usize..][..y.u as usize]
}

fn is_zero(bytes: &[u8]) -> bool {
    bytes.iter().all(|byte| *byte == 0)
}

impl Moved<'_> {
    fn layout(&self) -> &Layout {
        &self.pool.layout
    }

    fn record(&self) -> &Record {
        &self.pool.record
    }

    /// How many drives wait for repair.
    fn wait(&self) -> u64 {
        self.record().k - self.record().q
    }

    fn is_small(&self) -> bool {
        most_missing(self.layout()) <= FEW
    }

    /// Whether a content passes a test, where they are few.
    fn has(&self, is_so: impl Fn(&Content) -> bool) -> bool {
        self.is_small() && contents(self.pool).any(|content| is_so(&content))
    }

    /// Whether it is parity that is present and is not that of the data.
    fn is_other_parity(&self, content: &Content) -> bool {
        let Content { group, number, home, is_missing } = *content;
        let was = unit(self.layout(), &self.pool.image, group, home);
        let is = unit(&other_edition(self.layout()), self.after, group, number);
        !is_missing && number >= self.layout().n && was != is
    }

    /// Whether a spare that is no content's home has other bytes than zeros, where they are few.
    fn has_spares_with_bytes(&self) -> bool {
        if !self.is_small() {
            return false;
        }
        let y = self.layout();
        let taken: BTreeSet<(u64, u64)> =
            contents(self.pool).map(|content| (content.group, content.home)).collect();
        let of_group = |group| (y.contents()..y.derived().w).map(move |spare| (group, spare));
        (0..y.derived().groups).flat_map(of_group).any(|(group, spare)| {
            let bytes = unit(y, &self.pool.image, group, spare);
            !taken.contains(&(group, spare)) && !is_zero(bytes)
        })
    }

    fn has_unused_entries_outside(&self) -> bool {
        let unused = &self.record().failed[self.record().k as usize..];
        unused.iter().any(|target| *target >= self.layout().p)
    }

    fn holds_no_zero(&self) -> bool {
        !self.before.contains(&0)
    }

    /// The layout in an edition that may be: a bad one leaves its numbers as they are.
    fn in_good_edition(&self) -> Layout {
        Layout { edition: 1, ..*self.layout() }
    }

    /// Refused with 3, where the list is within K and bad so.
    fn is_bad(&self, is_so: fn(&Layout, &Record) -> bool) -> bool {
        let (y, r) = (self.layout(), self.record());
        self.is_zeroed(3) && records::is_within_k(y, r) && is_so(y, r)
    }

    /// Whether the old image's length, the new one's, and the record are right.
    fn rights(&self) -> [bool; 3] {
        let (y, r) = (self.in_good_edition(), self.record());
        let right = y.derived().image as usize;
        [self.pool.image.len() == right, self.before.len() == right, records::is_good(&y, r)]
    }

    /// Refused so, with an image to be zeroed that held no zero.
    fn is_zeroed(&self, refusal: u64) -> bool {
        self.refusal == refusal && !self.before.is_empty() && self.holds_no_zero()
    }

    /// Refused so, where of the old length, the new length and the record these are right. The layout is good but for its
    /// edition.
    fn is(&self, refusal: u64, rights: [bool; 3]) -> bool {
        let is_layout = self.in_good_edition().refusal() == 0;
        is_layout && self.is_zeroed(refusal) && self.rights() == rights
    }

    /// Refused so for one length alone, by a comparison of the old length, the new one and the right one.
    fn is_alone(&self, refusal: u64, is_so: fn(usize, usize, usize) -> bool) -> bool {
        let (old, new) = (self.pool.image.len(), self.before.len());
        let right = self.layout().derived().image as usize;
        let is_one = self.is(refusal, [true, false, true]) || self.is(refusal, [false, true, true]);
        is_one && is_so(old, new, right)
    }

    fn is_a_files(&self) -> bool {
        self.before.len() as u64 == self.layout().derived().capacity
    }
}

impl Back<'_> {
    fn is_first(&self) -> bool {
        self.image == self.first.image
    }
}

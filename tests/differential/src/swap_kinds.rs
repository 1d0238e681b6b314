//! What swaps of a drive are like: each kind by its name, told of a swap as it was asked for and answered.

use crate::count_kinds::Counted;
use crate::layouts::{MOST_TILES, MOST_UNIT_BYTES};
use crate::move_kinds::unit;
use crate::pools::Pool;
use crate::records;
use oracle::layout::Layout;
use oracle::place::unit_targets;
use oracle::pool::{homes, Record};
use oracle::pool_count::{missing_units, most_missing};

/// A target that was to be taken back, and what the model answered.
pub struct Swapped<'a> {
    pub pool: &'a Pool,
    pub target: u64,
    /// The image that is left.
    pub image: &'a [u8],
    pub refusal: u64,
    /// All contents of an accepted swap, group by group, where they are few.
    groups: Vec<Vec<Journey>>,
}

type Test = fn(&Swapped) -> bool;
type LaterTest = fn(&Counted) -> bool;

/// Of accepted swaps, in edition 1 and in edition 2 each. A library that is wrong for one of these may be right for all
/// others, so each must be met.
pub const SWAP_KINDS: [(&str, Test); 37] = [
    ("the only one", |s| s.stands(1, 0)),
    ("the first of two", |s| s.stands(2, 0)),
    ("the last of two", |s| s.stands(2, 1)),
    ("the first of three", |s| s.stands(3, 0)),
    ("the middle of three", |s| s.stands(3, 1)),
    ("the last of three", |s| s.stands(3, 2)),
    ("K of 1", |s| s.layout().k == 1),
    ("K of 2", |s| s.layout().k == 2),
    ("K of 3", |s| s.layout().k == 3),
    ("of a file", |s| s.pool.holds_file),
    ("of no file", |s| !s.pool.holds_file),
    ("other bytes on the new drive", |s| s.pool.is_scribbled && s.has(|j| s.comes(j))),
    ("zeros on the new drive", |s| is_zero(s.new_drive()) && s.has(|j| s.comes(j))),
    ("a true count", |s| s.old().waiting == 0),
    ("a false count", |s| s.old().waiting > 0),
    ("a count at the bound", |s| s.old().waiting == most_missing(s.layout())),
    ("entries behind, not zero", |s| s.unused().iter().any(|entry| *entry != 0)),
    ("entries behind, outside", |s| s.unused().iter().any(|entry| *entry >= s.layout().p)),
    ("the target behind too", |s| s.unused().contains(&s.target)),
    ("target 0", |s| s.target == 0),
    ("the last target", |s| s.target + 1 == s.layout().p),
    ("nothing moves", |s| !s.groups.is_empty() && !s.has(Journey::moves)),
    ("data comes home", |s| s.has(|j| s.comes(j) && j.is_home() && j.number < s.layout().n)),
    ("parity comes home", |s| s.has(|j| s.comes(j) && j.is_home() && j.number >= s.layout().n)),
    ("to a spare of the new drive", |s| s.has(|j| s.comes(j) && !j.is_home())),
    ("of another drive, to another", |s| s.has(|j| j.moves() && !s.comes(j))),
    ("into a higher one's old home", |s| s.follows(|number, other| number < other)),
    ("into a lower one's old home", |s| s.follows(|number, other| number > other)),
    ("three, each after another", |s| s.has_three_in_a_row()),
    ("a spare left with its bytes", |s| s.leaves_bytes()),
    ("64 targets", |s| s.layout().p == 64),
    ("16 data units", |s| s.layout().n == 16),
    ("one group", |s| s.layout().derived().groups == 1),
    ("several tiles", |s| s.layout().t > 1),
    ("units of one byte", |s| s.layout().u == 1),
    ("units of 4,096 bytes", |s| s.layout().u == MOST_UNIT_BYTES),
    ("more than 65,536 groups", |s| s.layout().derived().groups > MOST_TILES),
];

/// Of refused swaps.
pub const REFUSED_KINDS: [(&str, Test); 46] = [
    ("1, all else right", |s| s.is(1, [true; 5])),
    ("1, and the length", |s| s.is(1, [false, true, true, true, true])),
    ("1, and the record", |s| s.is_with_record(1, true)),
    ("1, and a target outside", |s| s.is(1, [true, true, false, false, true])),
    ("1, and not in the list", |s| s.is(1, [true, true, true, false, true])),
    ("1, and not repaired", |s| s.is(1, [true, true, true, true, false])),
    ("1, and all of these", |s| s.is(1, [false; 5])),
    ("2, a byte too short", |s| s.is_by_length(|length, right| length + 1 == right)),
    ("2, a byte too long", |s| s.is_by_length(|length, right| length == right + 1)),
    ("2, empty", |s| s.is_by_length(|length, _| length == 0)),
    ("2, above twice as long", |s| s.is_by_length(|length, right| length > 2 * right)),
    ("2, and the record", |s| s.is_with_record(2, false)),
    ("2, and a target outside", |s| s.is(2, [false, true, false, false, true])),
    ("2, and not in the list", |s| s.is(2, [false, true, true, false, true])),
    ("2, and not repaired", |s| s.is(2, [false, true, true, true, false])),
    ("3, k above K", |s| s.refusal == 3 && s.old().k > s.layout().k),
    ("3, q above k", |s| s.is_bad(|_, r| r.q > r.k)),
    ("3, an entry outside", |s| s.is_bad(records::has_a_target_outside)),
    ("3, an entry twice", |s| s.is_bad(|_, r| records::has_a_target_twice(r))),
    ("3, the count alone", |s| s.is_by_count([true, true, true])),
    ("3, and a target outside", |s| s.is_by_count([false, false, true])),
    ("3, and not in the list", |s| s.is_by_count([true, false, true])),
    ("3, and not repaired", |s| s.is_by_count([true, true, false])),
    ("3, not in the list, not repaired", |s| s.is_by_count([true, false, false])),
    ("4, P itself", |s| s.refusal == 4 && s.target == s.layout().p),
    ("4, one above", |s| s.refusal == 4 && s.target == s.layout().p + 1),
    ("4, 2^64-1", |s| s.refusal == 4 && s.target == u64::MAX),
    ("4, listed by its lowest 8 bits", |s| s.refusal == 4 && s.is_listed_by(8)),
    ("4, listed by its lowest 16 bits", |s| s.refusal == 4 && s.is_listed_by(16)),
    ("4, listed by its lowest 32 bits", |s| s.refusal == 4 && s.is_listed_by(32)),
    ("4, and not repaired", |s| s.refusal == 4 && !s.is_repaired()),
    ("4, an entry behind", |s| s.refusal == 4 && s.unused().contains(&s.target)),
    ("11, nothing failed", |s| s.refusal == 11 && s.old().k == 0),
    ("11, without parity", |s| s.refusal == 11 && s.layout().k == 0),
    ("11, all repaired", |s| s.refusal == 11 && s.old().k > 0 && s.is_repaired()),
    ("11, a full list", |s| s.refusal == 11 && s.old().k == 3),
    ("11, and not repaired", |s| s.refusal == 11 && !s.is_repaired()),
    ("11, an entry behind", |s| s.refusal == 11 && s.unused().contains(&s.target)),
    ("11, a false count", |s| s.refusal == 11 && s.is_repaired() && s.old().waiting > 0),
    ("16, none repaired", |s| s.refusal == 16 && s.old().q == 0),
    ("16, some repaired", |s| s.refusal == 16 && s.old().q > 0),
    ("16, of a repaired one", |s| s.refusal == 16 && s.repaired().contains(&s.target)),
    ("16, of one that waits", |s| s.refusal == 16 && !s.repaired().contains(&s.target)),
    ("16, a true count", |s| s.refusal == 16 && s.compares(|count, truth| count == truth)),
    ("16, a count of 0", |s| s.refusal == 16 && s.compares(|count, truth| count == 0 && truth > 0)),
    ("16, nothing missing", |s| s.refusal == 16 && s.compares(|_, truth| truth == 0)),
];

/// Of calls that were accepted on a row that holds a file and took drives back before.
pub const LATER_KINDS: [(&str, LaterTest); 16] = [
    ("read", |c| c.is("read", 0)),
    ("written", |c| c.is("write", 0)),
    ("written by a list", |c| c.is("write_list", 0)),
    ("read with drives dead", |c| c.is("read", 0) && c.some_wait()),
    ("written with drives dead", |c| c.is("write", 0) && c.some_wait()),
    ("repaired", |c| c.is("repair", 0) && c.some_wait()),
    ("repaired by a plan", |c| c.is("repair_by", 0) && c.some_wait()),
    ("moved to the other edition", |c| c.is("move_edition", 0)),
    ("audited, drives dead", |c| c.is("audit", 0) && c.some_wait()),
    ("looked at", |c| c.is("show", 0)),
    ("a drive fails", |c| c.is("fail", 0)),
    ("one that came back fails", |c| c.is("fail", 0) && c.came_back()),
    ("one that came back comes again", |c| c.is("swap", 0) && c.came_back()),
    ("another comes back", |c| c.is("swap", 0) && !c.came_back()),
    ("swapped after five swaps", |c| c.is("swap", 0) && c.pool.returned.len() >= 5),
    ("read after ten swaps", |c| c.is("read", 0) && c.pool.returned.len() >= 10),
];

/// The contents of a pool are looked at where there are so few; most pools are that small.
const FEW: u64 = 600;

/// A content of a group, the units of that group which are its home before a swap and after it, and the target of the latter.
#[derive(Clone, Copy)]
pub struct Journey {
    pub group: u64,
    pub number: u64,
    pub from: u64,
    pub to: u64,
    target: u64,
}

impl Journey {
    pub fn moves(&self) -> bool {
        self.from != self.to
    }

    /// Whether the content moves to this target.
    pub fn comes_to(&self, target: u64) -> bool {
        self.moves() && self.target == target
    }

    fn is_home(&self) -> bool {
        self.to == self.number
    }
}

/// All contents, from their homes under one list to those under another; groups rising, and contents rising within each.
pub fn journeys<'a>(
    y: &'a Layout,
    before: &'a [u64],
    after: &'a [u64],
) -> impl Iterator<Item = Vec<Journey>> + 'a {
    (0..y.derived().groups).map(move |group| {
        let targets = unit_targets(y, group);
        let under = |list| homes(y.contents() as usize, &targets, list);
        let both = under(before).into_iter().zip(under(after));
        let journey = |(number, (from, to)): (u64, (usize, usize))| Journey {
            group,
            number,
            from: from as u64,
            to: to as u64,
            target: targets[to],
        };
        (0..).zip(both).map(journey).collect()
    })
}

/// The entries of a good record that are in use.
pub fn listed(r: &Record) -> &[u64] {
    &r.failed[..r.k as usize]
}

fn is_zero(bytes: &[u8]) -> bool {
    bytes.iter().all(|byte| *byte == 0)
}

impl<'a> Swapped<'a> {
    /// `after` is what the model says the pool is afterwards.
    pub fn of(pool: &'a Pool, target: u64, after: &'a Pool, refusal: u64) -> Swapped<'a> {
        let y = &pool.layout;
        let is_seen = refusal == 0 && most_missing(y) <= FEW;
        let all = || journeys(y, listed(&pool.record), listed(&after.record)).collect();
        let groups = if is_seen { all() } else { vec![] };
        Swapped { pool, target, image: &after.image, refusal, groups }
    }

    fn layout(&self) -> &Layout {
        &self.pool.layout
    }

    fn old(&self) -> &Record {
        &self.pool.record
    }

    /// The entries that are not in use; all of them where k is none.
    fn unused(&self) -> &[u64] {
        &self.old().failed[self.used()..]
    }

    fn used(&self) -> usize {
        usize::try_from(self.old().k).ok().filter(|k| *k <= 3).unwrap_or(0)
    }

    fn repaired(&self) -> &[u64] {
        &self.old().failed[..self.old().q as usize]
    }

    /// Whether the target has this place in a list of so many.
    fn stands(&self, k: u64, place: usize) -> bool {
        self.old().k == k && self.old().failed[place] == self.target
    }

    /// Whether a content passes a test.
    fn has(&self, is_so: impl Fn(&Journey) -> bool) -> bool {
        self.groups.iter().flatten().any(is_so)
    }

    /// Whether a content moves to the target.
    fn comes(&self, journey: &Journey) -> bool {
        journey.comes_to(self.target)
    }

    /// Whether a content moves to where another of its group was, told by their numbers.
    fn follows(&self, is_so: fn(u64, u64) -> bool) -> bool {
        let is_after = |one: &Journey, other: &Journey| {
            one.number != other.number && one.to == other.from && is_so(one.number, other.number)
        };
        let has_two =
            |group: &Vec<Journey>| group.iter().any(|one| group.iter().any(|o| is_after(one, o)));
        self.groups.iter().any(has_two)
    }

    fn has_three_in_a_row(&self) -> bool {
        let next = |group: &[Journey], one: &Journey| {
            group.iter().copied().find(|other| other.moves() && one.to == other.from)
        };
        let has_three = |group: &Vec<Journey>| {
            let moving = group.iter().filter(|one| one.moves());
            let mut second = moving.filter_map(|one| next(group, one));
            second.any(|two| next(group, &two).is_some())
        };
        self.groups.iter().any(has_three)
    }

    /// Whether a spare that a content leaves, and that is no new home, held bytes.
    fn leaves_bytes(&self) -> bool {
        let is_left = |group: &[Journey], one: &Journey| {
            one.moves() && group.iter().all(|other| other.to != one.from)
        };
        let bytes = |one: &Journey| unit(self.layout(), self.image, one.group, one.from);
        let leaves = |group: &Vec<Journey>| {
            group.iter().any(|one| is_left(group, one) && !is_zero(bytes(one)))
        };
        self.groups.iter().any(leaves)
    }

    /// What the target holds before.
    fn new_drive(&self) -> &[u8] {
        let length = self.pool.image.len() / self.layout().p as usize;
        &self.pool.image[self.target as usize * length..][..length]
    }

    fn is_repaired(&self) -> bool {
        self.old().q == self.old().k
    }

    /// Whether the target is inside, is in the list, and all of that are repaired.
    fn asked(&self) -> [bool; 3] {
        let is_listed = self.old().failed[..self.used()].contains(&self.target);
        [self.target < self.layout().p, is_listed, self.is_repaired()]
    }

    fn is_length(&self) -> bool {
        self.pool.image.len() as u64 == self.layout().in_edition(1).derived().image
    }

    fn is_good_record(&self) -> bool {
        records::is_good(&self.layout().in_edition(1), self.old())
    }

    /// Refused so, with a layout that is good but for its edition.
    fn is_refused(&self, refusal: u64) -> bool {
        self.refusal == refusal && self.layout().in_edition(1).refusal() == 0
    }

    /// Refused so, where the length, the record, and what [`Swapped::asked`] tells are right in these.
    fn is(&self, refusal: u64, rights: [bool; 5]) -> bool {
        let [is_inside, is_listed, is_repaired] = self.asked();
        let now = || [self.is_length(), self.is_good_record(), is_inside, is_listed, is_repaired];
        self.is_refused(refusal) && now() == rights
    }

    /// Refused so, though the record is bad too.
    fn is_with_record(&self, refusal: u64, is_length: bool) -> bool {
        self.is_refused(refusal) && self.is_length() == is_length && !self.is_good_record()
    }

    /// Refused for the length alone, by a comparison with the right one.
    fn is_by_length(&self, is_so: fn(usize, usize) -> bool) -> bool {
        let right = self.layout().in_edition(1).derived().image as usize;
        self.is(2, [false, true, true, true, true]) && is_so(self.pool.image.len(), right)
    }

    /// Refused with 3 for a list that is bad so.
    fn is_bad(&self, is_so: fn(&Layout, &Record) -> bool) -> bool {
        let within = records::is_within_k(self.layout(), self.old());
        self.refusal == 3 && within && is_so(self.layout(), self.old())
    }

    /// Refused with 3 for the count alone, where what [`Swapped::asked`] tells is this.
    fn is_by_count(&self, asked: [bool; 3]) -> bool {
        self.refusal == 3 && self.pool.with_count(0).is_sound() && self.asked() == asked
    }

    fn is_listed_by(&self, bits: u32) -> bool {
        listed(self.old()).contains(&(self.target & ((1 << bits) - 1)))
    }

    /// How the count compares with the true one, where that is soon counted.
    fn compares(&self, is_so: fn(u64, u64) -> bool) -> bool {
        let (y, r) = (self.layout(), self.old());
        most_missing(y) <= FEW && is_so(r.waiting, missing_units(y, r))
    }
}

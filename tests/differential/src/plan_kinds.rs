//! What calls on plans of repair are like: each kind by its name, told of a call as it was made and answered.

use crate::plan_draws::{width, Origin, Proposal};
use crate::pools::Pool;
use crate::tally::Call;
use oracle::place::unit_targets;
use oracle::pool::homes;
use oracle::pool_count::most_missing;
use oracle::pool_plan::{drawn_plan, repair_by};

/// A plan that was checked or run, and what the model answered.
pub struct Planned<'a> {
    pub pool: &'a Pool,
    pub proposal: &'a Proposal,
    pub refusal: u64,
    /// Our planner's plan, where the pool is sound and has few contents; so has most of them.
    ours: Option<Vec<u64>>,
}

/// A plan that our planner was asked for, and what the model answered.
pub struct Drawing<'a> {
    pub pool: &'a Pool,
    /// How many numbers the buffer had, and how many the plan takes, or was to take before the pool was damaged.
    pub room: usize,
    pub needed: usize,
    pub refusal: u64,
}

type Test = fn(&Planned) -> bool;
type DrawingTest = fn(&Drawing) -> bool;

/// The two calls that take a plan: each must meet all kinds and all damage, since one might not do what the other does.
pub const PLAN_TAKERS: [Call; 2] = [Call::CheckPlan, Call::RepairBy];

/// A library that is wrong for one of these may be right for all others, so each must be met.
pub const PLAN_KINDS: [(&str, Test); 28] = [
    ("nothing failed, no entry", |p| p.is_accepted() && p.pool.record.k == 0),
    ("all repaired, no entry", |p| p.is_accepted() && p.all_repaired()),
    ("some wait, nothing missing", |p| p.is_accepted() && p.some_wait() && p.plan().is_empty()),
    ("none repaired", |p| p.runs() && p.pool.record.q == 0),
    ("some repaired", |p| p.runs() && p.pool.record.q > 0),
    ("missing after a repair", |p| p.runs() && p.entries().any(|entry| p.is_moved(entry, 1))),
    ("a single entry", |p| p.runs() && p.entries().len() == 1),
    ("our planner's plan", |p| p.runs() && p.is_ours()),
    ("our order, other sources", |p| p.runs() && !p.is_ours() && p.is_in_our_order()),
    ("groups not rising", |p| p.runs() && p.goes(|one, next| next[0] < one[0])),
    ("entries of a group apart", |p| p.runs() && p.has_groups_apart()),
    ("contents falling in a group", |p| {
        p.runs() && p.goes(|one, next| next[0] == one[0] && next[1] < one[1])
    }),
    ("sources not rising", |p| p.runs() && p.entries().any(|entry| !entry[2..].is_sorted())),
    ("sources not the lowest", |p| p.runs() && p.entries().any(|entry| p.is_not_lowest(entry))),
    ("sources on spares", |p| p.runs() && p.entries().any(|entry| p.has_moved_sources(entry))),
    ("other sources in a group", |p| p.runs() && p.has_other_sources()),
    ("two missing in a group", |p| p.runs() && p.most_in_a_group() == 2),
    ("three missing in a group", |p| p.runs() && p.most_in_a_group() == 3),
    ("16 sources", |p| p.runs() && p.pool.layout.n == 16),
    ("1, and a right plan", |p| p.refusal == 1 && p.origin() == Origin::Right),
    ("2, and a right plan", |p| p.refusal == 2 && p.origin() == Origin::Right),
    ("3, and a right plan", |p| p.refusal == 3 && p.origin() == Origin::Right),
    ("1, and a bad plan", |p| p.refusal == 1 && p.is_damaged()),
    ("2, and a bad plan", |p| p.refusal == 2 && p.is_damaged()),
    ("3, and a bad plan", |p| p.refusal == 3 && p.is_damaged()),
    ("3, no whole entries", |p| p.refusal == 3 && p.plan().len() % width(&p.pool.layout) != 0),
    ("15, empty, none by the count", |p| {
        p.refusal == 15 && p.plan().is_empty() && p.pool.record.waiting == 0
    }),
    ("15, of another pool", |p| p.refusal == 15 && p.origin() == Origin::Right),
];

/// Of repairs by a plan alone, since they look at the image's bytes.
pub const RUN_KINDS: [(&str, Test); 4] = [
    ("of a file", |p| p.runs() && p.pool.holds_file),
    ("of a file, dead drives changed", |p| p.runs() && p.pool.holds_file && p.pool.is_scribbled),
    ("of no file", |p| p.runs() && !p.pool.holds_file),
    ("of no file, not as plain repair", |p| {
        p.runs() && !p.pool.holds_file && p.leaves_other_bytes()
    }),
];

pub const DRAWING_KINDS: [(&str, DrawingTest); 15] = [
    ("as long as it must be", |d| d.refusal == 0 && d.room == d.needed && d.needed > 0),
    ("a number longer", |d| d.refusal == 0 && d.room == d.needed + 1 && d.needed > 0),
    ("an entry longer and more", |d| d.refusal == 0 && d.room > d.needed + d.width()),
    ("a number too short", |d| d.refusal == 5 && d.room + 1 == d.needed),
    ("an entry too short", |d| d.refusal == 5 && d.room + d.width() == d.needed && d.room > 0),
    ("all repaired", |d| d.refusal == 0 && d.pool.record.k > 0 && d.needed == 0),
    ("some repaired", |d| d.refusal == 0 && d.pool.record.q > 0 && d.needed > 0),
    ("empty, something missing", |d| d.refusal == 5 && d.room == 0),
    ("empty, nothing missing", |d| d.refusal == 0 && d.room == 0),
    ("numbers, nothing missing", |d| d.refusal == 0 && d.room > 0 && d.needed == 0),
    ("1, and too short", |d| d.refusal == 1 && d.room < d.needed),
    ("2, and too short", |d| d.refusal == 2 && d.room < d.needed),
    ("3, and too short", |d| d.refusal == 3 && d.room < d.needed),
    ("5, but not by the count", |d| d.refusal == 5 && d.room >= d.by_the_count()),
    ("long enough, not by the count", |d| d.refusal == 0 && d.room < d.by_the_count()),
];

/// The contents of a pool are counted where there are so few; most pools are that small.
const FEW: u64 = 600;

impl<'a> Planned<'a> {
    pub fn of(pool: &'a Pool, proposal: &'a Proposal, refusal: u64) -> Planned<'a> {
        let is_small = || pool.is_sound() && most_missing(&pool.layout) <= FEW;
        let ours = is_small().then(|| drawn_plan(&pool.layout, &pool.record));
        Planned { pool, proposal, refusal, ours }
    }

    fn plan(&self) -> &[u64] {
        &self.proposal.plan
    }

    fn origin(&self) -> Origin {
        self.proposal.origin
    }

    fn is_damaged(&self) -> bool {
        matches!(self.origin(), Origin::Damaged(_))
    }

    /// The damage that is refused with 15, and so with nothing else.
    pub fn told_damage(&self) -> Option<usize> {
        match self.origin() {
            Origin::Damaged(kind) if self.refusal == 15 => Some(kind),
            _ => None,
        }
    }

    fn is_accepted(&self) -> bool {
        self.refusal == 0 && self.ours.is_some()
    }

    /// Accepted, with something missing.
    fn runs(&self) -> bool {
        self.is_accepted() && !self.plan().is_empty()
    }

    fn some_wait(&self) -> bool {
        self.pool.record.q < self.pool.record.k
    }

    fn all_repaired(&self) -> bool {
        self.pool.record.k > 0 && !self.some_wait()
    }

    fn entries(&self) -> std::slice::Chunks<'_, u64> {
        self.plan().chunks(width(&self.pool.layout))
    }

    fn is_ours(&self) -> bool {
        self.ours.as_deref() == Some(self.plan())
    }

    /// The entries of our planner's plan.
    fn our_entries(&self) -> std::slice::Chunks<'_, u64> {
        self.ours.as_deref().unwrap_or_default().chunks(width(&self.pool.layout))
    }

    fn is_in_our_order(&self) -> bool {
        self.entries().zip(self.our_entries()).all(|(entry, ours)| entry[..2] == ours[..2])
    }

    /// Whether two entries, one after the other, pass a test.
    fn goes(&self, test: fn(&[u64], &[u64]) -> bool) -> bool {
        self.entries().zip(self.entries().skip(1)).any(|(one, next)| test(one, next))
    }

    /// Whether between two entries of a group stand some of others: it comes up anew more often than there are groups.
    fn has_groups_apart(&self) -> bool {
        let mut groups: Vec<u64> = self.entries().map(|entry| entry[0]).collect();
        groups.dedup();
        let runs = groups.len();
        groups.sort();
        groups.dedup();
        runs > groups.len()
    }

    /// Whether the sources are others than our planner's, not in another order alone.
    fn is_not_lowest(&self, entry: &[u64]) -> bool {
        let mut sources = entry[2..].to_vec();
        sources.sort();
        self.our_entries().any(|ours| ours[..2] == entry[..2] && ours[2..] != sources)
    }

    /// Whether the content at a place of the entry was repaired before: its home is a spare.
    fn is_moved(&self, entry: &[u64], place: usize) -> bool {
        let (y, r) = (&self.pool.layout, &self.pool.record);
        let (group, content) = (entry[0], entry[place] as usize);
        let repaired = &r.failed[..r.q as usize];
        homes(y.contents() as usize, &unit_targets(y, group), repaired)[content] != content
    }

    fn has_moved_sources(&self, entry: &[u64]) -> bool {
        (2..entry.len()).any(|place| self.is_moved(entry, place))
    }

    /// Whether two contents of a group have not the same sources.
    fn has_other_sources(&self) -> bool {
        let sorted = |entry: &[u64]| {
            let mut sources = entry[2..].to_vec();
            sources.sort();
            sources
        };
        let are_other = |one: &[u64], other: &[u64]| {
            one[0] == other[0] && one[1] != other[1] && sorted(one) != sorted(other)
        };
        self.entries().any(|one| self.entries().any(|other| are_other(one, other)))
    }

    fn most_in_a_group(&self) -> usize {
        let of_group = |group: u64| self.entries().filter(|entry| entry[0] == group).count();
        self.entries().map(|entry| of_group(entry[0])).max().unwrap_or(0)
    }

    /// Whether the plan leaves another image than plain repair does.
    fn leaves_other_bytes(&self) -> bool {
        let (y, r) = (&self.pool.layout, &self.pool.record);
        let (mut by_plan, mut plain) = (self.pool.image.clone(), self.pool.image.clone());
        repair_by(y, r, &mut by_plan, self.plan());
        oracle::pool::repair(y, r, &mut plain);
        by_plan != plain
    }
}

impl Drawing<'_> {
    fn width(&self) -> usize {
        width(&self.pool.layout)
    }

    /// How many numbers a plan would take if the record's count were what is missing.
    fn by_the_count(&self) -> usize {
        self.pool.record.waiting as usize * self.width()
    }
}

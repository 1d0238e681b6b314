//! The calls on plans of repair on the library; on purpose with a fault in a rule of theirs. A library with such a fault is
//! made of the right one: the plan that it is given is another, or what it answers and leaves.

use crate::bench::Bench;
use crate::count_rules;
use crate::lent::Lent;
use crate::plan_draws::{present, width};
use crate::pools::Pool;
use crate::spoil::Spoil;
use oracle::place::{place, unit_targets};
use oracle::pool::homes;
use oracle::pool_plan::{check_plan, drawn_plan, missing_contents, Pair, BAD_PLAN};
use splicebell::raw::{self, splicebell_drawn, splicebell_layout, splicebell_repaired};
use std::collections::BTreeSet;

/// What a library with a fault would do.
#[derive(Clone, Copy, Debug, PartialEq, Eq)]
pub enum PlanRule {
    /// A content may be named twice, also in another's place.
    NamedTwice,
    /// A missing content may be left out.
    LeftOut,
    /// Where nothing is named, everything is repaired.
    EmptyTaken,
    /// A present content may be named too.
    PresentToo,
    /// A group outside may be named too.
    OutsideToo,
    /// A source may be missing.
    MissingSource,
    /// A source may be named twice.
    SourceTwice,
    /// Of a group, a content or a source only so many bits are looked at.
    Narrow(Numbers, u32),
    /// What stands behind the last whole entry is not looked at.
    RestIgnored,
    /// The N lowest present contents are taken, whatever is named.
    SourcesIgnored,
    /// q stays as it was.
    QKept,
    /// The record's count stays as it was.
    WaitingKept,
    /// The repair answers the record's count, not its own.
    CountTaken,
    /// The record is handed back as a repaired one though the plan is refused.
    RepairedThoughRefused,
    /// What is rebuilt is stored where it was before.
    OldHomes,
    /// Something is stored though the plan is refused.
    StoredThoughRefused,
    /// A plan of no whole entries is refused before the record is looked at.
    PlanFirst,
    /// The planner writes what fits though the buffer is too short.
    DrawnThoughShort,
    /// The planner clears what stands behind its plan.
    RestCleared,
    /// The planner passes over the lowest present content where it can.
    SecondLowest,
    /// The planner's groups and contents fall.
    DrawnBackwards,
    /// The planner takes a buffer that is as long as it must be for one that is too short.
    ExactTooShort,
    /// The planner wants room for as many entries as the record counts.
    RoomByCount,
    /// The planner answers the length that it wants though it is refused.
    LengthThoughRefused,
    /// The planner answers how many entries its plan has.
    LengthInEntries,
}

/// The numbers of an entry.
#[derive(Clone, Copy, Debug, PartialEq, Eq)]
pub enum Numbers {
    Group,
    Content,
    Sources,
}

/// The library, or one with a fault.
#[derive(Clone, Copy)]
pub struct Library {
    rule: Option<PlanRule>,
    /// A fault in a rule of the count shows in these calls too.
    by_count: count_rules::Library,
}

impl Library {
    pub fn of(bench: &Bench) -> Library {
        let rule = match bench.spoil {
            Some(Spoil::Plan(rule)) => Some(rule),
            _ => None,
        };
        Library { rule, by_count: count_rules::Library::of(bench) }
    }

    /// The plan that the right library is to be given, where it is another.
    fn taken_for(self, pool: &Pool, plan: &[u64]) -> Option<Vec<u64>> {
        let rule = self.rule.filter(|_| pool.is_sound())?;
        let is_whole = plan.len() % width(&pool.layout) == 0;
        (is_whole || rule == PlanRule::RestIgnored).then(|| mended(rule, pool, plan))
    }

    pub fn check_plan(
        self,
        y: splicebell_layout,
        pool: &Pool,
        image: &Lent<u8>,
        plan: &Lent<u64>,
    ) -> u64 {
        let r = self.by_count.record(pool);
        let other = self.taken_for(pool, plan.contents());
        let (first, numbers) = plan_or(plan, &other);
        // SAFETY: both pointers lead to that many elements.
        let answer = unsafe {
            raw::splicebell_check_plan(y, r, image.pointer(), image.len(), first, numbers)
        };
        self.refusal(pool, plan.contents(), answer)
    }

    /// What is answered for a plan where the right library answers this.
    fn refusal(self, pool: &Pool, plan: &[u64], answer: u64) -> u64 {
        let is_first = self.rule == Some(PlanRule::PlanFirst) && answer == 3;
        if is_first && plan.len() % width(&pool.layout) != 0 {
            return BAD_PLAN;
        }
        answer
    }

    pub fn repair_by(
        self,
        y: splicebell_layout,
        pool: &Pool,
        image: &Lent<u8>,
        plan: &Lent<u64>,
    ) -> splicebell_repaired {
        let r = self.by_count.record(pool);
        let other = self.taken_for(pool, plan.contents());
        let (first, numbers) = plan_or(plan, &other);
        // SAFETY: both pointers lead to that many elements, and the buffers lie apart.
        let mut answer = unsafe {
            raw::splicebell_repair_by(y, r, image.pointer(), image.len(), first, numbers)
        };
        answer.record = self.by_count.handed_back(pool, answer.record);
        answer.refusal = self.refusal(pool, plan.contents(), answer.refusal);
        match self.rule {
            Some(rule) => repaired_by(rule, pool, image, answer),
            None => answer,
        }
    }

    pub fn draw_plan(
        self,
        y: splicebell_layout,
        pool: &Pool,
        image: &Lent<u8>,
        plan: &Lent<u64>,
    ) -> splicebell_drawn {
        let r = self.by_count.record(pool);
        let before = plan.contents().to_vec();
        let (at, room) = (plan.pointer(), plan.len());
        // SAFETY: both pointers lead to that many elements, and the buffers lie apart.
        let answer =
            unsafe { raw::splicebell_draw_plan(y, r, image.pointer(), image.len(), at, room) };
        match self.rule {
            Some(rule) if pool.is_sound() => drawn_by(rule, pool, plan, &before, answer),
            _ => answer,
        }
    }
}

/// Where the plan begins that the right library is given, and how many numbers it has.
fn plan_or(plan: &Lent<u64>, other: &Option<Vec<u64>>) -> (*const u64, usize) {
    match other {
        Some(other) => (other.as_ptr(), other.len()),
        None => (plan.pointer(), plan.len()),
    }
}

/// The plan without the flaw that the rule does not see.
fn mended(rule: PlanRule, pool: &Pool, plan: &[u64]) -> Vec<u64> {
    let y = &pool.layout;
    match rule {
        PlanRule::NamedTwice => once_each(pool, plan),
        PlanRule::LeftOut => with_all(pool, plan),
        PlanRule::EmptyTaken if plan.is_empty() => with_all(pool, plan),
        PlanRule::PresentToo => without(pool, plan, |(group, content)| {
            group < y.derived().groups && present(pool, group).contains(&content)
        }),
        PlanRule::OutsideToo => without(pool, plan, |pair| pair.0 >= y.derived().groups),
        PlanRule::MissingSource => with_other_sources(pool, plan, |present, _, source| {
            source < y.contents() && !present.contains(&source)
        }),
        PlanRule::SourceTwice => {
            with_other_sources(pool, plan, |_, before, source| before.contains(&source))
        }
        PlanRule::Narrow(numbers, bits) => narrowed(pool, plan, numbers, bits),
        PlanRule::RestIgnored => plan[..plan.len() - plan.len() % width(y)].to_vec(),
        PlanRule::SourcesIgnored if check_plan(y, &pool.record, &pool.image, plan) == 0 => {
            drawn_plan(y, &pool.record)
        }
        _ => plan.to_vec(),
    }
}

/// The plan without the entries of such contents.
fn without(pool: &Pool, plan: &[u64], mut is_such: impl FnMut(Pair) -> bool) -> Vec<u64> {
    let entries = plan.chunks(width(&pool.layout));
    let kept: Vec<&[u64]> = entries.filter(|entry| !is_such((entry[0], entry[1]))).collect();
    kept.concat()
}

/// Where a content is named twice: each once, and all that is missing.
fn once_each(pool: &Pool, plan: &[u64]) -> Vec<u64> {
    let mut named = BTreeSet::new();
    let once = without(pool, plan, |pair| !named.insert(pair));
    if once.len() < plan.len() {
        return with_all(pool, &once);
    }
    once
}

/// The plan with our planner's entries for what it leaves out.
fn with_all(pool: &Pool, plan: &[u64]) -> Vec<u64> {
    let entries = plan.chunks(width(&pool.layout));
    let named: BTreeSet<Pair> = entries.map(|entry| (entry[0], entry[1])).collect();
    let ours = drawn_plan(&pool.layout, &pool.record);
    let left_out = without(pool, &ours, |pair| named.contains(&pair));
    [plan, &left_out].concat()
}

/// The plan with another present content for each source that a test finds, which is told the present ones and the sources
/// before it.
fn with_other_sources(
    pool: &Pool,
    plan: &[u64],
    is_found: impl Fn(&[u64], &[u64], u64) -> bool,
) -> Vec<u64> {
    let mut plan = plan.to_vec();
    let has_group = |entry: &&mut [u64]| entry[0] < pool.layout.derived().groups;
    for entry in plan.chunks_mut(width(&pool.layout)).filter(has_group) {
        let (present, sources) = (present(pool, entry[0]), &mut entry[2..]);
        for i in 0..sources.len() {
            let other = present.iter().find(|content| !sources.contains(content));
            if is_found(&present, &sources[..i], sources[i]) {
                sources[i] = other.copied().unwrap_or(sources[i]);
            }
        }
    }
    plan
}

/// The plan with the lowest bits alone of some of its numbers.
fn narrowed(pool: &Pool, plan: &[u64], numbers: Numbers, bits: u32) -> Vec<u64> {
    let is_such = |place: usize| match numbers {
        Numbers::Group => place == 0,
        Numbers::Content => place == 1,
        Numbers::Sources => place > 1,
    };
    let lowest = |(i, number): (usize, &u64)| {
        let is_cut = is_such(i % width(&pool.layout));
        number & if is_cut { (1 << bits) - 1 } else { u64::MAX }
    };
    plan.iter().enumerate().map(lowest).collect()
}

/// Where a content's home begins in the image, under the first `failures` of the pool's list.
fn home(pool: &Pool, (group, content): Pair, failures: u64) -> usize {
    let (y, r) = (&pool.layout, &pool.record);
    let list = &r.failed[..failures as usize];
    let unit = homes(y.contents() as usize, &unit_targets(y, group), list)[content as usize];
    place(y, group, unit as u64).1.begins as usize
}

/// What repair by a plan answers and leaves by a wrong rule.
fn repaired_by(
    rule: PlanRule,
    pool: &Pool,
    image: &Lent<u8>,
    mut answer: splicebell_repaired,
) -> splicebell_repaired {
    let is_accepted = answer.refusal == 0;
    match rule {
        PlanRule::QKept if is_accepted => answer.record.q = pool.record.q,
        PlanRule::WaitingKept if is_accepted => answer.record.waiting = pool.record.waiting,
        PlanRule::CountTaken if is_accepted => answer.count = pool.record.waiting,
        PlanRule::RepairedThoughRefused if answer.refusal == BAD_PLAN => {
            answer.record.q = answer.record.k;
            answer.record.waiting = 0;
        }
        PlanRule::OldHomes if is_accepted => put_back(pool, image),
        PlanRule::StoredThoughRefused if answer.refusal == BAD_PLAN => {
            let missing = missing_contents(&pool.layout, &pool.record);
            if let Some(pair) = missing.first() {
                let at = home(pool, *pair, pool.record.k);
                store(image, at, !pool.image[at]);
            }
        }
        _ => {}
    }
    answer
}

/// Puts what was rebuilt to the places where it was before, and what stood at its new ones back there.
fn put_back(pool: &Pool, image: &Lent<u8>) {
    let after = image.contents().to_vec();
    for pair in missing_contents(&pool.layout, &pool.record) {
        let (old, new) = (home(pool, pair, pool.record.q), home(pool, pair, pool.record.k));
        for i in 0..pool.layout.u as usize {
            store(image, new + i, pool.image[new + i]);
            store(image, old + i, after[new + i]);
        }
    }
}

/// What the planner answers and leaves by a wrong rule, on a sound pool.
fn drawn_by(
    rule: PlanRule,
    pool: &Pool,
    plan: &Lent<u64>,
    before: &[u64],
    mut answer: splicebell_drawn,
) -> splicebell_drawn {
    let (width, is_accepted) = (width(&pool.layout), answer.refusal == 0);
    let ours = drawn_plan(&pool.layout, &pool.record);
    let by_count = width as u64 * pool.record.waiting;
    let is_too_short = match rule {
        PlanRule::ExactTooShort => plan.len() == ours.len(),
        PlanRule::RoomByCount => (plan.len() as u64) < by_count,
        _ => false,
    };
    if is_accepted && is_too_short && !ours.is_empty() {
        store_all(plan, before);
        return splicebell_drawn { refusal: 5, length: 0 };
    }
    match rule {
        PlanRule::DrawnThoughShort if !is_accepted => store_all(plan, &ours[..plan.len()]),
        PlanRule::RestCleared if is_accepted => {
            (ours.len()..plan.len()).for_each(|i| store(plan, i, 0));
        }
        PlanRule::SecondLowest if is_accepted => store_all(plan, &passing_over(pool, &ours)),
        PlanRule::DrawnBackwards if is_accepted => {
            let entries: Vec<&[u64]> = ours.chunks(width).rev().collect();
            store_all(plan, &entries.concat());
        }
        PlanRule::LengthThoughRefused if !is_accepted => answer.length = ours.len() as u64,
        PlanRule::LengthInEntries => answer.length /= width as u64,
        _ => {}
    }
    answer
}

/// Our planner's plan with the lowest source left out where there is another.
fn passing_over(pool: &Pool, ours: &[u64]) -> Vec<u64> {
    let mut plan = ours.to_vec();
    for entry in plan.chunks_mut(width(&pool.layout)) {
        let (present, n) = (present(pool, entry[0]), entry.len() - 2);
        if present.len() > n {
            entry[2..].copy_from_slice(&present[1..=n]);
        }
    }
    plan
}

fn store<T: Copy>(lent: &Lent<T>, at: usize, element: T) {
    assert!(at < lent.len());
    // SAFETY: inside the buffer, which is lent to be changed.
    unsafe { *lent.pointer().add(at) = element };
}

/// Puts these at the beginning.
fn store_all<T: Copy>(lent: &Lent<T>, elements: &[T]) {
    elements.iter().enumerate().for_each(|(i, element)| store(lent, i, *element));
}

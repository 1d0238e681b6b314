//! What can happen to a plan of repair on its way: each kind of damage by its name.

use crate::draws::Draws;
use crate::plan_draws::{entry, present, width};
use crate::pools::Pool;
use oracle::pool_plan::presence;
use std::ops::Range;

/// Changes a right plan of the pool, where it has what this damage needs. Some damage may leave a right plan: what is
/// right, the model says.
type Harm = fn(&mut Draws, &Pool, &mut Vec<u64>);

/// The places of a group, of a content and of the first source in an entry.
const GROUP: usize = 0;
const CONTENT: usize = 1;
const SOURCES: usize = 2;

/// How often another damage is looked for where the plan has not what the drawn one needs.
const TRIES: usize = 6;
/// One in so many times it is one of the first few, which need what few plans have.
const SELDOM: u64 = 6;
const FEW: usize = 4;

pub const PLAN_DAMAGES: [(&str, Harm); 41] = [
    ("another missing source", another_missing_source),
    ("a source twice", source_twice),
    ("one twice, another left out", one_for_another),
    ("the group before it", group_before),
    ("an entry left out", left_out),
    ("an entry twice", entry_twice),
    ("a content twice", content_twice),
    ("itself as a source", itself_as_source),
    ("a source of N+K", |d, p, plan| source(d, p, plan, |_, p| p.layout.contents())),
    ("a source above N+K", |d, p, plan| source(d, p, plan, above_contents)),
    ("a source of 2^32", |d, p, plan| source(d, p, plan, |_, _| 1 << 32)),
    ("a source of 2^63", |d, p, plan| source(d, p, plan, |_, _| 1 << 63)),
    ("a source of 2^64-1", |d, p, plan| source(d, p, plan, |_, _| u64::MAX)),
    ("a source right modulo 2^8", right_modulo::<SOURCES, 8>),
    ("a source right modulo 2^16", right_modulo::<SOURCES, 16>),
    ("a source right modulo 2^32", right_modulo::<SOURCES, 32>),
    ("a content of N+K", |d, p, plan| content(d, p, plan, |_, p| p.layout.contents())),
    ("a content above N+K", |d, p, plan| content(d, p, plan, above_contents)),
    ("a content far above", |d, p, plan| content(d, p, plan, |d, _| far(d))),
    ("a content right modulo 2^8", right_modulo::<CONTENT, 8>),
    ("a content right modulo 2^16", right_modulo::<CONTENT, 16>),
    ("a content right modulo 2^32", right_modulo::<CONTENT, 32>),
    ("a present content instead", present_instead),
    ("a present content too", present_too),
    ("a group of T*C", |d, p, plan| group(d, p, plan, |_, p| p.layout.derived().groups)),
    ("a group far above", |d, p, plan| group(d, p, plan, |d, _| far(d))),
    ("a group right modulo 2^16", right_modulo::<GROUP, 16>),
    ("a group right modulo 2^32", right_modulo::<GROUP, 32>),
    ("another group", |d, p, plan| group(d, p, plan, |d, p| d.below(p.layout.derived().groups))),
    ("a group of T*C too", group_outside_too),
    ("a number too many", number_too_many),
    ("a number too few", number_too_few),
    ("an entry cut", entry_cut),
    ("an entry and more", entry_and_more),
    ("empty, something missing", empty),
    ("an entry, nothing missing", entry_for_nothing),
    ("a number, nothing missing", number_for_nothing),
    ("zeros", |_, _, plan| plan.fill(0)),
    ("numbers within the bounds", numbers_within),
    ("any numbers", |draws, _, plan| plan.iter_mut().for_each(|number| *number = draws.edge())),
    ("shifted by a number", shifted),
];

/// Damages the plan in one way; which, where it has what some damage needs.
pub fn damage(draws: &mut Draws, pool: &Pool, plan: &mut Vec<u64>) -> Option<usize> {
    for _ in 0..TRIES {
        let among = if draws.one_in(SELDOM) { FEW } else { PLAN_DAMAGES.len() };
        let kind = draws.place(among);
        let before = plan.clone();
        PLAN_DAMAGES[kind].1(draws, pool, plan);
        if *plan != before {
            return Some(kind);
        }
    }
    None
}

/// Where one of the entries lies, the first and the last one more often; none where the plan has none.
fn some_entry(draws: &mut Draws, pool: &Pool, plan: &[u64]) -> Option<Range<usize>> {
    let width = width(&pool.layout);
    let last = (plan.len() / width).checked_sub(1)?;
    let any = draws.place(last + 1);
    let entry = draws.pick(&[0, last, any, any]);
    Some(entry * width..(entry + 1) * width)
}

/// Where an entry may be put in: before any, or behind the last.
fn some_gap(draws: &mut Draws, pool: &Pool, plan: &[u64]) -> usize {
    let entries = plan.len() / width(&pool.layout);
    draws.place(entries + 1) * width(&pool.layout)
}

/// Another number in one place of some entry.
fn renumbered(
    draws: &mut Draws,
    pool: &Pool,
    plan: &mut [u64],
    place: impl FnOnce(&mut Draws) -> usize,
    number: impl FnOnce(&mut Draws, &Pool) -> u64,
) {
    if let Some(entry) = some_entry(draws, pool, plan) {
        let place = place(draws);
        plan[entry.start + place] = number(draws, pool);
    }
}

fn group(draws: &mut Draws, pool: &Pool, plan: &mut [u64], number: fn(&mut Draws, &Pool) -> u64) {
    renumbered(draws, pool, plan, |_| GROUP, number);
}

fn content(draws: &mut Draws, pool: &Pool, plan: &mut [u64], number: fn(&mut Draws, &Pool) -> u64) {
    renumbered(draws, pool, plan, |_| CONTENT, number);
}

fn source(draws: &mut Draws, pool: &Pool, plan: &mut [u64], number: fn(&mut Draws, &Pool) -> u64) {
    renumbered(draws, pool, plan, |draws| some_source(draws, pool), number);
}

fn some_source(draws: &mut Draws, pool: &Pool) -> usize {
    SOURCES + draws.place(pool.layout.n as usize)
}

/// A spare's number, or one past the spares.
fn above_contents(draws: &mut Draws, pool: &Pool) -> u64 {
    draws.between(pool.layout.contents() + 1, pool.layout.derived().w + 2)
}

/// A number that no bound of a layout comes near.
fn far(draws: &mut Draws) -> u64 {
    let any = draws.word() | 1 << 40;
    draws.pick(&[1 << 32, 1 << 63, u64::MAX, any])
}

/// The number in its place with something above its lowest bits: seen only where more than those are looked at.
fn right_modulo<const PLACE: usize, const BITS: u32>(
    draws: &mut Draws,
    pool: &Pool,
    plan: &mut Vec<u64>,
) {
    let Some(entry) = some_entry(draws, pool, plan) else { return };
    let at = entry.start + if PLACE == SOURCES { some_source(draws, pool) } else { PLACE };
    let above = (2 * draws.below(1 << 6) + 1) << BITS;
    let is_inside = PLACE == GROUP && plan[at] + above < pool.layout.derived().groups;
    if !is_inside {
        plan[at] += above;
    }
}

/// As many entries as before: one of them stands in another's place too.
fn one_for_another(draws: &mut Draws, pool: &Pool, plan: &mut Vec<u64>) {
    let (one, other) = (some_entry(draws, pool, plan), some_entry(draws, pool, plan));
    if let (Some(one), Some(other)) = (one, other) {
        plan.copy_within(one, other.start);
    }
}

fn left_out(draws: &mut Draws, pool: &Pool, plan: &mut Vec<u64>) {
    if let Some(entry) = some_entry(draws, pool, plan) {
        plan.drain(entry);
    }
}

fn entry_twice(draws: &mut Draws, pool: &Pool, plan: &mut Vec<u64>) {
    if let Some(one) = some_entry(draws, pool, plan) {
        let again = plan[one.clone()].to_vec();
        let gap = some_gap(draws, pool, plan);
        let at = draws.pick(&[one.end, plan.len(), gap]);
        plan.splice(at..at, again);
    }
}

/// Named once more, perhaps with other sources.
fn content_twice(draws: &mut Draws, pool: &Pool, plan: &mut Vec<u64>) {
    if let Some(one) = some_entry(draws, pool, plan) {
        let again = entry(draws, pool, (plan[one.start], plan[one.start + 1]));
        let at = some_gap(draws, pool, plan);
        plan.splice(at..at, again);
    }
}

fn itself_as_source(draws: &mut Draws, pool: &Pool, plan: &mut Vec<u64>) {
    if let Some(entry) = some_entry(draws, pool, plan) {
        let at = entry.start + some_source(draws, pool);
        plan[at] = plan[entry.start + CONTENT];
    }
}

/// A missing content of the same group in a source's place, where some group misses more than one.
fn another_missing_source(draws: &mut Draws, pool: &Pool, plan: &mut Vec<u64>) {
    let mut entries: Vec<&mut [u64]> = plan.chunks_mut(width(&pool.layout)).collect();
    draws.shuffle(&mut entries);
    for entry in entries {
        let presence = presence(&pool.layout, &pool.record, entry[GROUP]);
        let is_other = |content: &u64| *content != entry[CONTENT] && !presence[*content as usize];
        let others: Vec<u64> = (0..pool.layout.contents()).filter(is_other).collect();
        if !others.is_empty() {
            entry[some_source(draws, pool)] = draws.pick(&others);
            return;
        }
    }
}

fn source_twice(draws: &mut Draws, pool: &Pool, plan: &mut Vec<u64>) {
    if let Some(entry) = some_entry(draws, pool, plan) {
        let (one, other) = (some_source(draws, pool), some_source(draws, pool));
        plan[entry.start + one] = plan[entry.start + other];
    }
}

fn present_instead(draws: &mut Draws, pool: &Pool, plan: &mut Vec<u64>) {
    if let Some(entry) = some_entry(draws, pool, plan) {
        plan[entry.start + CONTENT] = draws.pick(&present(pool, plan[entry.start]));
    }
}

/// All that is missing, and one entry more, that would be right if its content were missing.
fn present_too(draws: &mut Draws, pool: &Pool, plan: &mut Vec<u64>) {
    if plan.is_empty() {
        return;
    }
    let more = entry_of_present(draws, pool);
    let at = some_gap(draws, pool, plan);
    plan.splice(at..at, more);
}

/// An entry for a present content of any group.
fn entry_of_present(draws: &mut Draws, pool: &Pool) -> Vec<u64> {
    let group = draws.below(pool.layout.derived().groups);
    let content = draws.pick(&present(pool, group));
    entry(draws, pool, (group, content))
}

fn group_before(draws: &mut Draws, pool: &Pool, plan: &mut Vec<u64>) {
    if let Some(entry) = some_entry(draws, pool, plan).filter(|entry| entry.start > 0) {
        plan[entry.start] = plan[entry.start - width(&pool.layout)];
    }
}

/// All that is missing, and an entry of a group that the pool does not have.
fn group_outside_too(draws: &mut Draws, pool: &Pool, plan: &mut Vec<u64>) {
    if let Some(one) = some_entry(draws, pool, plan) {
        let mut more = plan[one].to_vec();
        more[GROUP] = pool.layout.derived().groups;
        let at = some_gap(draws, pool, plan);
        plan.splice(at..at, more);
    }
}

fn number_too_many(draws: &mut Draws, pool: &Pool, plan: &mut Vec<u64>) {
    if !plan.is_empty() {
        plan.push(draws.below(pool.layout.contents()));
    }
}

fn number_too_few(_: &mut Draws, _: &Pool, plan: &mut Vec<u64>) {
    plan.pop();
}

/// Of the last entry some numbers are gone, all but one at most.
fn entry_cut(draws: &mut Draws, pool: &Pool, plan: &mut Vec<u64>) {
    if !plan.is_empty() {
        plan.truncate(plan.len() - draws.between(1, pool.layout.n + 1) as usize);
    }
}

/// Behind the last entry some numbers of one stand, all but one at most.
fn entry_and_more(draws: &mut Draws, pool: &Pool, plan: &mut Vec<u64>) {
    if let Some(one) = some_entry(draws, pool, plan) {
        let more = draws.between(1, pool.layout.n + 1) as usize;
        plan.extend_from_within(one.start..one.start + more);
    }
}

fn empty(_: &mut Draws, _: &Pool, plan: &mut Vec<u64>) {
    plan.clear();
}

fn entry_for_nothing(draws: &mut Draws, pool: &Pool, plan: &mut Vec<u64>) {
    if plan.is_empty() {
        plan.extend(entry_of_present(draws, pool));
    }
}

fn number_for_nothing(draws: &mut Draws, pool: &Pool, plan: &mut Vec<u64>) {
    if plan.is_empty() {
        let numbers = draws.pick(&[1, pool.layout.n + 1, pool.layout.n + 3]);
        plan.extend((0..numbers).map(|_| draws.below(2)));
    }
}

/// Groups and contents that the pool has, anywhere.
fn numbers_within(draws: &mut Draws, pool: &Pool, plan: &mut Vec<u64>) {
    for entry in plan.chunks_mut(width(&pool.layout)) {
        entry.fill_with(|| draws.below(pool.layout.contents()));
        entry[GROUP] = draws.below(pool.layout.derived().groups);
    }
}

fn shifted(draws: &mut Draws, _: &Pool, plan: &mut Vec<u64>) {
    let one = plan.len().min(1);
    if draws.one_in(2) {
        plan.rotate_left(one);
    } else {
        plan.rotate_right(one);
    }
}

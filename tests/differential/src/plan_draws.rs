//! Plans of repair: right ones by any hand, what becomes of them before they are sent, and the pools that they are for.

use crate::draws::Draws;
use crate::layouts::{self, is_light};
use crate::plan_damages::damage;
use crate::pools::Pool;
use crate::records;
use oracle::layout::Layout;
use oracle::pool_plan::{drawn_plan, missing_contents, presence, Pair};

/// How long images may be: one in so many pools, up to so many bytes.
const SIZES: [(u64, u64); 2] = [(60, 1 << 14), (8, 1 << 12)];
const USUAL_IMAGE: u64 = 640;
/// One in so many layouts may have no parity, and then nothing is ever missing; one in so many has the most data units.
const WITHOUT_PARITY: u64 = 20;
const WIDEST: u64 = 25;
pub const MOST_DATA: u64 = 16;
/// One in so many plans is empty where the record counts nothing, which it may do wrongly.
const UNCOUNTED: u64 = 5;

/// A plan that is sent, and what it is.
pub struct Proposal {
    pub plan: Vec<u64>,
    pub origin: Origin,
}

#[derive(Clone, Copy, Debug, PartialEq, Eq)]
pub enum Origin {
    /// Right for the pool that it was drawn up for.
    Right,
    /// It was, and then it was damaged in the way that has this number among [`crate::plan_damages::PLAN_DAMAGES`].
    Damaged(usize),
    /// Neither: any numbers, or what is right or wrong of itself.
    Any,
}

/// How many numbers an entry has. A layout that is refused may have any N.
pub fn width(y: &Layout) -> usize {
    y.n.min(MOST_DATA) as usize + 2
}

/// The present contents of a group, rising.
pub fn present(pool: &Pool, group: u64) -> Vec<u64> {
    let presence = presence(&pool.layout, &pool.record, group);
    (0..pool.layout.contents()).filter(|content| presence[*content as usize]).collect()
}

/// An entry for a content: any N of the present ones of its group, in any order, often the lowest or the highest.
pub fn entry(draws: &mut Draws, pool: &Pool, (group, content): Pair) -> Vec<u64> {
    let mut sources = present(pool, group);
    match draws.below(6) {
        0 => {}
        1 => sources.reverse(),
        2 => {
            draws.shuffle(&mut sources);
            sources.truncate(pool.layout.n as usize);
            sources.sort();
        }
        _ => draws.shuffle(&mut sources),
    }
    sources.truncate(pool.layout.n as usize);
    [vec![group, content], sources].concat()
}

/// A right plan of a sound pool: often our planner's, or in its order.
pub fn right(draws: &mut Draws, pool: &Pool) -> Vec<u64> {
    let mut missing = missing_contents(&pool.layout, &pool.record);
    match draws.below(7) {
        0 => return drawn_plan(&pool.layout, &pool.record),
        1 => {}
        2 => missing.reverse(),
        _ => draws.shuffle(&mut missing),
    }
    missing.iter().flat_map(|pair| entry(draws, pool, *pair)).collect()
}

/// A plan for the pool, more often damaged than not; for one that is not sound any numbers.
pub fn proposed(draws: &mut Draws, pool: &Pool) -> Proposal {
    if !pool.is_sound() || !is_light(&pool.layout) {
        let plan = (0..draws.below(40)).map(|_| any_number(draws)).collect();
        return Proposal { plan, origin: Origin::Any };
    }
    if pool.record.waiting == 0 && draws.one_in(UNCOUNTED) {
        return Proposal { plan: vec![], origin: Origin::Any };
    }
    let mut plan = right(draws, pool);
    let kind = if draws.below(5) < 3 { damage(draws, pool, &mut plan) } else { None };
    Proposal { plan, origin: kind.map_or(Origin::Right, Origin::Damaged) }
}

fn any_number(draws: &mut Draws) -> u64 {
    let (small, edge) = (draws.below(20), draws.edge());
    draws.pick(&[small, small, edge])
}

/// Numbers that stand in a planner's buffer before the call: none of them can be taken for one of a plan's.
pub fn buffer(draws: &mut Draws, room: usize) -> Vec<u64> {
    (0..room).map(|_| draws.word() | 1 << 63).collect()
}

/// How long the planner's buffer is: often as long as it must be, a number shorter, or an entry.
pub fn room(draws: &mut Draws, needed: usize, width: usize) -> usize {
    match draws.below(10) {
        0 => 0,
        1 | 2 => needed.saturating_sub(1),
        3 => needed.saturating_sub(width),
        4 => needed + 1,
        5 => needed + width + draws.place(3 * width),
        6 => draws.place(2 * needed + 2),
        _ => needed,
    }
}

fn layout(draws: &mut Draws) -> Layout {
    let most =
        SIZES.iter().find(|(rare, _)| draws.one_in(*rare)).map_or(USUAL_IMAGE, |size| size.1);
    let least = if draws.one_in(WIDEST) { MOST_DATA } else { 1 };
    loop {
        let layout = layouts::fitting(draws, most);
        let has_parity = layout.k > 0 || draws.one_in(WITHOUT_PARITY);
        if has_parity && layout.n >= least {
            return layout;
        }
    }
}

/// A pool with no failures that holds a drawn file, or one of drawn bytes.
pub fn pool(draws: &mut Draws) -> Pool {
    let layout = layout(draws);
    written(draws, layout)
}

/// Such a pool of this layout.
pub fn written(draws: &mut Draws, layout: Layout) -> Pool {
    let mut pool = Pool::of(draws, layout);
    if pool.holds_file {
        let file = draws.bytes(layout.derived().capacity as usize);
        oracle::pool::write(&layout, &pool.record, &mut pool.image, 0, &file);
    }
    pool
}

/// The pool some failures later, mostly one at least and often as many as may be, of which some are repaired; with other
/// bytes on the failed targets, so that it shows where they are read.
pub fn aged(draws: &mut Draws, pool: &Pool) -> Pool {
    let mut pool = pool.clone();
    let y = pool.layout;
    if !pool.holds_file {
        let waits = y.k > 0 && !draws.one_in(8);
        pool.record = if waits { records::unrepaired(draws, &y) } else { records::good(draws, &y) };
        return pool;
    }
    let least = u64::from(!draws.one_in(10));
    let failures = draws.between(least, y.k + 1).max(draws.between(least, y.k + 1));
    for _ in 0..failures {
        let target = draws.below(y.p);
        pool.record = oracle::pool::fail(&y, &pool.record, &pool.image, target).1;
        if draws.one_in(4) {
            pool.record = oracle::pool::repair(&y, &pool.record, &mut pool.image).1;
        }
    }
    pool.scribble(draws);
    pool
}

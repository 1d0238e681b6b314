//! Plans of more than 65,536 groups, and of as many contents, which a number of 16 bits does not tell apart. Such pools are
//! too large for most rounds, so some rounds are theirs alone.

use crate::bench::Bench;
use crate::draws::Draws;
use crate::layouts;
use crate::plan_draws::{entry, width, Origin, Proposal};
use crate::plans::{check_plan, draw_plan, repair_by};
use crate::pools::Pool;
use crate::records;
use oracle::layout::Layout;
use oracle::pool::Record;
use oracle::pool_plan::{drawn_plan, missing_contents, presence};

/// The first group that 16 bits do not tell, and how many entries they do not.
const BORDER: u64 = 1 << 16;
/// So many tiles more than the border needs, so that more contents are missing than it has groups: about one a group is.
const MORE_TILES: u64 = 200;

/// A pool that misses a content of the groups on both sides of the border.
pub struct Wide {
    pool: Pool,
    /// Those of a right plan, in our order.
    entries: Vec<Entry>,
}

type Entry = Vec<u64>;
/// Makes one call.
type Try = fn(&mut Bench, &Wide);

pub const WIDE_KINDS: [(&str, Try); 12] = [
    ("our planner's", ours),
    ("in any order", |bench, wide| right(bench, wide, |draws, all| draws.shuffle(all))),
    ("from group 65,536 on first", |bench, wide| right(bench, wide, behind_first)),
    ("group 65,535 twice", |bench, wide| wrong(bench, wide, last_before_twice)),
    ("group 65,536 twice", |bench, wide| wrong(bench, wide, first_behind_twice)),
    ("a group 65,536 too low", |bench, wide| wrong(bench, wide, too_low)),
    ("named again 65,536 below", |bench, wide| wrong(bench, wide, again_below)),
    ("the last left out", |bench, wide| wrong(bench, wide, |_, all| shorten(all, 1))),
    ("65,536 left out", |bench, wide| wrong(bench, wide, |_, all| shorten(all, BORDER))),
    ("a bad source in the last", |bench, wide| wrong(bench, wide, bad_source_in_the_last)),
    ("a buffer long enough", |bench, wide| asked_for(bench, wide, 0)),
    ("a buffer a number too short", |bench, wide| asked_for(bench, wide, 1)),
];

/// Each kind once, on one pool.
pub fn round(bench: &mut Bench) {
    let mut pool = drawn(&mut bench.draws);
    bench.tally.add_plan_layout(&pool.layout);
    let missing = missing_contents(&pool.layout, &pool.record);
    pool.record.waiting = missing.len() as u64;
    let entries = missing.iter().map(|pair| entry(&mut bench.draws, &pool, *pair)).collect();
    let wide = Wide { pool, entries };
    for (kind, (_, make)) in WIDE_KINDS.iter().enumerate() {
        make(bench, &wide);
        bench.tally.plans.add_wide(kind);
    }
}

/// W and P have no common divisor, so that a tile has P groups.
fn layout(draws: &mut Draws) -> Layout {
    let (n, k, p) = draws.pick(&[(1, 2, 6), (2, 2, 7)]);
    let t = BORDER / p + MORE_TILES + draws.below(p);
    let (cookie, edition) = (layouts::cookie(draws), layouts::edition(draws));
    Layout { n, k, p, u: 1, t, cookie, edition }
}

/// A pool of drawn bytes with two failed targets, which had contents of the groups on both sides of the border.
fn drawn(draws: &mut Draws) -> Pool {
    loop {
        let layout = layout(draws);
        let (one, other) = (draws.below(layout.p), draws.below(layout.p));
        let record = Record { failed: [one, other, 9], k: 2, ..records::empty(draws) };
        let misses = |group| presence(&layout, &record, group).contains(&false);
        if one != other && misses(BORDER - 1) && misses(BORDER) {
            let image = draws.bytes(layout.derived().image as usize);
            return Pool::unwritten(layout, record, image);
        }
    }
}

/// The first entry of a plan in our order that is of the border's group or behind it.
fn at_border(all: &[Entry]) -> usize {
    all.partition_point(|entry| entry[0] < BORDER)
}

/// The plan after a change.
fn changed(
    bench: &mut Bench,
    wide: &Wide,
    change: impl FnOnce(&mut Draws, &mut Vec<Entry>),
) -> Vec<u64> {
    let mut all = wide.entries.clone();
    change(&mut bench.draws, &mut all);
    all.concat()
}

fn ours(bench: &mut Bench, wide: &Wide) {
    let plan = drawn_plan(&wide.pool.layout, &wide.pool.record);
    check_plan(bench, &wide.pool, &Proposal { plan, origin: Origin::Right });
}

fn right(bench: &mut Bench, wide: &Wide, change: impl FnOnce(&mut Draws, &mut Vec<Entry>)) {
    let plan = changed(bench, wide, change);
    repair_by(bench, &wide.pool, &Proposal { plan, origin: Origin::Right });
}

fn wrong(bench: &mut Bench, wide: &Wide, change: impl FnOnce(&mut Draws, &mut Vec<Entry>)) {
    let proposal = Proposal { plan: changed(bench, wide, change), origin: Origin::Any };
    if bench.draws.one_in(2) {
        check_plan(bench, &wide.pool, &proposal);
    } else {
        repair_by(bench, &wide.pool, &proposal);
    }
}

fn behind_first(_: &mut Draws, all: &mut Vec<Entry>) {
    let border = at_border(all);
    all.rotate_left(border);
}

/// The entry before the border in the place of the one behind it.
fn last_before_twice(_: &mut Draws, all: &mut Vec<Entry>) {
    let border = at_border(all);
    all[border] = all[border - 1].clone();
}

fn first_behind_twice(_: &mut Draws, all: &mut Vec<Entry>) {
    let border = at_border(all);
    all[border - 1] = all[border].clone();
}

/// One of the entries behind the border.
fn behind(draws: &mut Draws, all: &[Entry]) -> usize {
    at_border(all) + draws.place(all.len() - at_border(all))
}

fn too_low(draws: &mut Draws, all: &mut Vec<Entry>) {
    let one = behind(draws, all);
    all[one][0] -= BORDER;
}

/// All that is missing, and one entry again, of the group that the lowest 16 bits tell.
fn again_below(draws: &mut Draws, all: &mut Vec<Entry>) {
    let mut again = all[behind(draws, all)].clone();
    again[0] -= BORDER;
    all.push(again);
}

fn shorten(all: &mut Vec<Entry>, by: u64) {
    all.truncate(all.len() - by as usize);
}

fn bad_source_in_the_last(_: &mut Draws, all: &mut Vec<Entry>) {
    let last = all.last_mut().expect("something is missing");
    last[2] = last[1];
}

fn asked_for(bench: &mut Bench, wide: &Wide, less: usize) {
    let needed = wide.entries.len() * width(&wide.pool.layout);
    draw_plan(bench, &wide.pool, needed - less, needed);
}

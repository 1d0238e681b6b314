//! The count of missing units: true and false ones in a record, and the calls that are about it, panel and audit. Both take
//! the image for its length alone.

use crate::bench::Bench;
use crate::count_kinds::Counted;
use crate::count_rules::Library;
use crate::draws::Draws;
use crate::layouts::is_light;
use crate::pool_calls::{fail_target, repair, target};
use crate::pools::Pool;
use crate::records;
use crate::tally::Call;
use oracle::layout::Layout;
use oracle::pool::Record;
use oracle::pool_count::{self, contents_on, missing_units, most_missing};

/// A count for a good list, not above the bound, and mostly the true one. The others are those that a slip would take for
/// true, as that of contents whose own place is lost though they were repaired, or of all units on the drives that wait, or
/// one that is wrong in one bit; 0, as if nothing were missing; and some about the bound. A pool for which the model takes
/// long is not counted.
pub fn within(draws: &mut Draws, y: &Layout, r: &Record) -> u64 {
    let most = most_missing(y);
    let count = |r: &Record| if is_light(y) { missing_units(y, r) } else { 0 };
    let (truth, all_units) = (count(r), (r.k - r.q) * y.derived().frames);
    let drawn = match draws.below(20) {
        0 => truth.saturating_sub(1),
        1 => truth + 1,
        2..=4 => count(&records::as_at_first(r)),
        5 => all_units,
        6 => truth ^ (1 << draws.below(24)),
        7 => most,
        8 => most - 1,
        9 => draws.between(0, most),
        10 => 0,
        _ => truth,
    };
    drawn.min(most)
}

/// A count above the bound.
pub fn above(draws: &mut Draws, y: &Layout) -> u64 {
    let first = most_missing(y) + 1;
    let edge = draws.edge().max(first);
    draws.pick(&[first, first, u64::MAX, u64::MAX, edge])
}

/// A sound pool with a count at the bound or above it; or of 0, where drives wait.
pub fn at_an_end(draws: &mut Draws, pool: &Pool) -> Pool {
    let (most, above) = (most_missing(&pool.layout), above(draws, &pool.layout));
    let ends = [most, above, 0, 0];
    let ends = if pool.record.q < pool.record.k { &ends[..] } else { &ends[..2] };
    pool.with_count(draws.pick(ends))
}

/// The same image with another record, mostly one of drives that wait for repair, where the pool is sound and a drive of it
/// may fail.
fn with_another(draws: &mut Draws, pool: &Pool) -> Pool {
    let y = &pool.layout;
    if !pool.is_sound() || y.k == 0 {
        return pool.clone();
    }
    let usual = records::good(draws, y);
    let unrepaired = records::unrepaired(draws, y);
    Pool { record: draws.pick(&[usual, unrepaired]), holds_file: false, ..pool.clone() }
}

pub fn repair_another(bench: &mut Bench, pool: &Pool) {
    let pool = with_another(&mut bench.draws, pool);
    repair(bench, &pool);
}

/// A fail with a count that it raises to the bound, to one above it, or further; or with 0, too low where drives wait.
pub fn fail_about_the_bound(bench: &mut Bench, pool: &Pool) {
    let pool = with_another(&mut bench.draws, pool);
    let target = target(&mut bench.draws, &pool);
    let (y, r) = (&pool.layout, &pool.record);
    if !is_light(y) || !pool.is_sound() {
        return panel(bench, &pool);
    }
    let (most, raise) = (most_missing(y), contents_on(y, r, target));
    let waiting = bench.draws.pick(&[most - raise, most - raise + 1, most, 0]).min(most);
    fail_target(bench, &pool.with_count(waiting), target);
}

pub fn panel(bench: &mut Bench, pool: &Pool) {
    let inputs = || pool.told();
    let mut trial = bench.begin(Call::Panel, &inputs);
    let image = bench.lend(&pool.image);
    let answer = Library::of(bench).panel(trial.layout(&pool.layout), pool, &image);
    let (refusal, counts) = pool_count::panel(&pool.layout, &pool.record, &pool.image);
    trial.number("refusal", answer.refusal, refusal);
    trial.number("waiting", answer.waiting, counts.waiting);
    trial.number("failed", answer.failed, counts.failed);
    trial.number("repaired", answer.repaired, counts.repaired);
    trial.buffer("image", &image, &pool.image);
    bench.end(trial, refusal);
    bench.tally.add_count(&Counted::of(Call::Panel, pool, refusal));
}

pub fn audit_another(bench: &mut Bench, pool: &Pool) {
    let pool = with_another(&mut bench.draws, pool);
    audit(bench, &pool);
}

pub fn audit(bench: &mut Bench, pool: &Pool) {
    let inputs = || pool.told();
    let mut trial = bench.begin(Call::Audit, &inputs);
    let image = bench.lend(&pool.image);
    let answer = Library::of(bench).audit(trial.layout(&pool.layout), pool, &image);
    let refusal = pool_count::audit(&pool.layout, &pool.record, &pool.image);
    trial.number("refusal", answer, refusal);
    trial.buffer("image", &image, &pool.image);
    bench.end(trial, refusal);
    bench.tally.add_count(&Counted::of(Call::Audit, pool, refusal));
}

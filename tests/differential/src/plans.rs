//! Repair by a proposed plan: plans checked, run, and asked of our planner. The checker and the planner take the image for
//! its length alone.

use crate::bench::{numbers, Bench, Trial};
use crate::count_kinds::Counted;
use crate::counts::at_an_end;
use crate::draws::Draws;
use crate::layouts::is_light;
use crate::lent::Lent;
use crate::plan_draws::{aged, buffer, pool, proposed, room, width, Proposal};
use crate::plan_kinds::{Drawing, Planned};
use crate::plan_rules::Library;
use crate::pool_calls::{compare_record, repair_to};
use crate::pools::{Pool, RECOUNTED};
use crate::tally::Call;
use oracle::pool_plan::{self, missing_contents};
use splicebell::raw::splicebell_repaired;

/// One in so many calls is made with a count of missing units at the bound or above, or of 0.
const ENDS: u64 = 5;
/// One in so many calls is made on a pool that is another by the time the plan is sent.
const LATE: u64 = 4;
/// One in so many repairs by a plan is made once more, as a plain one.
const PLAINLY: u64 = 10;
/// After one in so many calls the next one starts from what it left, in which nothing is missing where it was a repair.
const KEPT: u64 = 3;

/// Calls on one pool at several ages.
pub fn round(bench: &mut Bench) {
    let start = pool(&mut bench.draws);
    bench.tally.add_plan_layout(&start.layout);
    for _ in 0..bench.draws.between(4, 16) {
        let mut pool = aged(&mut bench.draws, &start);
        for _ in 0..bench.draws.between(1, 4) {
            if bench.draws.one_in(RECOUNTED) {
                pool.recount(&mut bench.draws);
            }
            if bench.draws.one_in(ENDS) {
                let other = at_an_end(&mut bench.draws, &pool);
                call(bench, &other);
                continue;
            }
            let after = call(bench, &pool);
            if bench.draws.one_in(KEPT) {
                pool = after.unwrap_or(pool);
            }
        }
    }
}

/// Asks for a plan, or sends one: mostly to the checker first, and then for repair. What that leaves, where it may have
/// changed the pool.
pub fn call(bench: &mut Bench, pool: &Pool) -> Option<Pool> {
    let is_late = pool.is_sound() && bench.draws.one_in(LATE);
    let later = is_late.then(|| later(&mut bench.draws, pool));
    let asked = later.as_ref().unwrap_or(pool);
    if bench.draws.one_in(4) {
        draw_for(bench, pool, asked);
        return None;
    }
    let proposal = proposed(&mut bench.draws, pool);
    if !bench.draws.one_in(4) {
        check_plan(bench, asked, &proposal);
    }
    if bench.draws.one_in(4) {
        return None;
    }
    let after = repair_by(bench, asked, &proposal);
    (!is_late).then_some(after)
}

/// Often bad in its record alone.
fn later(draws: &mut Draws, pool: &Pool) -> Pool {
    if draws.one_in(4) {
        return pool.with_bad_record(draws);
    }
    pool.damaged(draws)
}

pub fn check_plan(bench: &mut Bench, pool: &Pool, proposal: &Proposal) {
    let sent = &proposal.plan;
    let inputs = || format!("{} plan {}", pool.told(), numbers(sent));
    let mut trial = bench.begin(Call::CheckPlan, &inputs);
    let (image, plan) = (bench.lend(&pool.image), bench.lend(sent));
    let y = trial.layout(&pool.layout);
    let answer = Library::of(bench).check_plan(y, pool, &image, &plan);
    let refusal = pool_plan::check_plan(&pool.layout, &pool.record, &pool.image, sent);
    trial.number("refusal", answer, refusal);
    trial.buffer("image", &image, &pool.image);
    trial.buffer("plan", &plan, sent);
    bench.end(trial, refusal);
    bench.tally.add_count(&Counted::of(Call::CheckPlan, pool, refusal));
    bench.tally.plans.add(Call::CheckPlan, &Planned::of(pool, proposal, refusal));
}

/// Answers what the model says the pool is afterwards.
pub fn repair_by(bench: &mut Bench, pool: &Pool, proposal: &Proposal) -> Pool {
    let sent = &proposal.plan;
    let inputs = || format!("{} plan {}", pool.told(), numbers(sent));
    let mut trial = bench.begin(Call::RepairBy, &inputs);
    let (image, plan) = (bench.lend_mut(&pool.image), bench.lend(sent));
    let y = trial.layout(&pool.layout);
    let answer = Library::of(bench).repair_by(y, pool, &image, &plan);
    let mut after = pool.clone();
    let (refusal, record, count) =
        pool_plan::repair_by(&pool.layout, &pool.record, &mut after.image, sent);
    after.record = record;
    trial.number("refusal", answer.refusal, refusal);
    trial.number("count", answer.count, count);
    compare_record(&mut trial, &answer.record, &record);
    trial.buffer("image", &image, &after.image);
    trial.buffer("plan", &plan, sent);
    let is_as_plain = refusal == 0 && pool.holds_file;
    if is_as_plain {
        compare_with_plain(&mut trial, pool, &answer, &image);
    }
    bench.end(trial, refusal);
    bench.tally.add_count(&Counted::of(Call::RepairBy, pool, refusal));
    bench.tally.plans.add(Call::RepairBy, &Planned::of(pool, proposal, refusal));
    if is_as_plain && bench.draws.one_in(PLAINLY) {
        repair_to(bench, pool, Some(&after));
    }
    after
}

/// "running an accepted plan leaves the same image and record as plain repair, whoever drew it up".
fn compare_with_plain(
    trial: &mut Trial,
    pool: &Pool,
    answer: &splicebell_repaired,
    image: &Lent<u8>,
) {
    let mut plain = pool.image.clone();
    let (_, record, count) = oracle::pool::repair(&pool.layout, &pool.record, &mut plain);
    trial.number("count, against plain repair's", answer.count, count);
    compare_record(trial, &answer.record, &record);
    trial.buffer("image, against plain repair's", image, &plain);
}

/// How many numbers the plan of a sound pool takes.
fn needed(pool: &Pool) -> Option<usize> {
    let (y, r) = (&pool.layout, &pool.record);
    let is_counted = pool.is_sound() && is_light(y);
    is_counted.then(|| missing_contents(y, r).len() * width(y))
}

/// Asks for a plan with a buffer that is drawn for one pool, which is perhaps another by now.
fn draw_for(bench: &mut Bench, pool: &Pool, asked: &Pool) {
    let expected = needed(pool).unwrap_or(0);
    let room = room(&mut bench.draws, expected, width(&pool.layout));
    draw_plan(bench, asked, room, needed(asked).unwrap_or(expected));
}

/// `needed` is how many numbers the plan takes, or was to take before the pool was damaged.
pub fn draw_plan(bench: &mut Bench, pool: &Pool, room: usize, needed: usize) {
    let before = buffer(&mut bench.draws, room);
    let inputs = || format!("{} buffer {}", pool.told(), numbers(&before));
    let mut trial = bench.begin(Call::DrawPlan, &inputs);
    let (image, plan) = (bench.lend(&pool.image), bench.lend_mut(&before));
    let y = trial.layout(&pool.layout);
    let answer = Library::of(bench).draw_plan(y, pool, &image, &plan);
    let mut expected = before.clone();
    let (refusal, length) =
        pool_plan::draw_plan(&pool.layout, &pool.record, &pool.image, &mut expected);
    trial.number("refusal", answer.refusal, refusal);
    trial.number("length", answer.length, length);
    trial.buffer("image", &image, &pool.image);
    trial.buffer("plan", &plan, &expected);
    bench.end(trial, refusal);
    bench.tally.add_count(&Counted::of(Call::DrawPlan, pool, refusal));
    bench.tally.plans.add_drawing(&Drawing { pool, room, needed, refusal });
}

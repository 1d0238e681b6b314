//! Calls that lend nothing: layout numbers, permutation, places, offsets, image bytes and the walk.

use crate::bench::Bench;
use crate::edition_rules;
use crate::layouts::{any, fitting, perhaps_damaged, told};
use crate::tally::Call;
use oracle::layout::{Layout, Numbers};
use oracle::permutation::{inverse, permutation, Entries};
use oracle::place::{Cursor, Step, Unit};
use splicebell::raw::{self, splicebell_cursor, splicebell_entries, splicebell_layout};

/// Calls on one layout.
pub fn round(bench: &mut Bench) {
    let small = bench.draws.one_in(2);
    let layout = if small { fitting(&mut bench.draws, 4096) } else { any(&mut bench.draws) };
    bench.tally.add_layout(&layout);
    let mut cursor = Cursor { target: bench.draws.below(layout.p), frame: 0 };
    for _ in 0..bench.draws.between(10, 40) {
        let y = perhaps_damaged(&mut bench.draws, &layout);
        match bench.draws.below(9) {
            0 => measure(bench, &y),
            1 => tile_permutation(bench, &y),
            2 => tile_inverse(bench, &y),
            3 => find_place(bench, &y),
            4 => find_unit(bench, &y),
            5 => map_offset(bench, &y),
            6 => map_byte(bench, &y),
            7 => {
                let frames = y.derived().frames;
                let at = Cursor { target: bench.draws.near(y.p), frame: bench.draws.near(frames) };
                step(bench, &y, at);
            }
            _ => cursor = step(bench, &y, cursor),
        }
    }
}

fn measure(bench: &mut Bench, y: &Layout) {
    let inputs = || told(y);
    let mut trial = bench.begin(Call::Measure, &inputs);
    // SAFETY: nothing is lent.
    let answer = unsafe { raw::splicebell_measure(trial.layout(y)) };
    let (refusal, expected) = y.numbers();
    trial.number("refusal", answer.refusal, refusal);
    let Numbers { w, b, l, c, frames, groups, capacity, image } = expected;
    let answered = answer.numbers;
    trial.number("w", answered.w, w);
    trial.number("b", answered.b, b);
    trial.number("l", answered.l, l);
    trial.number("c", answered.c, c);
    trial.number("frames", answered.frames, frames);
    trial.number("groups", answered.groups, groups);
    trial.number("capacity", answered.capacity, capacity);
    trial.number("image", answered.image, image);
    bench.end(trial, refusal);
}

/// The permutation of a tile and its inverse take and answer the same.
fn tile(
    bench: &mut Bench,
    call: Call,
    y: &Layout,
    library: unsafe extern "C" fn(splicebell_layout, u64) -> splicebell_entries,
    model: fn(&Layout, u64) -> (u64, Entries),
) {
    let tile = bench.draws.near(y.t);
    let inputs = || format!("{} tile {tile}", told(y));
    let mut trial = bench.begin(call, &inputs);
    // SAFETY: nothing is lent.
    let answer = unsafe { library(trial.layout(y), tile) };
    let answer = edition_rules::entries(bench.spoil, call, y, tile, answer);
    let (refusal, expected) = model(y, tile);
    trial.number("refusal", answer.refusal, refusal);
    let answered = answer.entries.map(u64::from);
    for t in (0..answered.len()).filter(|t| answered[*t] != expected[*t]) {
        trial.number(&format!("entry {t}"), answered[t], expected[t]);
    }
    bench.end(trial, refusal);
}

fn tile_permutation(bench: &mut Bench, y: &Layout) {
    tile(bench, Call::TilePermutation, y, raw::splicebell_tile_permutation, permutation);
}

fn tile_inverse(bench: &mut Bench, y: &Layout) {
    tile(bench, Call::TileInverse, y, raw::splicebell_tile_inverse, inverse);
}

fn find_place(bench: &mut Bench, y: &Layout) {
    let numbers = y.derived();
    let (group, unit) = (bench.draws.near(numbers.groups), bench.draws.near(numbers.w));
    let inputs = || format!("{} group {group} unit {unit}", told(y));
    let mut trial = bench.begin(Call::FindPlace, &inputs);
    // SAFETY: nothing is lent.
    let answer = unsafe { raw::splicebell_find_place(trial.layout(y), group, unit) };
    let (refusal, expected) = oracle::place::place(y, group, unit);
    trial.number("refusal", answer.refusal, refusal);
    trial.number("frame", answer.frame, expected.frame);
    trial.number("target", answer.target, expected.target);
    trial.number("begins", answer.begins, expected.begins);
    bench.end(trial, refusal);
}

fn find_unit(bench: &mut Bench, y: &Layout) {
    let (frame, target) = (bench.draws.near(y.derived().frames), bench.draws.near(y.p));
    let inputs = || format!("{} frame {frame} target {target}", told(y));
    let mut trial = bench.begin(Call::FindUnit, &inputs);
    // SAFETY: nothing is lent.
    let answer = unsafe { raw::splicebell_find_unit(trial.layout(y), frame, target) };
    let (refusal, expected) = oracle::place::unit_at(y, frame, target);
    trial.number("refusal", answer.refusal, refusal);
    trial.number("group", answer.group, expected.group);
    trial.number("unit", answer.unit, expected.unit);
    bench.end(trial, refusal);
}

fn map_offset(bench: &mut Bench, y: &Layout) {
    let offset = bench.draws.near(y.derived().capacity);
    let inputs = || format!("{} offset {offset}", told(y));
    let mut trial = bench.begin(Call::MapOffset, &inputs);
    // SAFETY: nothing is lent.
    let answer = unsafe { raw::splicebell_map_offset(trial.layout(y), offset) };
    let (refusal, expected) = oracle::place::file_byte(y, offset);
    trial.number("refusal", answer.refusal, refusal);
    trial.number("group", answer.group, expected.group);
    trial.number("unit", answer.unit, expected.unit);
    trial.number("byte", answer.byte, expected.byte);
    trial.number("image", answer.image, expected.image);
    bench.end(trial, refusal);
}

fn map_byte(bench: &mut Bench, y: &Layout) {
    let x = bench.draws.near(y.derived().image);
    let inputs = || format!("{} image byte {x}", told(y));
    let mut trial = bench.begin(Call::MapByte, &inputs);
    // SAFETY: nothing is lent.
    let answer = unsafe { raw::splicebell_map_byte(trial.layout(y), x) };
    let (refusal, expected) = oracle::place::image_byte(y, x);
    trial.number("refusal", answer.refusal, refusal);
    trial.number("group", answer.group, expected.group);
    trial.number("unit", answer.unit, expected.unit);
    trial.number("byte", answer.byte, expected.byte);
    trial.flag("is_data", &answer.is_data, expected.offset.is_some());
    trial.number("offset", answer.offset, expected.offset.unwrap_or(0));
    bench.end(trial, refusal);
}

/// One step of a walk; answers the cursor that came back.
fn step(bench: &mut Bench, y: &Layout, at: Cursor) -> Cursor {
    let inputs = || format!("{} target {} frame {}", told(y), at.target, at.frame);
    let mut trial = bench.begin(Call::Step, &inputs);
    let from = splicebell_cursor { target: at.target, frame: at.frame };
    // SAFETY: nothing is lent.
    let answer = unsafe { raw::splicebell_step(trial.layout(y), from) };
    let none = Unit::default();
    let (refusal, done, held, next) = match oracle::place::step(y, at) {
        Step::At(unit, next) => (0, false, unit, next),
        Step::Done(cursor) => (0, true, none, cursor),
        Step::Refused(refusal, cursor) => (refusal, false, none, cursor),
    };
    trial.number("refusal", answer.refusal, refusal);
    trial.flag("done", &answer.done, done);
    trial.number("group", answer.held.group, held.group);
    trial.number("unit", answer.held.unit, held.unit);
    trial.number("next target", answer.next.target, next.target);
    trial.number("next frame", answer.next.frame, next.frame);
    bench.end(trial, refusal);
    next
}

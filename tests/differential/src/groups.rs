//! Encode and rebuild of one group in a lent buffer.

use crate::bench::{hex, Bench};
use crate::draws::Draws;
use crate::layouts::{any, perhaps_damaged, told};
use crate::tally::Call;
use oracle::layout::Layout;
use splicebell::raw;

/// Calls on one buffer: what a call leaves in it is what the next one finds.
pub fn round(bench: &mut Bench) {
    let mut layout = any(&mut bench.draws);
    if !bench.draws.one_in(16) {
        layout.u = bench.draws.size(24);
    }
    bench.tally.add_layout(&layout);
    let mut buffer = bench.draws.bytes(group_bytes(&layout));
    for _ in 0..bench.draws.between(5, 20) {
        let y = perhaps_damaged(&mut bench.draws, &layout);
        let length = bench.draws.length(group_bytes(&layout));
        let whole = length == buffer.len();
        let mut lending = if whole { buffer.clone() } else { bench.draws.bytes(length) };
        if bench.draws.one_in(3) {
            encode(bench, &y, &mut lending);
        } else {
            let missing = missing_units(&mut bench.draws, &layout);
            rebuild(bench, &y, &missing, &mut lending);
        }
        if whole {
            buffer = lending;
        }
        if bench.draws.one_in(4) {
            bench.draws.fill(&mut buffer);
        }
    }
}

fn group_bytes(y: &Layout) -> usize {
    (y.contents() * y.u) as usize
}

/// Units named missing: none, up to K, more than K, with repeats, some outside.
fn missing_units(draws: &mut Draws, y: &Layout) -> Vec<u64> {
    let count = match draws.below(8) {
        0 => 0,
        1 => draws.below(40),
        2 => y.k + 1,
        _ => draws.between(0, y.k),
    };
    let mut units: Vec<u64> = (0..count).map(|_| draws.below(y.contents())).collect();
    while !units.is_empty() && draws.one_in(4) {
        let repeated = draws.pick(&units);
        units.push(repeated);
    }
    if draws.one_in(10) {
        let outside = draws.pick(&[y.contents(), y.contents() + y.k, u64::MAX]);
        let at = draws.between(0, units.len() as u64) as usize;
        units.insert(at, outside.max(y.contents()));
    }
    units
}

/// `buffer` becomes what the model makes of it.
fn encode(bench: &mut Bench, y: &Layout, buffer: &mut [u8]) {
    let before = buffer.to_vec();
    let inputs = || format!("{} buf {}", told(y), hex(&before));
    let mut trial = bench.begin(Call::Encode, &inputs);
    let buf = bench.lend_mut(buffer);
    // SAFETY: the pointer leads to that many bytes.
    let answer = unsafe { raw::splicebell_encode(trial.layout(y), buf.pointer(), buf.len()) };
    let refusal = oracle::group::encode(y, buffer);
    trial.number("refusal", answer, refusal);
    trial.buffer("buf", &buf, buffer);
    bench.end(trial, refusal);
}

/// `buffer` becomes what the model makes of it.
fn rebuild(bench: &mut Bench, y: &Layout, missing: &[u64], buffer: &mut [u8]) {
    let before = buffer.to_vec();
    let inputs = || format!("{} missing {missing:?} buf {}", told(y), hex(&before));
    let mut trial = bench.begin(Call::Rebuild, &inputs);
    let (units, buf) = (bench.lend(missing), bench.lend_mut(buffer));
    let (lent, first, count) = (trial.layout(y), units.pointer(), units.len());
    // SAFETY: both pointers lead to that many elements, and the buffers lie apart.
    let answer = unsafe { raw::splicebell_rebuild(lent, first, count, buf.pointer(), buf.len()) };
    let refusal = oracle::group::rebuild(y, buffer, missing);
    trial.number("refusal", answer, refusal);
    trial.buffer("missing", &units, missing);
    trial.buffer("buf", &buf, buffer);
    bench.end(trial, refusal);
}

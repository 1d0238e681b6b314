//! Random runs of every public call of Splicebell beside the model in oracle/, which is written from
//! the documents alone. After every call the answer, every lent byte and the bytes beside every lent buffer
//! are compared. docs/TESTING.md tells what it shows.

mod bench;
mod catalogue_draws;
mod catalogue_kinds;
mod catalogue_rules;
mod catalogues;
mod count_kinds;
mod count_rules;
mod counts;
mod damages;
mod draws;
mod edition_kinds;
mod edition_rules;
mod edition_tally;
mod faults;
mod groups;
mod layouts;
mod lent;
mod line_damages;
mod line_kinds;
mod list_kinds;
mod lists;
mod move_kinds;
mod move_rules;
mod move_tally;
mod moves;
mod places;
mod plan_damages;
mod plan_draws;
mod plan_kinds;
mod plan_rules;
mod plan_tally;
mod plans;
mod pool_calls;
mod pools;
mod records;
mod replays;
mod setting_damages;
mod setting_kinds;
mod setting_rules;
mod setting_tally;
mod settings;
mod spoil;
mod swap_kinds;
mod swap_rules;
mod swap_tally;
mod swaps;
mod tally;
mod texts;
mod wide_plans;

use bench::{Bench, ROUND, SEED};
use draws::Draws;
use spoil::Spoil;
use std::process::ExitCode;
use std::sync::atomic::Ordering::Relaxed;
use std::time::Instant;

const USAGE: &str =
    "usage: run [--runs CALLS] [--seed SEED] [--round ROUND] [--heap] [--spoil KIND]
  --runs   how many calls at least
  --round  this round alone, each call printed before it is made
  --heap   every lent buffer is a heap block of its own: for memcheck
  --spoil  makes a fault on purpose, which must be reported: answer, byte, before, after, look, store,
           rest; of the catalogue's rules second-word-first, first-word-alone, first-word-ignored, half-cob,
           next-exchanged, half-freed; of the count's rules all-units, own-places, raised-too-little,
           raised-too-far, raise-first, raised-though-refused, kept-by-repair, taken-by-repair, panel-counts,
           audit-of-nothing, audit-of-own-places, lower-bound, higher-bound; of the plans' rules named-twice,
           left-out, empty-taken, present-too, outside-too, missing-source, source-twice, source-of-8-bits,
           source-of-16-bits, source-of-32-bits, content-of-8-bits, content-of-32-bits, group-of-16-bits,
           group-of-32-bits, rest-ignored, sources-ignored, q-kept, waiting-kept, count-taken,
           repaired-though-refused, old-homes, stored-though-refused, plan-first, drawn-though-short,
           rest-cleared, second-lowest, drawn-backwards, exact-too-short, room-by-count,
           length-though-refused, length-in-entries; of the edition's rules three-extra, five-extra,
           extra-each-time, other-inverse, second-as-first, first-as-second, zero-as-first, three-as-second,
           edition-of-8-bits, edition-of-16-bits, edition-of-32-bits, edition-in-the-start,
           first-line-of-second, edition-though-refused, and in one call alone first-in-CALL and
           untested-in-CALL, with the name of the call without splicebell_; of the moves' rules spares-kept,
           first-spares-alone, parity-copied, parity-left-out, same-edition, cookie-dropped, old-homes-used,
           missing-as-they-lie, highest-sources, all-as-repaired, none-as-repaired, last-group-left-out,
           groups-of-16-bits, first-tile-for-all, old-mended, kept-though-refused, tail-kept,
           moved-though-refused, old-length-untested, new-length-untested, lengths-alike, record-first,
           true-count-alone, healthy-alone, all-entries; of the swaps' rules one-by-one, one-by-one-falling,
           target-alone, new-drive-kept, worked-out, left-cleared, new-drive-cleared, last-group-kept,
           later-groups-kept, last-dropped, last-in-the-gap, q-kept-by-swap, k-kept, freed-kept,
           behind-cleared, count-cleared, by-true-count, unrepaired-too, sixteen-first, eleven-first,
           behind-searched, target-of-8-bits, target-of-16-bits, target-of-32-bits, swapped-though-refused,
           shortened-though-refused; of the settings' rules oldest-shown, newest-alone, edition-kept,
           second-shown, second-version-unknown, second-before-unknown, unknown-first,
           upper-case-taken, returns-taken, third-version-taken, bounds-untested, long-first-taken,
           short-second-taken, cut-line-ignored, from-zero, last-malformed, empty-as-none,
           layout-left, used-untested, rest-read, at-the-start, over-the-last-byte, four-digits,
           edition-left-out, upper-case-written, newline-left-out, second-always, behind-line-cleared,
           length-answered, used-dropped, line-though-refused, above-as-full, exact-refused,
           long-room-wanted, short-room-taken, text-tested, second-in-first, version-of-8-bits,
           version-of-16-bits, version-of-32-bits, numbers-by-digits";

/// Under two minutes, also where x86-64 is emulated.
const USUAL_RUNS: u64 = 300_000;
/// Of so many rounds one, the first of them early, has a pool with many groups for plans, one for moves and one for swaps:
/// each run has them, few of them, since the model takes its time.
const MANY_GROUPS: u64 = 4000;
const FIRST_WIDE_PLANS: u64 = 100;
const FIRST_WIDE_MOVES: u64 = 150;
const FIRST_WIDE_SWAPS: u64 = 200;

struct Options {
    runs: u64,
    seed: u64,
    round: Option<u64>,
    heap: bool,
    spoil: Option<Spoil>,
}

fn options(mut words: impl Iterator<Item = String>) -> Option<Options> {
    let mut options = Options { runs: USUAL_RUNS, seed: 1, round: None, heap: false, spoil: None };
    while let Some(word) = words.next() {
        match word.as_str() {
            "--heap" => options.heap = true,
            "--runs" => options.runs = words.next()?.parse().ok()?,
            "--seed" => options.seed = words.next()?.parse().ok()?,
            "--round" => options.round = Some(words.next()?.parse().ok()?),
            "--spoil" => options.spoil = Some(Spoil::named(&words.next()?)?),
            _ => return None,
        }
    }
    Some(options)
}

/// One round: new draws, a new start, some calls.
fn round(bench: &mut Bench, seed: u64, number: u64) {
    ROUND.store(number, Relaxed);
    bench.draws = Draws::new(seed, number);
    match number % MANY_GROUPS {
        FIRST_WIDE_PLANS => return wide_plans::round(bench),
        FIRST_WIDE_MOVES => return moves::wide_round(bench),
        FIRST_WIDE_SWAPS => return swaps::wide_round(bench),
        _ => {}
    }
    match bench.draws.below(27) {
        0 | 1 => places::round(bench),
        2 | 3 => groups::round(bench),
        4 | 5 => catalogues::round(bench),
        6 => texts::round(bench),
        7..=10 => replays::round(bench),
        11..=13 => plans::round(bench),
        14 | 15 => moves::round(bench),
        16 | 17 => swaps::round(bench),
        18..=20 => settings::round(bench),
        _ => pools::round(bench),
    }
}

fn main() -> ExitCode {
    let Some(options) = options(std::env::args().skip(1)) else {
        eprintln!("{USAGE}");
        return ExitCode::from(2);
    };
    SEED.store(options.seed, Relaxed);
    faults::watch();
    let mut bench = Bench::new(options.heap, options.round.is_some(), options.spoil);
    if let Some(number) = options.round {
        round(&mut bench, options.seed, number);
        println!("round {number} of seed {}: no difference", options.seed);
        return ExitCode::SUCCESS;
    }
    let started = Instant::now();
    let mut rounds = 0;
    while bench.tally.calls() < options.runs {
        round(&mut bench, options.seed, rounds);
        rounds += 1;
    }
    finish(&bench, options.seed, rounds, started.elapsed().as_secs_f64())
}

/// Prints what was tried; whether it was everything.
fn finish(bench: &Bench, seed: u64, rounds: u64, seconds: f64) -> ExitCode {
    let calls = bench.tally.calls();
    bench.tally.print();
    println!(
        "seed {seed}: {calls} calls in {rounds} rounds, {:.0} calls a second",
        calls as f64 / seconds
    );
    let never = bench.tally.never_met();
    if !never.is_empty() {
        println!("never met: {}", never.join(", "));
        return ExitCode::FAILURE;
    }
    println!("no difference");
    ExitCode::SUCCESS
}

//! Recorded days: first lines and lines of events, right or damaged, and sometimes the same calls made directly.

use crate::bench::{hex, quoted, Bench};
use crate::count_rules::Library;
use crate::counts::at_an_end;
use crate::draws::Draws;
use crate::edition_rules;
use crate::layouts::{self, is_light};
use crate::line_damages::damage;
use crate::line_kinds::{FirstLine, Line};
use crate::pool_calls::{compare_record, fail_target, range, repair, target, write_at};
use crate::pools::{Pool, RECOUNTED};
use crate::tally::Call;
use oracle::layout::Layout;
use oracle::replay::{self, line_of_layout, Event, Played, LARGEST_IMAGE, LONGEST_LINE};
use splicebell::raw;

/// Most images are short, since the model takes its time.
const USUAL_IMAGE: u64 = 640;
/// One in so many rounds has a file that the longest write fits into.
const WIDE: u64 = 5;
/// As many bytes as a line of the longest length writes.
const LONGEST_WRITE: u64 = (LONGEST_LINE as u64 - 20) / 2;
/// One in so many played lines is made once more, as a call of its own.
const DIRECTLY: u64 = 10;
/// One in so many lines is played with a count of missing units at the bound or above, or of 0.
const ENDS: u64 = 3;
/// What stands behind a first line that names an edition, which has no place there: a line tells edition 1.
pub const EDITION_FIELDS: [&[u8]; 3] = [b" 01\n", b" 02\n", b" 0000000000000002\n"];
/// N, K and P of tiles of a power of two of units, which can make the largest image of all.
const EVEN_SHAPES: [(u64, u64, u64); 6] =
    [(1, 0, 1), (2, 0, 2), (2, 1, 4), (2, 3, 8), (4, 2, 8), (8, 0, 64)];

/// Calls on one pool, and first lines.
pub fn round(bench: &mut Bench) {
    let layout = usual(&mut bench.draws);
    let mut pool = Pool::of(&mut bench.draws, layout);
    bench.tally.add_replay(&layout);
    let most = if pool.image.len() > 1 << 12 { 30 } else { 60 };
    for _ in 0..bench.draws.between(10, most) {
        if bench.draws.one_in(8) {
            pool.scribble(&mut bench.draws);
        }
        if bench.draws.one_in(RECOUNTED) {
            pool.recount(&mut bench.draws);
        }
        if bench.draws.one_in(5) {
            first(bench);
        } else if bench.draws.one_in(4) {
            let other = damaged(&mut bench.draws, &pool);
            line(bench, &other);
        } else if bench.draws.one_in(ENDS) {
            let other = at_an_end(&mut bench.draws, &pool);
            line(bench, &other);
        } else {
            pool = line(bench, &pool);
        }
    }
}

/// Often bad in its record alone, or in its edition.
fn damaged(draws: &mut Draws, pool: &Pool) -> Pool {
    match draws.below(3) {
        0 => pool.damaged(draws),
        1 => pool.with_bad_edition(draws),
        _ => pool.with_bad_record(draws),
    }
}

fn usual(draws: &mut Draws) -> Layout {
    if !draws.one_in(WIDE) {
        return layouts::fitting(draws, USUAL_IMAGE);
    }
    loop {
        let layout = layouts::fitting(draws, LARGEST_IMAGE);
        if layout.derived().capacity >= LONGEST_WRITE {
            return layout;
        }
    }
}

/// A layout with an image that is as large as one may be, or a tile larger.
fn at_the_limit(draws: &mut Draws) -> Layout {
    let mut y = layouts::fitting(draws, LARGEST_IMAGE);
    if draws.one_in(2) {
        (y.n, y.k, y.p) = draws.pick(&EVEN_SHAPES);
        y.u = 1 << draws.below(13);
    }
    y.t = 1;
    y.t = (LARGEST_IMAGE / y.derived().image + draws.below(2)).max(1);
    y
}

/// Often a layout that is refused, or one with too large an image. Some have numbers that no line has room for.
fn first_layout(draws: &mut Draws) -> Layout {
    match draws.below(8) {
        0 | 1 => at_the_limit(draws),
        2 => layouts::any(draws),
        3 | 4 => {
            let usual = usual(draws);
            let y = layouts::damaged(draws, &usual);
            if draws.one_in(6) {
                y
            } else {
                layouts::narrowed(&y)
            }
        }
        _ => usual(draws),
    }
}

fn first(bench: &mut Bench) {
    let layout = first_layout(&mut bench.draws);
    let mut line = line_of_layout(&layout).into_bytes();
    match bench.draws.below(20) {
        0 => line.clear(),
        1 => line.truncate(line.len() - 1),
        2..=7 => damage(&mut bench.draws, &mut line, |harm| bench.tally.add_line_damage(harm)),
        8 => {
            line.truncate(line.len() - 1);
            line.extend(bench.draws.pick(&EDITION_FIELDS));
        }
        _ => {}
    }
    let inputs = || format!("line {}", quoted(&line));
    let mut trial = bench.begin(Call::ReplayFirst, &inputs);
    let sent = bench.lend(&line);
    // SAFETY: the pointer leads to that many bytes.
    let answer = unsafe { raw::splicebell_replay_first(sent.pointer(), sent.len()) };
    let answer = edition_rules::first_line(bench.spoil, answer);
    let expected = replay::first_line(&line);
    trial.number("refusal", answer.refusal, expected.refusal);
    layouts::compare(&mut trial, &answer.layout, &expected.layout);
    trial.number("image", answer.image, expected.image);
    trial.buffer("line", &sent, &line);
    bench.end(trial, expected.refusal);
    bench.tally.add_first(&FirstLine { line: &line, layout: &layout, first: &expected });
}

/// Writes no more bytes than fit on a line, and as many or nearly as many where the file has them.
fn write_event(draws: &mut Draws, pool: &Pool) -> Event {
    let (offset, length) = range(draws, pool);
    let capacity = pool.layout.derived().capacity;
    if !draws.one_in(if capacity >= LONGEST_WRITE { 2 } else { 12 }) {
        let length = length.min(LONGEST_WRITE as usize);
        return Event::Write { offset, bytes: draws.bytes(length) };
    }
    let length = LONGEST_WRITE - draws.pick(&[0, 0, 0, 0, 1]);
    let last = capacity.saturating_sub(length);
    let offset = draws.pick(&[0, last, last, last + 1]);
    Event::Write { offset, bytes: draws.bytes(length as usize) }
}

/// Reads any number of bytes: what no buffer has room for is refused from the numbers.
fn read_event(draws: &mut Draws, pool: &Pool) -> Event {
    let (offset, length) = range(draws, pool);
    let capacity = pool.layout.derived().capacity;
    let (edge, little) = (draws.edge(), draws.between(0, capacity));
    let (offset, length) = match draws.below(12) {
        0 => (0, capacity),
        1 => (little, capacity + 1),
        2 => (offset, edge),
        3 => (edge, length as u64),
        4 => (edge, edge),
        5 => (offset, little.wrapping_sub(offset)),
        _ => (offset, length as u64),
    };
    Event::Read { offset, length }
}

/// An event: its arguments mostly inside, often at a bound, sometimes far outside.
fn event(draws: &mut Draws, pool: &Pool) -> Event {
    match draws.below(12) {
        0..=4 => write_event(draws, pool),
        5 | 6 => Event::Fail { target: target(draws, pool) as u8 },
        7 | 8 if is_light(&pool.layout) => Event::Repair,
        _ => read_event(draws, pool),
    }
}

/// Mostly the least room that an answer must have.
fn room(draws: &mut Draws, pool: &Pool) -> usize {
    let least = 24 + 2 * pool.image.len();
    match draws.below(18) {
        0 => least - 1,
        1 => 0,
        2 => draws.below(least as u64) as usize,
        3 => least + 1,
        4 => least + draws.size(5000) as usize,
        _ => least,
    }
}

/// One line; what it leaves.
fn line(bench: &mut Bench, pool: &Pool) -> Pool {
    let event = event(&mut bench.draws, pool);
    let right = event.line().into_bytes();
    let mut line = right.clone();
    match bench.draws.below(40) {
        0..=12 => {
            damage(&mut bench.draws, &mut line, |harm| bench.tally.add_line_damage(harm));
        }
        13 => line = line_of_layout(&pool.layout).into_bytes(),
        _ => {}
    }
    let room = room(&mut bench.draws, pool);
    let (played, after) = play(bench, pool, &line, room);
    if line == right && played.refusal == 0 && bench.draws.one_in(DIRECTLY) {
        directly(bench, pool, &event, &after);
    }
    after
}

/// Makes one call; what the model answers, and the pool afterwards.
fn play(bench: &mut Bench, pool: &Pool, line: &[u8], room: usize) -> (Played, Pool) {
    let before = bench.draws.bytes(room);
    let inputs = || format!("{} line {} answer {}", pool.told(), quoted(line), hex(&before));
    let mut trial = bench.begin(Call::ReplayLine, &inputs);
    let (image, sent, answer) =
        (bench.lend_mut(&pool.image), bench.lend(line), bench.lend_mut(&before));
    let (y, r) = (trial.layout(&pool.layout), Library::of(bench).record(pool));
    let (at, length) = (image.pointer(), image.len());
    let (first, bytes) = (sent.pointer(), sent.len());
    let (into, room) = (answer.pointer(), answer.len());
    // SAFETY: the pointers lead to that many bytes, and the buffers lie apart.
    let answered =
        unsafe { raw::splicebell_replay_line(y, r, at, length, first, bytes, into, room) };
    let mut after = pool.clone();
    let played = replay::play_line(&pool.layout, &pool.record, &mut after.image, line, room);
    after.record = played.record;
    trial.number("refusal", answered.refusal, played.refusal);
    trial.number("length", answered.length, played.answer.len() as u64);
    let record = Library::of(bench).handed_back(pool, answered.record);
    compare_record(&mut trial, &record, &played.record);
    trial.buffer("image", &image, &after.image);
    trial.buffer("line", &sent, line);
    trial.beginning("answer", &answer, &with_answer(&before, &played), played.answer.len());
    bench.end(trial, played.refusal);
    bench.tally.add_line(&Line { pool, line, room, played: &played });
    (played, after)
}

/// The answer's buffer after the call: zeros where it is refused, else its own bytes behind the answer.
fn with_answer(before: &[u8], played: &Played) -> Vec<u8> {
    if played.refusal != 0 {
        return vec![0; before.len()];
    }
    [&played.answer, &before[played.answer.len()..]].concat()
}

/// "The end state equals that of the calls made directly": by the library's own calls.
fn directly(bench: &mut Bench, pool: &Pool, event: &Event, wanted: &Pool) {
    let after = match event {
        Event::Write { offset, bytes } => {
            write_at(bench, pool, *offset, bytes, Some(&wanted.image))
        }
        Event::Fail { target } => fail_target(bench, pool, u64::from(*target)),
        Event::Repair => repair(bench, pool),
        Event::Read { .. } => return,
    };
    let is_equal = after.image == wanted.image && after.record == wanted.record;
    assert!(is_equal, "the line leaves another pool than the call");
}

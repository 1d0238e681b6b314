//! Pools moved to the other edition, with failures and without; there and back; and on in the pools that moves leave.

use crate::bench::{hex, Bench};
use crate::count_kinds::Counted;
use crate::counts::at_an_end;
use crate::draws::Draws;
use crate::layouts::{self, is_light, MOST_TILES};
use crate::move_kinds::{Back, Moved};
use crate::move_rules::Library;
use crate::plan_draws::{aged, written};
use crate::pool_calls::{fail, read, read_at, repair, write};
use crate::pools::{Pool, RECOUNTED};
use crate::records;
use crate::tally::Call;
use oracle::layout::Layout;
use oracle::pool::Record;
use oracle::pool_move::{self, other_edition};

/// How long images may be: one in so many pools, up to so many bytes. Long ones have few groups, and so long units: the model
/// takes its time for each group.
const SIZES: [(u64, u64); 2] = [(25, 1 << 16), (8, 1 << 13)];
const USUAL_IMAGE: u64 = 640;
const MOST_GROUPS: u64 = 100;
/// One in so many layouts has one target, one the most targets, one the most data units; and of others that have no parity
/// one in so many is taken, since nothing of them is ever missing.
const SINGLE: u64 = 24;
const MOST_TARGETS: u64 = 16;
const MOST_DATA: u64 = 16;
const WITHOUT_PARITY: u64 = 4;
/// No longer image is lent: a layout that the old one does not fit may want one that no memory holds.
const LONGEST: u64 = 32 << 20;

fn layout(draws: &mut Draws) -> Layout {
    let most =
        SIZES.iter().find(|(rare, _)| draws.one_in(*rare)).map_or(USUAL_IMAGE, |size| size.1);
    let (targets, data) = (draws.one_in(MOST_TARGETS), draws.one_in(MOST_DATA));
    if draws.one_in(SINGLE) {
        let usual = layouts::fitting(draws, most);
        return Layout { n: 1, k: 0, p: 1, ..usual };
    }
    loop {
        let layout = layouts::fitting(draws, most);
        let is_quick = most == USUAL_IMAGE || layout.derived().groups <= MOST_GROUPS;
        let has_parity = layout.k > 0 || draws.one_in(WITHOUT_PARITY);
        let is_wide = (!targets || layout.p == 64) && (!data || targets || layout.n == 16);
        if is_quick && has_parity && is_wide {
            return layout;
        }
    }
}

/// A pool with no failures that holds a drawn file, or one of drawn bytes, often with no failures either.
fn pool(draws: &mut Draws) -> Pool {
    let layout = layout(draws);
    let mut pool = written(draws, layout);
    if !pool.holds_file && draws.one_in(2) {
        pool.record = records::empty(draws);
    }
    pool
}

/// The pool as it is, with other bytes where no read looks, or some failures later, perhaps with all of them repaired.
fn state(draws: &mut Draws, start: &Pool) -> Pool {
    let mut pool = match draws.below(8) {
        0 => return start.clone(),
        1 => start.clone(),
        2 | 3 => worn(draws, start),
        _ => aged(draws, start),
    };
    if draws.one_in(5) {
        let (y, r) = (&pool.layout, &pool.record);
        pool.record = oracle::pool::repair(y, r, &mut pool.image).1;
    }
    pool.scribble(draws);
    pool
}

/// The pool with as many failures as it takes, or nearly, of which none is repaired since.
fn worn(draws: &mut Draws, start: &Pool) -> Pool {
    let mut pool = start.clone();
    for _ in 0..2 * pool.layout.k {
        let target = draws.below(pool.layout.p);
        pool.record = oracle::pool::fail(&pool.layout, &pool.record, &pool.image, target).1;
    }
    pool
}

/// Calls on one pool in several states, and on what moves of it leave.
pub fn round(bench: &mut Bench) {
    let start = pool(&mut bench.draws);
    bench.tally.add_move_layout(&start.layout);
    for _ in 0..bench.draws.between(3, 10) {
        let mut pool = state(&mut bench.draws, &start);
        for _ in 0..bench.draws.between(1, 8) {
            if bench.draws.one_in(RECOUNTED) {
                pool.recount(&mut bench.draws);
            }
            pool = step(bench, &pool).unwrap_or(pool);
        }
    }
}

/// One call or two; what is left, where it may be another pool.
fn step(bench: &mut Bench, pool: &Pool) -> Option<Pool> {
    match bench.draws.below(20) {
        0 | 1 => there_and_back(bench, pool),
        2 => reads_agree(bench, pool),
        3..=7 => flawed(bench, pool),
        8 => {
            let other = pool.damaged(&mut bench.draws);
            call(bench, &other);
        }
        9 => {
            let other = at_an_end(&mut bench.draws, pool);
            call(bench, &other);
        }
        10 => read(bench, pool),
        11 => return Some(write(bench, pool)),
        12 => return Some(fail(bench, pool)),
        13 => return Some(repair(bench, pool)),
        _ => {
            let after = call(bench, pool)?;
            let is_aged = bench.draws.one_in(2);
            return Some(if is_aged { state(&mut bench.draws, &after) } else { after });
        }
    }
    None
}

/// A move that is mostly refused, for one thing or for several: layout, record, the old image's length, the new one's.
fn flawed(bench: &mut Bench, pool: &Pool) {
    let draws = &mut bench.draws;
    let (one, other) = (1 << draws.below(4), 1 << draws.below(4));
    let any = draws.between(1, 15);
    let flaws = draws.pick(&[one, one | other, any]);
    let mut sent = Pool { holds_file: false, ..pool.clone() };
    if flaws & 1 != 0 {
        sent.layout = bad_layout(draws, &pool.layout);
    }
    if flaws & 2 != 0 {
        sent.record = bad_record(draws, &pool.layout);
    }
    if flaws & 4 != 0 {
        sent.image.resize(other_length(draws, pool), draws.word() as u8);
    }
    let length = match flaws & 8 {
        0 => pool.image.len(),
        _ if draws.one_in(3) => sent.image.len(),
        _ => other_length(draws, pool),
    };
    let before = new_image(draws, &sent, length);
    move_edition(bench, &sent, &before, None);
}

/// Often bad in its edition alone.
pub fn bad_layout(draws: &mut Draws, y: &Layout) -> Layout {
    if draws.one_in(2) {
        return layouts::with_bad_edition(draws, y);
    }
    layouts::damaged(draws, y)
}

/// Often with a target outside or one twice, where the layout has room for that.
pub fn bad_record(draws: &mut Draws, y: &Layout) -> Record {
    match draws.below(6) {
        0 if y.k > 0 => records::outside(draws, y),
        1 if y.k > 1 => records::repeated(draws, y),
        _ => records::bad(draws, y),
    }
}

/// Mostly a length that an image of a sound pool should not have; the file's is the right one where all units are data.
/// One that is wrong in one bit is seen only where all bits are compared.
pub fn other_length(draws: &mut Draws, pool: &Pool) -> usize {
    let (right, file) = (pool.image.len(), pool.layout.derived().capacity as usize);
    let (any, bit) = (draws.wrong_length(right), 1 << draws.below(17));
    draws.pick(&[0, right - 1, right + 1, file, any, right ^ bit])
}

/// A move of a pool with more groups than 16 bits tell apart, there and back. Such pools are too large for most rounds, so some
/// rounds are theirs alone.
pub fn wide_round(bench: &mut Bench) {
    let pool = wide(&mut bench.draws);
    bench.tally.add_move_layout(&pool.layout);
    there_and_back(bench, &pool);
}

/// A pool of drawn bytes with the most tiles that may be, of four groups each.
pub fn wide(draws: &mut Draws) -> Pool {
    let (cookie, edition) = (layouts::cookie(draws), layouts::edition(draws));
    let layout = Layout { n: 1, k: 1, p: 4, u: 1, t: MOST_TILES, cookie, edition };
    let record = records::good(draws, &layout);
    Pool::unwritten(layout, record, draws.bytes(layout.derived().image as usize))
}

/// One move; the pool that it leaves, where it is accepted.
pub fn call(bench: &mut Bench, pool: &Pool) -> Option<Pool> {
    let length = new_length(&mut bench.draws, pool);
    let before = new_image(&mut bench.draws, pool, length);
    move_edition(bench, pool, &before, None)
}

/// How long the new image is: mostly right, sometimes as long as the old one that is not.
fn new_length(draws: &mut Draws, pool: &Pool) -> usize {
    let length = pool.layout.derived().image;
    let fits = (1..=LONGEST).contains(&length);
    let right = if fits { length as usize } else { pool.image.len() };
    match draws.below(16) {
        0 => draws.wrong_length(right),
        1 => pool.image.len(),
        _ => right,
    }
}

/// What the new image holds before: mostly no zero, so that a byte which is not cleared shows; else what might be taken for
/// right.
fn new_image(draws: &mut Draws, pool: &Pool, length: usize) -> Vec<u8> {
    let mut image = draws.bytes(length);
    image.iter_mut().for_each(|byte| *byte = (*byte).max(1));
    match draws.below(10) {
        0 => image.fill(0),
        1 => {
            let common = length.min(pool.image.len());
            image[..common].copy_from_slice(&pool.image[..common]);
        }
        2 if is_light(&pool.layout) => {
            pool_move::move_edition(&pool.layout, &pool.record, &pool.image, &mut image);
        }
        _ => {}
    }
    image
}

/// Moves the pool into an image that holds these bytes before. `wanted` is what it must hold then, where that is known
/// without the model's move. Answers the pool that is left, where the move is accepted.
fn move_edition(
    bench: &mut Bench,
    pool: &Pool,
    before: &[u8],
    wanted: Option<&[u8]>,
) -> Option<Pool> {
    let inputs = || format!("{} new image {}", pool.told(), hex(before));
    let mut trial = bench.begin(Call::MoveEdition, &inputs);
    let (old, new) = (bench.lend(&pool.image), bench.lend_mut(before));
    let y = trial.layout(&pool.layout);
    let answer = Library::of(bench).move_edition(y, pool, &old, &new);
    let mut after = before.to_vec();
    let refusal = pool_move::move_edition(&pool.layout, &pool.record, &pool.image, &mut after);
    trial.number("refusal", answer, refusal);
    trial.buffer("old image", &old, &pool.image);
    trial.buffer("new image", &new, &after);
    if let Some(wanted) = wanted {
        trial.buffer("new image, against the first one", &new, wanted);
    }
    bench.end(trial, refusal);
    bench.tally.add_count(&Counted::of(Call::MoveEdition, pool, refusal));
    bench.tally.moves.add(&Moved { pool, before, after: &after, refusal });
    (refusal == 0).then(|| left(pool, after))
}

/// The pool that a move leaves: it holds a file, also where the old one held none, since its parity is worked out.
fn left(pool: &Pool, image: Vec<u8>) -> Pool {
    let unwritten = Pool::unwritten(other_edition(&pool.layout), Record::default(), image);
    Pool { holds_file: true, is_moved: true, ..unwritten }
}

/// A move into an image of the right length.
fn moved(bench: &mut Bench, pool: &Pool, wanted: Option<&[u8]>) -> Option<Pool> {
    let before = new_image(&mut bench.draws, pool, pool.image.len());
    move_edition(bench, pool, &before, wanted)
}

/// "Moving there and back gives the first image again if it had an empty list, zero spares and the parity of its own data."
fn there_and_back(bench: &mut Bench, pool: &Pool) {
    let Some(there) = moved(bench, pool, None) else { return };
    let is_plain = pool.record.k == 0 && is_written(pool);
    let Some(back) = moved(bench, &there, is_plain.then_some(&pool.image[..])) else { return };
    bench.tally.moves.add_back(&Back { first: pool, image: &back.image });
}

/// Whether the image is what a write of the whole file leaves on zeros.
fn is_written(pool: &Pool) -> bool {
    let mut image = vec![0; pool.image.len()];
    oracle::pool::write(&pool.layout, &pool.record, &mut image, 0, &file_of(pool));
    image == pool.image
}

/// The whole file of a sound pool.
pub fn file_of(pool: &Pool) -> Vec<u8> {
    let mut file = vec![0; pool.layout.derived().capacity as usize];
    oracle::pool::read(&pool.layout, &pool.record, &pool.image, 0, &mut file);
    file
}

/// "Reads agree over the whole capacity": the library's read of the new pool against its read of the old one.
fn reads_agree(bench: &mut Bench, pool: &Pool) {
    let Some(there) = moved(bench, pool, None) else { return };
    let capacity = pool.layout.derived().capacity as usize;
    let file = read_at(bench, pool, 0, capacity, None);
    read_at(bench, &there, 0, capacity, Some(&file));
}

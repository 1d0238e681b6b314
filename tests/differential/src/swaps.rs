//! Drives that are swapped and taken back: in rows of any state, with good and bad input; and rows over the years, in which
//! drives die, are repaired and swapped again and again, beside the file that they should hold.

use crate::bench::{Bench, Trial};
use crate::count_kinds::Counted;
use crate::counts::{above, at_an_end, audit};
use crate::draws::Draws;
use crate::layouts::{MOST_TARGETS, MOST_UNIT_BYTES};
use crate::lent::Lent;
use crate::lists::write_list;
use crate::move_kinds::{contents, Content};
use crate::move_rules::put;
use crate::moves::{bad_layout, bad_record, file_of, other_length, wide};
use crate::plan_draws::{aged, pool, written, MOST_DATA};
use crate::pool_calls::{compare_record, fail, fail_target, read_at, repair, show, write_at};
use crate::pools::{Pool, RECOUNTED};
use crate::swap_kinds::Swapped;
use crate::swap_rules::Library;
use crate::tally::Call;
use crate::{layouts, moves, plans, records};
use oracle::group::{encoded, Bytes};
use oracle::layout::Layout;
use oracle::pool_swap;

/// Images of rows over the years are no longer, since every content is encoded afresh after each event.
const LONGEST_YEARS: usize = 1 << 12;
/// One in so many states is one in which drives may wait for repair.
const UNREPAIRED: u64 = 4;
/// One time in so many new drives are of zeros.
const BLANK: u64 = 4;
/// In rows over the years, one in so many swaps is tried while drives wait for repair.
const TOO_EARLY: u64 = 4;
/// What may speak against a swap: drives that wait, a target that is not in the list, one outside, the record, the image's
/// length, the layout.
const WAITS: u64 = 1;
const UNLISTED: u64 = 2;
const OUTSIDE: u64 = 4;
const RECORD: u64 = 8;
const LENGTH: u64 = 16;
const LAYOUT: u64 = 32;
const FLAWS: [u64; 6] = [WAITS, UNLISTED, OUTSIDE, RECORD, LENGTH, LAYOUT];

/// Calls on one row: over the years, or in several states.
pub fn round(bench: &mut Bench) {
    let start = start(&mut bench.draws);
    bench.tally.add_swap_layout(&start.layout);
    let is_short = start.image.len() <= LONGEST_YEARS;
    if start.holds_file && is_short && bench.draws.one_in(2) {
        return years(bench, start);
    }
    for _ in 0..bench.draws.between(3, 10) {
        let mut pool = state(&mut bench.draws, &start);
        for _ in 0..bench.draws.between(1, 8) {
            if bench.draws.one_in(RECOUNTED) {
                pool.recount(&mut bench.draws);
            }
            pool = step(bench, &pool).unwrap_or(pool);
        }
    }
}

/// A row of no failures that holds a file, or of drawn bytes: mostly such as plans are tried with, else one group of the
/// longest units, the most targets or the most data units.
fn start(draws: &mut Draws) -> Pool {
    let (n, k) = (draws.between(1, 3), draws.between(1, 3));
    let (n, p, u) = match draws.below(16) {
        0..=2 => (n, n + 2 * k, MOST_UNIT_BYTES),
        3 => (n, MOST_TARGETS, 1),
        4 => (MOST_DATA, MOST_DATA + 2 * k + draws.below(3), 1),
        _ => return pool(draws),
    };
    let (cookie, edition) = (layouts::cookie(draws), layouts::edition(draws));
    written(draws, Layout { n, k, p, u, t: 1, cookie, edition })
}

/// The row some failures later, mostly with all of them repaired. One that holds no file has any bytes and any list.
fn state(draws: &mut Draws, start: &Pool) -> Pool {
    let mut pool = aged(draws, start);
    let y = pool.layout;
    if draws.one_in(UNREPAIRED) || y.k == 0 {
        return pool;
    }
    if pool.holds_file {
        pool.record = oracle::pool::repair(&y, &pool.record, &mut pool.image).1;
        pool.scribble(draws);
    } else {
        pool.record = records::repaired(draws, &y);
    }
    put_in(draws, &mut pool);
    pool
}

/// New drives in the place of failed ones, sometimes of zeros.
fn put_in(draws: &mut Draws, pool: &mut Pool) {
    if !draws.one_in(BLANK) {
        return;
    }
    let length = pool.image.len() / pool.layout.p as usize;
    for target in &pool.record.failed[..pool.record.k as usize] {
        pool.image[*target as usize * length..][..length].fill(0);
    }
}

/// One call; what is left, where it may be another pool.
fn step(bench: &mut Bench, pool: &Pool) -> Option<Pool> {
    match bench.draws.below(16) {
        0..=4 => flawed(bench, pool),
        5 => {
            let other = pool.damaged(&mut bench.draws);
            call(bench, &other);
        }
        6 => {
            let other = at_an_end(&mut bench.draws, pool);
            call(bench, &other);
        }
        7 => return Some(write_list(bench, pool)),
        8 => return Some(fail(bench, pool)),
        9 => return Some(repair(bench, pool)),
        _ => return Some(call(bench, pool)),
    }
    None
}

/// A swap of mostly a target of the list. Answers what the model says the pool is afterwards.
pub fn call(bench: &mut Bench, pool: &Pool) -> Pool {
    let target = target(&mut bench.draws, pool);
    swap(bench, pool, target)
}

fn target(draws: &mut Draws, pool: &Pool) -> u64 {
    let (k, any) = (pool.record.k.min(3) as usize, draws.near(pool.layout.p));
    if k == 0 || draws.one_in(8) {
        return draws.pick(&[any, any, pool.record.failed[0], pool.record.failed[2]]);
    }
    let one = draws.pick(&pool.record.failed[..k]);
    match draws.below(10) {
        0 => outside(draws, pool, one),
        1 => any,
        _ => one,
    }
}

/// No target of the pool: beside them, far off, or one of the list by its lowest bits.
fn outside(draws: &mut Draws, pool: &Pool, one: u64) -> u64 {
    let (p, edge) = (pool.layout.p, draws.edge());
    let wide = one | 1 << draws.pick(&[8, 16, 32, 63]);
    draws.pick(&[p, p.saturating_add(1), u64::MAX, edge.max(p), wide, wide])
}

/// A target that is not in the list, where there is one: often one that stands behind it.
fn unlisted(draws: &mut Draws, pool: &Pool) -> u64 {
    let (failed, k) = (&pool.record.failed, pool.record.k as usize);
    let is_free = |target: &u64| !failed[..k].contains(target) && *target < pool.layout.p;
    let behind: Vec<u64> = failed[k..].iter().copied().filter(is_free).collect();
    if !behind.is_empty() && draws.one_in(2) {
        return draws.pick(&behind);
    }
    let free: Vec<u64> = (0..pool.layout.p).filter(is_free).collect();
    draws.pick(&free)
}

/// A swap that is mostly refused, for one thing or for several: layout, length, record, a target outside, one that is not in
/// the list, a list that is not all repaired.
fn flawed(bench: &mut Bench, pool: &Pool) {
    let draws = &mut bench.draws;
    let (y, mut sent) = (pool.layout, Pool { holds_file: false, ..pool.clone() });
    if y.k == 0 {
        return drop(call(bench, pool));
    }
    let [one, other, third] = [(); 3].map(|()| draws.pick(&FLAWS));
    let (early, all) = (WAITS | UNLISTED, FLAWS.iter().sum());
    let flaws = draws.pick(&[one, one, one | other, one | other | third, early | one, all]);
    sent.record = if flaws & WAITS != 0 {
        records::unrepaired(draws, &y)
    } else {
        records::repaired(draws, &y)
    };
    let mut target = draws.pick(&sent.record.failed[..sent.record.k as usize]);
    if flaws & UNLISTED != 0 {
        target = unlisted(draws, &sent);
    }
    if flaws & OUTSIDE != 0 {
        target = outside(draws, &sent, target);
    }
    if flaws & RECORD != 0 {
        spoil_record(draws, &mut sent);
    }
    if flaws & LENGTH != 0 {
        sent.image.resize(other_length(draws, pool), draws.word() as u8);
    }
    if flaws & LAYOUT != 0 {
        sent.layout = bad_layout(draws, &y);
    }
    swap(bench, &sent, target);
}

/// Bad by its count alone as often as in another way.
fn spoil_record(draws: &mut Draws, pool: &mut Pool) {
    if draws.one_in(2) {
        pool.record.waiting = above(draws, &pool.layout);
    } else {
        pool.record = bad_record(draws, &pool.layout);
    }
}

/// A swap in a pool with more groups than 16 bits tell apart, in each edition. Such pools are too large for most rounds, so
/// some rounds are theirs alone.
pub fn wide_round(bench: &mut Bench) {
    let mut pool = wide(&mut bench.draws);
    for edition in 1..=2 {
        pool.layout.edition = edition;
        pool.record = records::repaired(&mut bench.draws, &pool.layout);
        bench.tally.add_swap_layout(&pool.layout);
        let target = pool.record.failed[0];
        swap(bench, &pool, target);
    }
}

/// Takes the target back. Answers what the model says the pool is afterwards.
fn swap(bench: &mut Bench, pool: &Pool, target: u64) -> Pool {
    let inputs = || format!("{} target {target}", pool.told());
    let mut trial = bench.begin(Call::Swap, &inputs);
    let image = bench.lend_mut(&pool.image);
    let y = trial.layout(&pool.layout);
    let answer = Library::of(bench).swap(y, pool, &image, target);
    let mut after = pool.clone();
    let (refusal, record) = pool_swap::swap(&pool.layout, &pool.record, &mut after.image, target);
    after.record = record;
    trial.number("refusal", answer.refusal, refusal);
    compare_record(&mut trial, &answer.record, &record);
    trial.buffer("image", &image, &after.image);
    if refusal == 0 && pool.holds_file {
        compare_afresh(&mut trial, pool, &after, &image);
    }
    bench.end(trial, refusal);
    let counted = Counted { target: Some(target), ..Counted::of(Call::Swap, pool, refusal) };
    bench.tally.add_count(&counted);
    bench.tally.swaps.add(&Swapped::of(pool, target, &after, refusal));
    if refusal == 0 {
        after.is_scribbled &= record.k > 0;
        after.returned.push(target);
    }
    after
}

/// "Every content's bytes go from its old home to its new one, which on a pool that demand 3 can reach is what encoding
/// afresh would put there".
fn compare_afresh(trial: &mut Trial, pool: &Pool, after: &Pool, image: &Lent<u8>) {
    let mut wanted = Pool { image: image.contents().to_vec(), ..after.clone() };
    encode_afresh(&mut wanted, &file_of(pool));
    trial.buffer("image, against encoding afresh", image, &wanted.image);
}

/// Puts in every present content of a sound pool what encoding the file afresh gives.
fn encode_afresh(pool: &mut Pool, file: &[u8]) {
    let (y, all) = (pool.layout, contents(pool).collect::<Vec<_>>());
    let u = y.u as usize;
    let groups = file.chunks(y.n as usize * u).zip(all.chunks(y.contents() as usize));
    for (file, group) in groups {
        let data: Vec<Bytes> = file.chunks(u).map(<[u8]>::to_vec).collect();
        for Content { group, number, home, .. } in group.iter().filter(|one| !one.is_missing) {
            put(&y, &mut pool.image, *group, *home, &encoded(&data, *number as usize));
        }
    }
}

/// A row, and the file that it should hold: zeros, with the accepted writes laid on in order.
struct Row {
    pool: Pool,
    file: Vec<u8>,
}

/// Events on one row from no failures on. After each of them every present content must be what encoding the file afresh
/// gives; the library's image is the model's, by then.
fn years(bench: &mut Bench, pool: Pool) {
    let file = file_of(&pool);
    let mut row = Row { pool, file };
    for _ in 0..bench.draws.between(20, 90) {
        row.event(bench);
        let mut afresh = row.pool.clone();
        encode_afresh(&mut afresh, &row.file);
        assert!(afresh.image == row.pool.image, "a present content is not that of the file");
    }
}

impl Row {
    fn event(&mut self, bench: &mut Bench) {
        match bench.draws.below(16) {
            0..=1 => self.write(bench),
            2 if bench.draws.one_in(4) => drop(moves::call(bench, &self.pool)),
            2 => audit(bench, &self.pool),
            3 => show(bench, &self.pool),
            4 => self.pool = plans::call(bench, &self.pool).unwrap_or(self.pool.clone()),
            5 => self.pool = repair(bench, &self.pool),
            6..=10 if self.pool.record.k > 0 => self.take_back(bench),
            6..=12 => self.lose(bench),
            13 => self.pool = call(bench, &self.pool),
            _ => {
                read_at(bench, &self.pool, 0, self.file.len(), Some(&self.file));
            }
        }
    }

    fn write(&mut self, bench: &mut Bench) {
        let at = bench.draws.place(self.file.len());
        let length = bench.draws.place(self.file.len() - at + 1);
        bench.draws.fill(&mut self.file[at..at + length]);
        let bytes = &self.file[at..at + length];
        self.pool = write_at(bench, &self.pool, at as u64, bytes, None);
    }

    /// Drives die, often as many at one time as may be.
    fn lose(&mut self, bench: &mut Bench) {
        for _ in 0..bench.draws.between(1, self.pool.layout.k.max(1)) {
            let target = bench.draws.below(self.pool.layout.p);
            self.pool = fail_target(bench, &self.pool, target);
        }
    }

    /// Mostly all drives are repaired first; others scribble on failed drives; then one of these is a new one.
    fn take_back(&mut self, bench: &mut Bench) {
        if self.pool.record.q < self.pool.record.k && !bench.draws.one_in(TOO_EARLY) {
            self.pool = repair(bench, &self.pool);
        }
        self.pool.scribble(&mut bench.draws);
        put_in(&mut bench.draws, &mut self.pool);
        self.pool = call(bench, &self.pool);
    }
}

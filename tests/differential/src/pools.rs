//! Runs of calls on one pool: the state that a call leaves is where the next one starts.

use crate::bench::{hex, Bench};
use crate::counts::{self, audit, audit_another, fail_about_the_bound, panel, repair_another};
use crate::draws::Draws;
use crate::layouts::is_light;
use crate::lists::write_list;
use crate::pool_calls::{fail, hex_line, prepare, read, repair, show, write};
use crate::{layouts, moves, plans, records, swaps};
use oracle::layout::Layout;
use oracle::place::{place, unit_targets};
use oracle::pool::{homes, Record};
use oracle::pool_count;

/// How long images may be: one in so many pools, up to so many bytes. Long ones are rare, since the model
/// takes its time.
const SIZES: [(u64, u64); 4] = [(2000, 32 << 20), (600, 4 << 20), (150, 1 << 19), (16, 1 << 14)];
const USUAL_IMAGE: u64 = 640;
/// One in so many pools has frames from here on, which need all six digits of a hex line.
const TALL: u64 = 2500;
const SIX_DIGITS: u64 = 1 << 20;
/// Before one in so many calls the record gets another count of missing units, mostly the true one.
pub const RECOUNTED: u64 = 6;
/// One in so many damaged pools is bad in its edition alone.
const BAD_EDITION: u64 = 8;
/// One in so many calls is made with a count at the bound or above, or of 0.
const ENDS: u64 = 5;

/// What a call of the pool is given first: layout, record and image.
#[derive(Clone)]
pub struct Pool {
    pub layout: Layout,
    pub record: Record,
    pub image: Vec<u8>,
    /// Whether a failed target holds other bytes than those that it failed with.
    pub is_scribbled: bool,
    /// Whether the image became what it is from zeros by calls on this layout and record, so that present contents agree.
    pub holds_file: bool,
    /// Whether it became what it is from what a move left.
    pub is_moved: bool,
    /// The drives that were taken back since, in order.
    pub returned: Vec<u64>,
}

impl Pool {
    fn drawn(draws: &mut Draws) -> Pool {
        let layout = if draws.one_in(TALL) { layouts::tall(draws) } else { Pool::usual(draws) };
        Pool::of(draws, layout)
    }

    /// A pool of zeros with no failures, or an image that holds no file.
    pub fn of(draws: &mut Draws, layout: Layout) -> Pool {
        let length = layout.derived().image as usize;
        if draws.one_in(3) {
            let record = records::good(draws, &layout);
            Pool::unwritten(layout, record, draws.bytes(length))
        } else {
            let (record, image) = (records::empty(draws), vec![0; length]);
            Pool { holds_file: true, ..Pool::unwritten(layout, record, image) }
        }
    }

    /// An image that holds no file.
    pub fn unwritten(layout: Layout, record: Record, image: Vec<u8>) -> Pool {
        let (is_scribbled, returned) = (record.k > 0, vec![]);
        Pool { layout, record, image, is_scribbled, holds_file: false, is_moved: false, returned }
    }

    fn usual(draws: &mut Draws) -> Layout {
        let most =
            SIZES.iter().find(|(rare, _)| draws.one_in(*rare)).map_or(USUAL_IMAGE, |size| size.1);
        layouts::fitting(draws, most)
    }

    /// The pool with something else in the place of one thing or more: mostly what a call must refuse.
    pub fn damaged(&self, draws: &mut Draws) -> Pool {
        if draws.one_in(BAD_EDITION) {
            return self.with_bad_edition(draws);
        }
        let mut pool = Pool { holds_file: false, ..self.clone() };
        loop {
            match draws.below(7) {
                0 => pool.layout = layouts::damaged(draws, &pool.layout),
                1 => pool.layout = layouts::any(draws),
                2 => pool.layout.cookie = draws.word(),
                3 => pool.layout.edition = layouts::edition(draws),
                4 => pool.image = resized(draws, &self.image),
                5 => pool.record = records::bad(draws, &self.layout),
                _ => pool.record = records::good(draws, &self.layout),
            }
            if draws.one_in(2) {
                return pool;
            }
        }
    }

    /// The pool with a bad record, and nothing else in its place: a bad layout or a wrong length would be told before.
    pub fn with_bad_record(&self, draws: &mut Draws) -> Pool {
        Pool { record: records::bad(draws, &self.layout), holds_file: false, ..self.clone() }
    }

    /// The pool with a bad edition, and nothing else in its place.
    pub fn with_bad_edition(&self, draws: &mut Draws) -> Pool {
        let layout = layouts::with_bad_edition(draws, &self.layout);
        Pool { layout, holds_file: false, ..self.clone() }
    }

    /// Whether layout, image and record are good ones.
    pub fn is_sound(&self) -> bool {
        pool_count::panel(&self.layout, &self.record, &self.image).0 == 0
    }

    pub fn with_count(&self, waiting: u64) -> Pool {
        Pool { record: Record { waiting, ..self.record }, ..self.clone() }
    }

    /// Another count in the record, mostly the true one.
    pub fn recount(&mut self, draws: &mut Draws) {
        self.record.waiting = counts::within(draws, &self.layout, &self.record);
    }

    /// Drawn bytes where no answer may depend on them: on failed targets and on spares that are no home.
    pub fn scribble(&mut self, draws: &mut Draws) {
        let (y, r) = (&self.layout, &self.record);
        self.is_scribbled = r.k > 0;
        let frames_bytes = self.image.len() / y.p as usize;
        for target in &r.failed[..r.k as usize] {
            let begins = *target as usize * frames_bytes;
            draws.fill(&mut self.image[begins..begins + frames_bytes]);
        }
        let group = draws.below(y.derived().groups);
        let taken =
            homes(y.contents() as usize, &unit_targets(y, group), &r.failed[..r.q as usize]);
        for spare in y.contents()..y.derived().w {
            if !taken.contains(&(spare as usize)) {
                let begins = place(y, group, spare).1.begins as usize;
                draws.fill(&mut self.image[begins..begins + y.u as usize]);
            }
        }
    }

    /// A pool in a report.
    pub fn told(&self) -> String {
        let Record { failed, k, q, waiting } = self.record;
        let (layout, image) = (layouts::told(&self.layout), hex(&self.image));
        format!("{layout} failed {failed:?} k {k} q {q} waiting {waiting} image {image}")
    }
}

/// The image cut or made longer.
pub fn resized(draws: &mut Draws, image: &[u8]) -> Vec<u8> {
    let mut other = image.to_vec();
    other.resize(draws.wrong_length(image.len()), draws.word() as u8);
    other
}

/// Calls on one pool.
pub fn round(bench: &mut Bench) {
    let mut pool = Pool::drawn(&mut bench.draws);
    bench.tally.add_pool(&pool.layout);
    if pool.layout.derived().frames > SIX_DIGITS {
        for _ in 0..8 {
            hex_line(bench, &pool);
        }
    }
    let most = if pool.image.len() > 1 << 16 { 12 } else { 60 };
    for _ in 0..bench.draws.between(10, most) {
        if bench.draws.one_in(8) {
            pool.scribble(&mut bench.draws);
        }
        if bench.draws.one_in(RECOUNTED) {
            pool.recount(&mut bench.draws);
        }
        if bench.draws.one_in(5) {
            let other = pool.damaged(&mut bench.draws);
            call(bench, &other);
        } else if bench.draws.one_in(ENDS) {
            let other = counts::at_an_end(&mut bench.draws, &pool);
            call(bench, &other);
        } else if let Some(after) = call(bench, &pool) {
            pool = after;
        }
    }
}

/// Makes one call; what it leaves, for calls that change the record or the image.
fn call(bench: &mut Bench, pool: &Pool) -> Option<Pool> {
    match bench.draws.below(40) {
        0..=3 => read(bench, pool),
        4..=8 => return Some(write(bench, pool)),
        9..=11 => return Some(fail(bench, pool)),
        12..=13 if is_light(&pool.layout) => return Some(repair(bench, pool)),
        12..=16 => prepare(bench, pool),
        17..=19 => show(bench, pool),
        20..=21 => hex_line(bench, pool),
        22..=23 => panel(bench, pool),
        24 if is_light(&pool.layout) => audit(bench, pool),
        25..=26 if is_light(&pool.layout) => audit_another(bench, pool),
        27 if is_light(&pool.layout) => repair_another(bench, pool),
        24..=29 => fail_about_the_bound(bench, pool),
        30..=31 if is_light(&pool.layout) => return plans::call(bench, pool),
        32..=33 if is_light(&pool.layout) => return moves::call(bench, pool),
        34..=35 if is_light(&pool.layout) => return Some(swaps::call(bench, pool)),
        _ => return Some(write_list(bench, pool)),
    }
    None
}

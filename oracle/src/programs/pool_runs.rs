//! `pool_runs`: runs of events on whole pools, with every refusal among them.

use super::{line, spaced};
use crate::draws::{checksum, Draws};
use crate::layout::{gcd, layout, Layout};
use crate::place::place;
use crate::pool::{fail, prepare, read, repair, show, write, Record};
use crate::pool_count::{audit, missing_units, most_missing, panel};
use crate::pool_swap::swap;

const ONES: u64 = u64::MAX;
const RUNS: u64 = 400;
const EVENTS: u64 = 14;
const ROWS: u64 = 40;
const YEARS: u64 = 4;
const FILLER: u8 = 0xAA;

/// One run: its layout, the record that the last call returned, the image.
struct Run {
    shape: Layout,
    record: Record,
    image: Vec<u8>,
    out: String,
}

/// The whole output.
pub fn output() -> String {
    let mut out = example_run();
    for (index, order) in [[0, 3], [3, 0], [4, 0]].iter().enumerate() {
        out.push_str(&spare_run(index as u64 + 1, *order));
    }
    let mut draws = Draws::new(40_260_404);
    for index in 4..4 + RUNS {
        out.push_str(&drawn_run(index, &mut draws));
    }
    out.push_str(&counted_run(4 + RUNS));
    let swapped = 5 + RUNS;
    for (index, order) in [[3, 0], [0, 1], [1, 0]].iter().enumerate() {
        out.push_str(&swapped_run(swapped + index as u64, *order));
    }
    for index in swapped + 3..swapped + 3 + ROWS {
        out.push_str(&years_run(index, &mut draws));
    }
    out
}

/// Document 01's example: ranges at the end of the file, then target 3 fails.
fn example_run() -> String {
    let mut run = Run::fresh(0, layout(1, 1, 4, 4, 1, 0));
    let bytes: Vec<u8> = (1..=16).collect();
    run.write(0, &bytes);
    run.read(16, 0);
    run.read(16, 1);
    run.write(16, &[]);
    run.write(16, &[FILLER]);
    run.fail(3);
    run.panel();
    run.look(2, 0, 4);
    run.look(3, 1, 4);
    run.look(0, 0, 4);
    run.read(0, 16);
    run.repair();
    run.panel();
    run.look(2, 0, 4);
    run.look(3, 1, 4);
    run.fail(3);
    run.fail(0);
    run.fail(4);
    run.read(0, 16);
    run.out
}

/// Document 01's N=1 K=2 example: the targets of two units of group 0 fail,
/// and the data moves to the spare that is left.
fn spare_run(index: u64, order: [u64; 2]) -> String {
    let mut run = Run::fresh(index, layout(1, 2, 5, 3, 1, 0));
    run.write(0, &[1, 2, 3]);
    for unit in order {
        let target = place(&run.shape, 0, unit).1.target;
        run.fail(target);
    }
    run.look(0, 0, 3);
    run.repair();
    run.look(0, 0, 3);
    run.out
}

/// The same row, whose contents are 8, with counts about those that failing
/// target 3 raises to 8, and about the true one.
fn counted_run(index: u64) -> String {
    let mut run = Run::fresh(index, layout(1, 1, 4, 4, 1, 0));
    for count in [8, 7] {
        run.count(count);
        run.panel();
        run.fail(4);
        run.fail(3);
    }
    run.count(6);
    run.fail(3);
    for count in [8, 0, 1, 3, 2] {
        run.count(count);
        run.panel();
    }
    run.count(8);
    run.fail(3);
    run.fail(0);
    run.repair();
    run.panel();
    run.out
}

/// Order 10 on that row: too early, a drive that is alive, one that there is not;
/// then the first that failed comes back, and the second.
fn swapped_run(index: u64, order: [u64; 2]) -> String {
    let mut run = Run::fresh(index, layout(1, 2, 5, 3, 1, 0));
    run.write(0, &[1, 2, 3]);
    let [first, second] = order.map(|unit| place(&run.shape, 0, unit).1.target);
    run.fail(first);
    run.fail(second);
    run.swap(first);
    run.repair();
    run.swap(place(&run.shape, 0, 2).1.target);
    run.swap(5);
    run.swap(first);
    for content in 0..3 {
        run.look(0, content, 3);
    }
    run.swap(first);
    run.swap(second);
    run.panel();
    run.read(0, 3);
    run.out
}

/// A row over the years, from a file of drawn bytes on.
fn years_run(index: u64, draws: &mut Draws) -> String {
    let mut run = Run::fresh(index, drawn_layout(draws));
    let capacity = run.shape.derived().capacity;
    run.write(0, &drawn_bytes(draws, capacity));
    for _ in 0..YEARS {
        run.year(draws);
    }
    run.read(0, capacity);
    run.out
}

fn drawn_run(index: u64, draws: &mut Draws) -> String {
    let shape = drawn_layout(draws);
    let mut image = vec![0; shape.derived().image as usize];
    let record = match draws.draw(4) {
        0 | 1 => Record::default(),
        2 => unread_entries(draws),
        _ => {
            let record = standing_record(draws, &shape);
            draws.fill(&mut image);
            record
        }
    };
    let mut run = Run::new(index, shape, record, image);
    for _ in 0..EVENTS {
        run.event(draws);
    }
    run.read(0, shape.derived().capacity);
    run.out
}

/// An empty list whose entries, never read, hold something.
fn unread_entries(draws: &mut Draws) -> Record {
    let second = draws.draw(64);
    let third = draws.draw(64);
    Record {
        failed: [ONES, second, third],
        ..Record::default()
    }
}

/// A legal record with failures already in it, and their true count.
fn standing_record(draws: &mut Draws, shape: &Layout) -> Record {
    let first = draws.draw(shape.p);
    let k = draws.draw(shape.k + 1);
    let q = draws.draw(k + 1);
    let record = Record {
        failed: [first, (first + 1) % shape.p, (first + 2) % shape.p],
        k,
        q,
        waiting: 0,
    };
    let waiting = missing_units(shape, &record);
    Record { waiting, ..record }
}

fn drawn_layout(draws: &mut Draws) -> Layout {
    let n = 1 + draws.draw(16);
    let k = draws.draw(8).div_ceil(2).min(3);
    let w = n + 2 * k;
    let p = match draws.draw(2) {
        0 => w + draws.draw(4),
        _ => w + draws.draw(65 - w),
    };
    let limit = match draws.draw(8) {
        0 => 65_535,
        _ => 4096,
    };
    let units = limit / (w * p / gcd(w, p));
    let u = match draws.draw(2) {
        0 => 1 + draws.draw(units.min(4096)),
        _ => 1 + draws.draw(units.min(8)),
    };
    let t = 1 + draws.draw((units / u).min(32));
    let cookie = draws.high();
    layout(n, k, p, u, t, cookie).in_edition(1 + draws.draw(2))
}

fn drawn_range(draws: &mut Draws, shape: &Layout) -> (u64, u64) {
    let capacity = shape.derived().capacity;
    let offset = match draws.draw(16) {
        0 | 1 => 0,
        2 => capacity,
        3 => capacity - 1,
        4 => capacity + 1,
        5 => ONES,
        _ => draws.wide() % capacity,
    };
    let left = capacity.saturating_sub(offset);
    let length = match draws.draw(8) {
        0 => 0,
        1 => 1,
        2 | 3 => 1 + draws.draw((3 * shape.u).min(4096)),
        4..=6 => 1 + draws.draw((3 * shape.n * shape.u).min(32_768)),
        _ => left,
    };
    if draws.draw(8) != 0 && offset <= capacity {
        (offset, length.min(left))
    } else {
        (offset, length)
    }
}

fn drawn_bytes(draws: &mut Draws, length: u64) -> Vec<u8> {
    let mut bytes = vec![0; length as usize];
    draws.fill(&mut bytes);
    bytes
}

fn fields(record: &Record) -> String {
    let [first, second, third] = record.failed;
    spaced(&[first, second, third, record.k, record.q, record.waiting])
}

impl Run {
    /// A run on a pool of zeros with an empty list.
    fn fresh(index: u64, shape: Layout) -> Run {
        let image = vec![0; shape.derived().image as usize];
        Run::new(index, shape, Record::default(), image)
    }

    fn new(index: u64, shape: Layout, record: Record, image: Vec<u8>) -> Run {
        let mut run = Run {
            shape,
            record,
            image,
            out: String::new(),
        };
        line!(run.out, "run {} {}", index, shape);
        run.pool_line();
        run
    }

    /// What stands after an event: the image's checksum and the record.
    fn pool_line(&mut self) {
        let sum = checksum(&self.image);
        line!(self.out, "pool {} {}", sum, fields(&self.record));
    }

    fn event(&mut self, draws: &mut Draws) {
        match draws.draw(20) {
            0..=4 => self.drawn_write(draws),
            5..=7 => {
                let (offset, length) = drawn_range(draws, &self.shape);
                self.read(offset, length);
            }
            8..=10 => self.drawn_fail(draws),
            11 => self.repair(),
            12 | 13 => self.drawn_look(draws),
            14 => self.scribble(draws),
            15 => self.bad(draws.draw(15)),
            16 => self.panel(),
            17 => self.drawn_count(draws),
            _ => self.drawn_swap(draws),
        }
    }

    /// Drives die, one is taken for swapped too early, the row is repaired, a dead
    /// drive gets other bytes, and drives are swapped.
    fn year(&mut self, draws: &mut Draws) {
        self.drawn_write(draws);
        self.drawn_fail(draws);
        self.drawn_fail(draws);
        self.drawn_swap(draws);
        self.repair();
        self.scribble(draws);
        self.drawn_swap(draws);
        self.panel();
        self.drawn_swap(draws);
    }

    fn drawn_write(&mut self, draws: &mut Draws) {
        let (offset, length) = drawn_range(draws, &self.shape);
        self.write(offset, &drawn_bytes(draws, length));
    }

    fn write(&mut self, offset: u64, bytes: &[u8]) {
        let refusal = write(&self.shape, &self.record, &mut self.image, offset, bytes);
        line!(self.out, "write {} {} {}", offset, bytes.len(), refusal);
        self.pool_line();
    }

    fn read(&mut self, offset: u64, length: u64) {
        let mut bytes = vec![FILLER; length as usize];
        let refusal = read(&self.shape, &self.record, &self.image, offset, &mut bytes);
        let sum = checksum(&bytes);
        line!(self.out, "read {} {} {} {}", offset, length, refusal, sum);
        self.pool_line();
    }

    fn drawn_fail(&mut self, draws: &mut Draws) {
        let target = match draws.draw(16) {
            0 => self.shape.p,
            1 => ONES,
            2 | 3 => self.record.failed[0],
            _ => draws.draw(self.shape.p),
        };
        self.fail(target);
    }

    fn fail(&mut self, target: u64) {
        let (refusal, after) = fail(&self.shape, &self.record, &self.image, target);
        self.record = after;
        line!(self.out, "fail {} {}", target, refusal);
        self.pool_line();
    }

    /// Mostly a drive of the list.
    fn drawn_swap(&mut self, draws: &mut Draws) {
        let Record { failed, k, .. } = self.record;
        let target = match draws.draw(16) {
            0 => self.shape.p,
            1 => ONES,
            2 | 3 => draws.draw(self.shape.p),
            _ if k == 0 => failed[0],
            _ => failed[draws.draw(k) as usize],
        };
        self.swap(target);
    }

    fn swap(&mut self, target: u64) {
        let (refusal, after) = swap(&self.shape, &self.record, &mut self.image, target);
        self.record = after;
        line!(self.out, "swap {} {}", target, refusal);
        self.pool_line();
    }

    fn repair(&mut self) {
        let (refusal, after, count) = repair(&self.shape, &self.record, &mut self.image);
        self.record = after;
        line!(self.out, "repair {} {}", refusal, count);
        self.pool_line();
    }

    /// What the panel shows, and the audit's answer.
    fn panel(&mut self) {
        let (shape, record, length) = (self.shape, self.record, self.image.len());
        self.panel_lines(&shape, &record, length);
        self.pool_line();
    }

    /// Both for any layout and record and a part of the image.
    fn panel_lines(&mut self, shape: &Layout, record: &Record, length: usize) {
        let image = &self.image[..length];
        let (refusal, counts) = panel(shape, record, image);
        let audited = audit(shape, record, image);
        let shown = spaced(&[counts.waiting, counts.failed, counts.repaired]);
        line!(self.out, "panel {} {}", refusal, shown);
        line!(self.out, "audit {}", audited);
    }

    /// Another count: beside the one that stands there, at the bound, or a
    /// little below that, where a fail may raise it up to the bound or above.
    fn drawn_count(&mut self, draws: &mut Draws) {
        let (now, most) = (self.record.waiting, most_missing(&self.shape));
        let count = match draws.draw(4) {
            0 => now.saturating_sub(1),
            1 => most.min(now + 1),
            2 => most,
            _ => most - draws.draw(self.shape.derived().frames + 1),
        };
        self.count(count);
    }

    fn count(&mut self, waiting: u64) {
        self.record.waiting = waiting;
        line!(self.out, "count {}", waiting);
        self.pool_line();
    }

    fn drawn_look(&mut self, draws: &mut Draws) {
        let (groups, u) = (self.shape.derived().groups, self.shape.u);
        let group = match draws.draw(16) {
            0 => groups,
            1 => ONES,
            _ => draws.wide() % groups,
        };
        let content = match draws.draw(16) {
            0 => self.shape.contents(),
            1 => ONES,
            _ => draws.draw(self.shape.contents()),
        };
        let length = match draws.draw(16) {
            0 => u - 1,
            1 => u + 1,
            _ => u,
        };
        self.look(group, content, length);
    }

    fn look(&mut self, group: u64, content: u64, length: u64) {
        let (shape, record) = (&self.shape, &self.record);
        let mut scratch = vec![FILLER; length as usize];
        let first = prepare(shape, record, &self.image, group, content, &mut scratch);
        let (second, shown) = show(shape, record, &self.image, &scratch, group, content);
        line!(
            self.out,
            "look {} {} {} {} {} {} {} {}",
            group,
            content,
            length,
            first,
            checksum(&scratch),
            second,
            shown.len(),
            checksum(shown)
        );
        self.pool_line();
    }

    /// Something else writes over the whole of a failed target.
    fn scribble(&mut self, draws: &mut Draws) {
        if self.record.k == 0 {
            line!(self.out, "idle");
        } else {
            let target = self.record.failed[draws.draw(self.record.k) as usize];
            let size = self.image.len() / self.shape.p as usize;
            let at = target as usize * size;
            draws.fill(&mut self.image[at..at + size]);
            line!(self.out, "scribble {}", target);
        }
        self.pool_line();
    }

    /// The arguments of a bad call: layout, record, and how much of the image.
    fn bad_arguments(&self, kind: u64) -> (Layout, Record, usize) {
        let (shape, record, whole) = (self.shape, self.record, self.image.len());
        let no_unit = Layout { u: 0, ..shape };
        let all_data = Layout { n: ONES, ..shape };
        let entries = |failed, k, q| Record {
            failed,
            k,
            q,
            waiting: 0,
        };
        let counted = |waiting| Record { waiting, ..record };
        let ones = Record {
            waiting: ONES,
            ..entries([ONES; 3], ONES, ONES)
        };
        match kind {
            0 => (no_unit, record, whole),
            1 => (all_data, record, whole),
            2 => (shape, record, whole - 1),
            3 => (shape, record, 0),
            4 => (shape, entries([0, 1, 2], shape.k + 1, 0), whole),
            5 => {
                let q = record.k + 1;
                (shape, Record { q, ..record }, whole)
            }
            6 => (shape, entries([shape.p, 0, 0], 1, 0), whole),
            7 => (shape, entries([0, 0, 0], 2, 0), whole),
            8 => (shape, ones, whole),
            9 => (no_unit, ones, 0),
            10 => (shape, ones, whole - 1),
            11 => (shape, counted(most_missing(&shape) + 1), whole),
            12 => (shape, counted(ONES), whole),
            13 => (shape.in_edition(0), record, whole),
            _ => (shape.in_edition(3), record, whole),
        }
    }

    /// All nine calls with arguments of which every call refuses some.
    fn bad(&mut self, kind: u64) {
        let (shape, record, length) = self.bad_arguments(kind);
        let image = &mut self.image[..length];
        let mut bytes = [FILLER; 5];
        let reading = read(&shape, &record, image, 0, &mut bytes);
        let writing = write(&shape, &record, image, 0, &[FILLER; 5]);
        let (failing, failed) = fail(&shape, &record, image, 0);
        let (repairing, repaired, count) = repair(&shape, &record, image);
        let (swapping, swapped) = swap(&shape, &record, image, 0);
        let mut scratch = vec![FILLER; self.shape.u as usize];
        let preparing = prepare(&shape, &record, image, 0, 0, &mut scratch);
        let (showing, shown) = show(&shape, &record, image, &scratch, 0, 0);
        let shown = shown.len() as u64;
        let sums = [checksum(&bytes), checksum(&scratch)];
        line!(self.out, "bad {}", kind);
        line!(self.out, "read {} {}", reading, sums[0]);
        line!(self.out, "write {}", writing);
        line!(self.out, "fail {} {}", failing, fields(&failed));
        line!(
            self.out,
            "repair {} {} {}",
            repairing,
            fields(&repaired),
            count
        );
        line!(self.out, "swap {} {}", swapping, fields(&swapped));
        line!(
            self.out,
            "look {} {} {} {}",
            preparing,
            sums[1],
            showing,
            shown
        );
        self.panel_lines(&shape, &record, length);
        self.pool_line();
    }
}

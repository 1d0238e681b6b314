//! `controller`: repair by our planner's plans and by the row controller's,
//! beside plain repair, and what other plans are refused with.

use super::row::{with_count, Pool};
use super::{answered, line};
use crate::layout::{layout, Layout};
use crate::place::place;
use crate::pool::{read, repair, Record};
use crate::pool_plan::{check_plan, draw_plan, missing_contents, presence, repair_by};

const ONES: u64 = u64::MAX;

/// N=2 K=2 P=8, one tile and cookie 16, with these units.
fn row(u: u64) -> Layout {
    layout(2, 2, 8, u, 1, 16)
}

/// The whole output.
pub fn output() -> String {
    let mut out = String::new();
    line!(out, "Plans beside plain repair");
    let mut one = Pool::stored();
    one.lose(&mut out, 2);
    one.run_both(&mut out);
    let mut two = one.clone();
    two.lose(&mut out, 5);
    two.run_both(&mut out);
    let mut later = one.clone();
    later.repair_by_the_controllers(&mut out);
    later.lose(&mut out, 5);
    later.run_both(&mut out);
    line!(out, "A byte of group 0, content 0 is changed");
    one.change_the_first_byte();
    one.run_both(&mut out);
    line!(out, "Plans that leave a row as it was");
    other_plans(&mut out);
    nothing_missing(&mut out);
    wrong_pools(&mut out);
    line!(out, "Buffers for a plan");
    buffers(&mut out);
    out
}

impl Pool {
    /// The row with units of 8 bytes.
    fn stored() -> Pool {
        let file = b"a brown bag with one strap, 23.4 kg, tag 0042, row eight, desk 3";
        Pool::of(row(8), file)
    }

    fn repair_by_the_controllers(&mut self, out: &mut String) {
        let plan = controllers_plan(&self.layout, &self.record);
        let (refusal, record, _) = repair_by(&self.layout, &self.record, &mut self.image, &plan);
        self.record = record;
        line!(
            out,
            "The row is repaired by the controller's first plan: {}",
            answered(refusal)
        );
    }

    /// The first byte of the file becomes a capital letter where it stands; the
    /// parity of its group stays.
    fn change_the_first_byte(&mut self) {
        let begins = place(&self.layout, 0, 0).1.begins as usize;
        self.image[begins].make_ascii_uppercase();
    }

    fn run_both(&self, out: &mut String) {
        let mut buffer = [0; 16];
        let length = draw(out, &self.layout, &self.record, &self.image, &mut buffer);
        self.run(out, &buffer[..length]);
        line!(out, "The controller sends a plan");
        self.run(out, &controllers_plan(&self.layout, &self.record));
    }

    /// A plan on one copy of the image, plain repair on another.
    fn run(&self, out: &mut String, plan: &[u64]) {
        list(out, plan);
        let mut plain = self.clone();
        plain.record = repair(&self.layout, &self.record, &mut plain.image).1;
        let left = told(out, "The plan", self, plan, &plain);
        let mut file = vec![0; self.layout.derived().capacity as usize];
        let refusal = read(&left.layout, &left.record, &left.image, 0, &mut file);
        line!(
            out,
            "The file is read: {}, {}",
            answered(refusal),
            String::from_utf8_lossy(&file)
        );
    }
}

/// The missing contents from the last to the first, each with the N highest
/// present ones of its group, falling.
fn controllers_plan(layout: &Layout, record: &Record) -> Vec<u64> {
    let mut plan = Vec::new();
    for (group, content) in missing_contents(layout, record).into_iter().rev() {
        let presence = presence(layout, record, group);
        let falling = (0..layout.contents()).rev();
        let present = falling.filter(|source| presence[*source as usize]);
        plan.extend([group, content]);
        plan.extend(present.take(layout.n as usize));
    }
    plan
}

/// The entries, one a line.
fn list(out: &mut String, plan: &[u64]) {
    for entry in plan.chunks(4) {
        let (names, sources) = entry.split_at(2);
        line!(
            out,
            "group {} content {} from {} {}",
            names[0],
            names[1],
            sources[0],
            sources[1]
        );
    }
}

/// Checks a plan, repairs by it, and compares what that leaves with another
/// pool.
fn told(out: &mut String, what: &str, before: &Pool, plan: &[u64], other: &Pool) -> Pool {
    let mut pool = before.clone();
    let checked = check_plan(&pool.layout, &pool.record, &pool.image, plan);
    let (refusal, record, count) = repair_by(&pool.layout, &pool.record, &mut pool.image, plan);
    pool.record = record;
    let which = |is_same| if is_same { "the same" } else { "ANOTHER" };
    line!(
        out,
        "{what}, checked: {}; run: {}, {count} units, {} record, {} image",
        answered(checked),
        answered(refusal),
        which(pool.record == other.record),
        which(pool.image == other.image)
    );
    pool
}

/// Our planner's plan in a buffer, and how many numbers it takes.
fn draw(
    out: &mut String,
    layout: &Layout,
    record: &Record,
    image: &[u8],
    buffer: &mut [u64],
) -> usize {
    let (refusal, length) = draw_plan(layout, record, image, buffer);
    line!(
        out,
        "Our planner is lent {} numbers: {}, it takes {length}",
        buffer.len(),
        answered(refusal)
    );
    length as usize
}

/// A plan that must leave the pool as it was.
fn unchanged(out: &mut String, what: &str, pool: &Pool, plan: &[u64]) {
    told(out, what, pool, plan, pool);
}

/// A row whose image has this length, all bytes 170.
fn blurred(layout: Layout, record: Record, length: usize) -> Pool {
    let image = vec![170; length];
    Pool {
        layout,
        record,
        image,
    }
}

fn failed(first: u64, k: u64, q: u64) -> Record {
    Record {
        failed: [first, 0, 0],
        k,
        q,
        ..Record::default()
    }
}

fn drive_2_dead() -> Record {
    with_count(failed(2, 1, 0), 2)
}

/// The controller's plan for drive 2 with another number in its first entry,
/// then with more numbers and with fewer.
fn other_plans(out: &mut String) {
    let pool = blurred(row(8), drive_2_dead(), 192);
    let plan = controllers_plan(&pool.layout, &pool.record);
    let entry = &plan[..4];
    let twice = [entry, entry].concat();
    unchanged(out, "A content named twice, another not", &pool, &twice);
    let is_present = |content: &u64| !entry[1..].contains(content);
    let present = (0..4).find(is_present).expect("three are present");
    for (what, place, number) in [
        ("A present content named", 1, present),
        ("Content 4 named", 1, 4),
        ("Group 7 named", 0, 7),
        ("A missing source", 2, entry[1]),
        ("A source twice", 3, entry[2]),
        ("Source 4", 3, 4),
        ("Source 2 to the 64 - 1", 3, ONES),
    ] {
        let mut spoilt = plan.clone();
        spoilt[place] = number;
        unchanged(out, what, &pool, &spoilt);
    }
    let more = [&plan[..], entry].concat();
    for (what, length) in [
        ("An entry too many", 12),
        ("A number too many", 9),
        ("A number left out", 7),
        ("An entry left out", 4),
        ("No plan", 0),
    ] {
        unchanged(out, what, &pool, &more[..length]);
    }
}

/// All drives alive, then drive 2 repaired: the empty plan, and one entry.
fn nothing_missing(out: &mut String) {
    for (how, record) in [("alive", failed(0, 0, 0)), ("repaired", failed(2, 1, 1))] {
        let pool = blurred(row(8), record, 192);
        unchanged(out, &format!("No plan, all {how}"), &pool, &[]);
        unchanged(out, &format!("An entry, all {how}"), &pool, &[1, 3, 2, 1]);
    }
}

/// Layout, record and length of the image, of which one is wrong; the plan has
/// no whole entry, and our planner's buffer is too short.
fn wrong_pools(out: &mut String) {
    let dead = drive_2_dead();
    for (what, layout, record, length) in [
        ("Units of 0 bytes", row(0), dead, 192),
        ("An image too short", row(8), dead, 191),
        ("An image too long", row(8), dead, 193),
        ("Three drives dead", row(8), failed(2, 3, 0), 192),
        ("Drive 8 dead", row(8), failed(8, 1, 0), 192),
        ("17 units missing", row(8), with_count(dead, 17), 192),
    ] {
        let pool = blurred(layout, record, length);
        unchanged(out, what, &pool, &[9; 3]);
        draw(out, &layout, &record, &pool.image, &mut [9; 3]);
    }
}

/// The first 7, the first 8 and all of 12 nines, and what the 12 then are.
fn buffers(out: &mut String) {
    let pool = blurred(row(8), drive_2_dead(), 192);
    for lent in [7, 8, 12] {
        let mut buffer = [9; 12];
        let part = &mut buffer[..lent];
        draw(out, &pool.layout, &pool.record, &pool.image, part);
        list(out, &buffer);
    }
}

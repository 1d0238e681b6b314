//! The calls that are given an image: read, write, fail, repair, the two steps of a look, the hex line.

use crate::bench::{hex, Bench, Trial};
use crate::count_kinds::Counted;
use crate::count_rules::Library;
use crate::draws::Draws;
use crate::layouts::is_light;
use crate::lent::Lent;
use crate::pools::Pool;
use crate::tally::Call;
use oracle::layout::Layout;
use oracle::pool::Record;
use splicebell::raw::{self, splicebell_layout, splicebell_record};

/// Most ranges touch few groups, since the model takes its time for each.
const USUAL_GROUPS: u64 = 60;
/// A damaged layout may have units that no memory holds.
const LONGEST_UNIT: u64 = 1 << 13;

/// An offset and a length: mostly inside the file, often up to its very end, sometimes past it.
pub fn range(draws: &mut Draws, pool: &Pool) -> (u64, usize) {
    let y = &pool.layout;
    let capacity = y.derived().capacity;
    let offset = draws.near(capacity);
    // A layout that the image does not fit may have a file that no memory holds.
    let rest = capacity.saturating_sub(offset).min(pool.image.len() as u64 + 40);
    let usual = rest.min(y.n.saturating_mul(y.u).saturating_mul(USUAL_GROUPS));
    let length = match draws.below(12) {
        0 => 0,
        1 if usual == rest || is_light(y) && draws.one_in(20) => rest,
        2 if usual == rest => rest + 1,
        3 => draws.below(40),
        _ if usual > 0 => draws.size(usual),
        _ => draws.below(4),
    };
    (offset, length as usize)
}

/// What the calls that only read the image and fill an output share: its name, its bytes before the call,
/// what it must become, where that is known without the model, and the rest of what is asked, for a report.
struct Asked<'a> {
    call: Call,
    output: &'static str,
    before: Vec<u8>,
    wanted: Option<&'a [u8]>,
    rest: String,
}

/// Makes such a call: `library` is given the layout, and the lent image and output, `model` the output alone. Answers what
/// the output holds then.
fn fill_output(
    bench: &mut Bench,
    pool: &Pool,
    asked: Asked,
    library: impl FnOnce(splicebell_layout, &Lent<u8>, &Lent<u8>) -> u64,
    model: impl FnOnce(&mut [u8]) -> u64,
) -> Vec<u8> {
    let Asked { call, output, before, wanted, rest } = asked;
    let inputs = || format!("{} {rest} {output} {}", pool.told(), hex(&before));
    let mut trial = bench.begin(call, &inputs);
    let (image, out) = (bench.lend(&pool.image), bench.lend_mut(&before));
    let answer = library(trial.layout(&pool.layout), &image, &out);
    let mut expected = before.clone();
    let refusal = model(&mut expected);
    trial.number("refusal", answer, refusal);
    trial.buffer("image", &image, &pool.image);
    trial.buffer(output, &out, &expected);
    if let Some(wanted) = wanted {
        trial.buffer("out, against the same file elsewhere", &out, wanted);
    }
    bench.end(trial, refusal);
    bench.tally.add_count(&Counted::of(call, pool, refusal));
    expected
}

pub fn read(bench: &mut Bench, pool: &Pool) {
    let (offset, length) = range(&mut bench.draws, pool);
    read_at(bench, pool, offset, length, None);
}

/// Reads this range. `wanted` is what it must show, where that is known without the model's read. Answers what it shows.
pub fn read_at(
    bench: &mut Bench,
    pool: &Pool,
    offset: u64,
    length: usize,
    wanted: Option<&[u8]>,
) -> Vec<u8> {
    let before = bench.draws.bytes(length);
    let rest = format!("offset {offset}");
    let asked = Asked { call: Call::Read, output: "out", before, wanted, rest };
    let (y, r, taken) = (&pool.layout, &pool.record, Library::of(bench).record(pool));
    let library = |y: splicebell_layout, image: &Lent<u8>, out: &Lent<u8>| {
        let (at, length) = (image.pointer(), image.len());
        // SAFETY: both pointers lead to that many bytes, and the buffers lie apart.
        unsafe { raw::splicebell_read(y, taken, at, length, offset, out.pointer(), out.len()) }
    };
    let model = |out: &mut [u8]| oracle::pool::read(y, r, &pool.image, offset, out);
    fill_output(bench, pool, asked, library, model)
}

/// Answers what the model says the pool is afterwards, as fail and repair do.
pub fn write(bench: &mut Bench, pool: &Pool) -> Pool {
    let (offset, length) = range(&mut bench.draws, pool);
    let stored = bench.draws.bytes(length);
    write_at(bench, pool, offset, &stored, None)
}

/// Writes these bytes. `wanted` is what the image must become, where that is known without the model's write.
pub fn write_at(
    bench: &mut Bench,
    pool: &Pool,
    offset: u64,
    stored: &[u8],
    wanted: Option<&[u8]>,
) -> Pool {
    let inputs = || format!("{} offset {offset} bytes {}", pool.told(), hex(stored));
    let mut trial = bench.begin(Call::Write, &inputs);
    let (image, bytes) = (bench.lend_mut(&pool.image), bench.lend(stored));
    let (y, r) = (trial.layout(&pool.layout), Library::of(bench).record(pool));
    // SAFETY: both pointers lead to that many bytes, and the buffers lie apart.
    let answer = unsafe {
        raw::splicebell_write(
            y,
            r,
            image.pointer(),
            image.len(),
            offset,
            bytes.pointer(),
            bytes.len(),
        )
    };
    let mut after = pool.clone();
    let refusal = oracle::pool::write(&pool.layout, &pool.record, &mut after.image, offset, stored);
    trial.number("refusal", answer, refusal);
    trial.buffer("image", &image, &after.image);
    trial.buffer("bytes", &bytes, stored);
    if let Some(wanted) = wanted {
        trial.buffer("image, against the same bytes stored otherwise", &image, wanted);
    }
    bench.end(trial, refusal);
    bench.tally.add_count(&Counted::of(Call::Write, pool, refusal));
    after
}

pub fn compare_record(trial: &mut Trial, answered: &splicebell_record, expected: &Record) {
    for (entry, (answered, expected)) in answered.failed.iter().zip(expected.failed).enumerate() {
        trial.number(["failed 0", "failed 1", "failed 2"][entry], *answered, expected);
    }
    trial.number("k", answered.k, expected.k);
    trial.number("q", answered.q, expected.q);
    trial.number("waiting", answered.waiting, expected.waiting);
}

/// A target: mostly any, often one that has failed.
pub fn target(draws: &mut Draws, pool: &Pool) -> u64 {
    if draws.one_in(3) {
        draws.pick(&pool.record.failed)
    } else {
        draws.near(pool.layout.p)
    }
}

pub fn fail(bench: &mut Bench, pool: &Pool) -> Pool {
    let target = target(&mut bench.draws, pool);
    fail_target(bench, pool, target)
}

pub fn fail_target(bench: &mut Bench, pool: &Pool, target: u64) -> Pool {
    let inputs = || format!("{} target {target}", pool.told());
    let mut trial = bench.begin(Call::Fail, &inputs);
    let image = bench.lend(&pool.image);
    let y = trial.layout(&pool.layout);
    let answer = Library::of(bench).fail(y, pool, &image, target);
    let (refusal, record) = oracle::pool::fail(&pool.layout, &pool.record, &pool.image, target);
    trial.number("refusal", answer.refusal, refusal);
    compare_record(&mut trial, &answer.record, &record);
    trial.buffer("image", &image, &pool.image);
    bench.end(trial, refusal);
    bench
        .tally
        .add_count(&Counted { target: Some(target), ..Counted::of(Call::Fail, pool, refusal) });
    Pool { record, ..pool.clone() }
}

pub fn repair(bench: &mut Bench, pool: &Pool) -> Pool {
    repair_to(bench, pool, None)
}

/// Repairs. `wanted` is what the pool must become, where that is known without the model's repair.
pub fn repair_to(bench: &mut Bench, pool: &Pool, wanted: Option<&Pool>) -> Pool {
    let inputs = || pool.told();
    let mut trial = bench.begin(Call::Repair, &inputs);
    let image = bench.lend_mut(&pool.image);
    let answer = Library::of(bench).repair(trial.layout(&pool.layout), pool, &image);
    let mut after = pool.clone();
    let (refusal, record, count) =
        oracle::pool::repair(&pool.layout, &pool.record, &mut after.image);
    after.record = record;
    trial.number("refusal", answer.refusal, refusal);
    trial.number("count", answer.count, count);
    compare_record(&mut trial, &answer.record, &record);
    trial.buffer("image", &image, &after.image);
    if let Some(wanted) = wanted {
        compare_record(&mut trial, &answer.record, &wanted.record);
        trial.buffer("image, against a repair by a plan", &image, &wanted.image);
    }
    bench.end(trial, refusal);
    bench.tally.add_count(&Counted::of(Call::Repair, pool, refusal));
    after
}

/// A group, a content and a scratch of drawn bytes for a look.
fn look(draws: &mut Draws, y: &Layout) -> (u64, u64, Vec<u8>) {
    let group = draws.near(y.derived().groups);
    let content = draws.near(y.n.saturating_add(y.k));
    let length = draws.length(y.u.min(LONGEST_UNIT) as usize);
    (group, content, draws.bytes(length))
}

pub fn prepare(bench: &mut Bench, pool: &Pool) {
    let (group, content, before) = look(&mut bench.draws, &pool.layout);
    let rest = format!("group {group} content {content}");
    let asked = Asked { call: Call::Prepare, output: "scratch", before, wanted: None, rest };
    let (y, r, taken) = (&pool.layout, &pool.record, Library::of(bench).record(pool));
    let library = |y: splicebell_layout, image: &Lent<u8>, scratch: &Lent<u8>| {
        let (at, length) = (scratch.pointer(), scratch.len());
        let (image, image_length) = (image.pointer(), image.len());
        // SAFETY: both pointers lead to that many bytes, and the buffers lie apart.
        unsafe {
            raw::splicebell_prepare(y, taken, image, image_length, group, content, at, length)
        }
    };
    let model =
        |scratch: &mut [u8]| oracle::pool::prepare(y, r, &pool.image, group, content, scratch);
    fill_output(bench, pool, asked, library, model);
}

pub fn show(bench: &mut Bench, pool: &Pool) {
    let (group, content, shown) = look(&mut bench.draws, &pool.layout);
    let inputs =
        || format!("{} group {group} content {content} scratch {}", pool.told(), hex(&shown));
    let mut trial = bench.begin(Call::Show, &inputs);
    let (image, scratch) = (bench.lend(&pool.image), bench.lend(&shown));
    let (y, r) = (trial.layout(&pool.layout), Library::of(bench).record(pool));
    let (at, length) = (scratch.pointer(), scratch.len());
    // SAFETY: both pointers lead to that many bytes.
    let answer = unsafe {
        raw::splicebell_show(y, r, image.pointer(), image.len(), at, length, group, content)
    };
    let (layout, record) = (&pool.layout, &pool.record);
    let (refusal, part) = oracle::pool::show(layout, record, &pool.image, &shown, group, content);
    let missing = refusal == 0 && std::ptr::eq(part.as_ptr(), shown.as_ptr());
    let from = if missing { &shown } else { &pool.image };
    let begins = if refusal == 0 { part.as_ptr() as usize - from.as_ptr() as usize } else { 0 };
    trial.number("refusal", answer.refusal, refusal);
    trial.flag("missing", &answer.missing, missing);
    trial.number("begins", answer.begins as u64, begins as u64);
    trial.number("length", answer.length as u64, part.len() as u64);
    trial.buffer("image", &image, &pool.image);
    trial.buffer("scratch", &scratch, &shown);
    bench.end(trial, refusal);
    bench.tally.add_count(&Counted::of(Call::Show, pool, refusal));
}

pub fn hex_line(bench: &mut Bench, pool: &Pool) {
    let y = &pool.layout;
    let (target, frame) = (bench.draws.near(y.p), bench.draws.near(y.derived().frames));
    let length = bench.draws.length(11 + 2 * y.u.min(LONGEST_UNIT) as usize);
    let before = bench.draws.bytes(length);
    let rest = format!("target {target} frame {frame}");
    let asked = Asked { call: Call::HexLine, output: "line", before, wanted: None, rest };
    let library = |y: splicebell_layout, image: &Lent<u8>, line: &Lent<u8>| {
        let (at, length) = (image.pointer(), image.len());
        let (line, line_length) = (line.pointer(), line.len());
        // SAFETY: both pointers lead to that many bytes, and the buffers lie apart.
        unsafe { raw::splicebell_hex_line(y, at, length, target, frame, line, line_length) }
    };
    let model = |line: &mut [u8]| oracle::hexline::hex_line(y, &pool.image, target, frame, line);
    fill_output(bench, pool, asked, library, model);
}

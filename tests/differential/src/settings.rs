//! Rows' settings as text: lines that are added, and texts that are read by both readers, grown line by line or damaged,
//! with used lengths of every kind.

use crate::bench::{quoted, Bench};
use crate::draws::Draws;
use crate::layouts::{self, told};
use crate::lent::Lent;
use crate::setting_damages::damage;
use crate::setting_kinds::{line_length, Added, Read};
use crate::setting_rules::Library;
use crate::tally::Call;
use oracle::layout::Layout;
use oracle::settings::{self, line_of, Settings};
use splicebell::raw::splicebell_settings;

/// One in so many rounds tries all bytes at one place of its text, and one in so many all numbers at their bounds.
const EVERY_BYTE: u64 = 40;
const EVERY_BOUND: u64 = 10;
/// One in so many layouts has all numbers at their bounds.
const EXTREME: u64 = 8;
/// What may speak against a line that is to be added: its version, its numbers, an edition that its version has no place
/// for, a used length above the buffer, too little room.
const VERSION: u64 = 1;
const NUMBERS: u64 = 2;
const EDITION: u64 = 4;
const ABOVE: u64 = 8;
const ROOM: u64 = 16;
const FLAWS: [u64; 5] = [VERSION, NUMBERS, EDITION, ABOVE, ROOM];
/// Texts without a whole line.
const TINY: [&[u8]; 7] = [b"", b"\n", b"\n\n", b" ", b"\0", b"0", b"01"];

/// What a line tells.
#[derive(Clone, Copy)]
pub struct Setting {
    pub version: u64,
    pub layout: Layout,
}

/// A buffer of which so many bytes are said to be a text of settings.
#[derive(Clone)]
pub struct Text {
    pub buffer: Vec<u8>,
    pub used: usize,
}

/// The library's call of a reader, and the model's.
type Reader =
    (Call, fn(Library, &Lent<u8>, usize) -> splicebell_settings, fn(&[u8], usize) -> Settings);
const READERS: [Reader; 2] = [
    (Call::NewestSettings, Library::newest, settings::newest),
    (Call::NewestSettingsOld, Library::newest_old, settings::newest_old),
];

impl Setting {
    /// In both versions, and in version 2 in both editions.
    fn drawn(draws: &mut Draws) -> Setting {
        let mut layout = if draws.one_in(EXTREME) { extreme(draws) } else { layouts::any(draws) };
        let version = draws.between(1, 2);
        if version == 1 {
            layout.edition = 1;
        }
        Setting { version, layout }
    }

    fn line(&self) -> Vec<u8> {
        line_of(self.version, &self.layout).into_bytes()
    }
}

/// Every number at one of its bounds.
fn extreme(draws: &mut Draws) -> Layout {
    let (n, k) = (draws.pick(&[1, 16]), draws.pick(&[0, 3]));
    Layout {
        n,
        k,
        p: draws.pick(&[n + 2 * k, layouts::MOST_TARGETS]),
        u: draws.pick(&[1, layouts::MOST_UNIT_BYTES]),
        t: draws.pick(&[1, layouts::MOST_TILES]),
        cookie: draws.pick(&[0, u64::MAX]),
        edition: layouts::edition(draws),
    }
}

impl Text {
    /// Some right lines, or none, and something behind them.
    fn drawn(draws: &mut Draws) -> Text {
        let count = match draws.below(8) {
            0 => 0,
            1 | 2 => 1,
            3 => draws.between(9, 30),
            _ => draws.between(2, 6),
        };
        let text = lines(draws, count);
        Text::before(&text, &behind(draws))
    }

    fn before(text: &[u8], rest: &[u8]) -> Text {
        Text { buffer: [text, rest].concat(), used: text.len() }
    }

    /// The same text with so many bytes behind it: its own, and drawn ones where it has too few.
    fn with_room(&self, draws: &mut Draws, room: usize) -> Text {
        let mut rest = self.rest().to_vec();
        let drawn = draws.bytes(room.saturating_sub(rest.len()));
        rest.extend(drawn);
        Text::before(self.used_part(), &rest[..room])
    }

    /// Damaged in one way or more, with the same bytes behind it.
    fn damaged(&self, bench: &mut Bench) -> Text {
        let mut text = self.used_part().to_vec();
        damage(&mut bench.draws, &mut text, |harm| bench.tally.settings.add_damage(harm));
        Text::before(&text, self.rest())
    }

    /// With another used length: none, at a line's end or beside it, where a line of version 1 would end, anywhere, at the
    /// buffer's end, or above it.
    fn used_otherwise(&self, draws: &mut Draws) -> Text {
        if draws.one_in(3) {
            return above(draws, self.clone());
        }
        let length = self.buffer.len();
        let some = draws.place(self.lines().len() + 1);
        let end: usize = self.lines().iter().take(some).map(|line| line.len()).sum();
        let any = draws.place(length + 1);
        let used = draws.pick(&[0, end, end + 1, end.saturating_sub(1), end + 41, any, length]);
        Text { buffer: self.buffer.clone(), used: used.min(length) }
    }

    fn told(&self) -> String {
        format!("used {} of {}", self.used, quoted(&self.buffer))
    }
}

fn lines(draws: &mut Draws, count: u64) -> Vec<u8> {
    (0..count).flat_map(|_| Setting::drawn(draws).line()).collect()
}

/// What lies behind a text: nothing, lines, newlines, a beginning of a line, or any bytes, of which none or some are zero.
fn behind(draws: &mut Draws) -> Vec<u8> {
    let length = draws.place(120);
    match draws.below(6) {
        0 => Vec::new(),
        1 => lines(draws, 2),
        2 => vec![b'\n'; length],
        3 => lines(draws, 1)[..length.min(40)].to_vec(),
        4 => vec![b'.'; length],
        _ => draws.bytes(length),
    }
}

/// Calls on one text: what an add leaves is what the next call finds.
pub fn round(bench: &mut Bench) {
    let mut text = Text::drawn(&mut bench.draws);
    if bench.draws.one_in(EVERY_BYTE) {
        return read_every_byte(bench, &text);
    }
    if bench.draws.one_in(EVERY_BOUND) {
        return every_bound(bench, &text);
    }
    for _ in 0..bench.draws.between(5, 25) {
        text = step(bench, &text);
    }
}

/// Some calls; what they leave.
fn step(bench: &mut Bench, text: &Text) -> Text {
    match bench.draws.below(14) {
        0..=2 => return grow(bench, text),
        3 | 4 => (0..4).for_each(|_| add_flawed(bench, text)),
        5 | 6 => {
            let other = text.used_otherwise(&mut bench.draws);
            add_and_read(bench, &other);
        }
        7 => {
            let (tiny, behind) = (bench.draws.pick(&TINY), behind(&mut bench.draws));
            add_and_read(bench, &Text::before(tiny, &behind));
        }
        8 => back_and_there(bench),
        _ => {
            let damaged = text.damaged(bench);
            let is_cut = bench.draws.one_in(4);
            let other = if is_cut { damaged.used_otherwise(&mut bench.draws) } else { damaged };
            read_by_both(bench, &other);
        }
    }
    text.clone()
}

/// "Adding a record appends a line", and "The reader gives the newest record": the library reads what the library wrote.
/// The buffer grows where it is too short, often to the very end of the line.
fn grow(bench: &mut Bench, text: &Text) -> Text {
    let setting = Setting::drawn(&mut bench.draws);
    let length = line_length(setting.version);
    let more = bench.draws.pick(&[0, 0, 1, 50, 200]);
    let room = if more < 2 { length + more } else { text.rest().len().max(length + more) };
    let with_room = text.with_room(&mut bench.draws, room);
    let after = add(bench, &setting, &with_room);
    let layout = read(bench, &after, &READERS[0]);
    assert_eq!(layout, setting.layout, "the line that was added tells another layout");
    read(bench, &after, &READERS[1]);
    after
}

/// A drawn line is added to a text of any kind, which is read without it.
fn add_and_read(bench: &mut Bench, text: &Text) {
    let setting = Setting::drawn(&mut bench.draws);
    add(bench, &setting, text);
    read_by_both(bench, text);
}

/// And the other way round: what the library reads of a line, it adds as that line.
fn back_and_there(bench: &mut Bench) {
    let Setting { version, layout } = Setting::drawn(&mut bench.draws);
    let line = line_of(version, &layout).into_bytes();
    let layout = read(bench, &Text::before(&line, &[]), &READERS[0]);
    let after = add(bench, &Setting { version, layout }, &Text::before(&[], &line));
    assert_eq!(after.buffer, line, "what was read is added as another line");
}

/// A line that must be refused, mostly for one reason, sometimes for several.
fn add_flawed(bench: &mut Bench, text: &Text) {
    let draws = &mut bench.draws;
    let flaws = if draws.one_in(3) { draws.between(1, 31) } else { draws.pick(&FLAWS) };
    let mut setting = Setting::drawn(draws);
    if flaws & EDITION != 0 {
        setting = Setting { version: 1, layout: setting.layout.in_edition(2) };
    }
    let length = line_length(setting.version);
    if flaws & NUMBERS != 0 {
        setting.layout = bad_numbers(draws, &setting.layout);
    }
    if flaws & VERSION != 0 {
        setting.version = bad_version(draws, setting.version);
    }
    let room = room(draws, length, flaws & ROOM != 0);
    let mut text = text.with_room(draws, room);
    if flaws & ABOVE != 0 {
        text = above(draws, text);
    }
    add(bench, &setting, &text);
}

/// Bytes for a line, or too few.
fn room(draws: &mut Draws, length: usize, is_short: bool) -> usize {
    let any = draws.place(length);
    match is_short {
        true => draws.pick(&[length - 1, length - 1, 0, any, 41.min(length - 1)]),
        false => length + draws.pick(&[0, 0, 1, 60]),
    }
}

/// Numbers outside their bounds, or such as are right in the digits of a line alone.
fn bad_numbers(draws: &mut Draws, y: &Layout) -> Layout {
    let high = |number: u64, bits: [u32; 3], draws: &mut Draws| number | 1 << draws.pick(&bits);
    match draws.below(12) {
        0 => Layout { n: high(y.n, [8, 16, 32], draws), ..*y },
        1 => Layout { k: high(y.k, [8, 16, 32], draws), ..*y },
        2 => Layout { p: high(y.p, [8, 16, 32], draws), ..*y },
        3 => Layout { u: high(y.u, [16, 32, 63], draws), ..*y },
        4 => Layout { t: high(y.t, [24, 32, 63], draws), ..*y },
        _ => layouts::damaged(draws, y),
    }
}

/// None, one above, the highest, or one that is right in its lowest bits.
fn bad_version(draws: &mut Draws, version: u64) -> u64 {
    let (edge, high) = (draws.edge(), version | 1 << draws.pick(&[8, 16, 32, 63]));
    draws.pick(&[0, 3, 3, u64::MAX, edge, high, high])
}

/// A used length above the buffer, sometimes of no buffer at all, sometimes such that the end of a line would wrap.
fn above(draws: &mut Draws, text: Text) -> Text {
    let buffer = if draws.one_in(4) { Vec::new() } else { text.buffer };
    let (length, edge) = (buffer.len(), draws.edge() as usize);
    let wrapping = usize::MAX - draws.place(60);
    let high = text.used.min(length) | 1 << draws.pick(&[32, 63]);
    let used = draws.pick(&[length + 1, length + 1, usize::MAX, wrapping, high, edge]);
    Text { buffer, used }
}

/// Each of the 256 bytes in the place of one.
fn read_every_byte(bench: &mut Bench, text: &Text) {
    let mut text = text.clone();
    let Some(last) = text.used.checked_sub(1) else { return read_by_both(bench, &text) };
    let at = bench.draws.place(last + 1);
    for byte in 0..=255 {
        text.buffer[at] = byte;
        read_by_both(bench, &text);
    }
}

/// A layout with each number on both sides of each of its bounds in turn.
fn at_bounds(y: &Layout) -> Vec<Layout> {
    let (p, u, t) = (layouts::MOST_TARGETS, layouts::MOST_UNIT_BYTES, layouts::MOST_TILES);
    // With as many targets as may be, no other number is refused for the units of a group.
    let (wide, w) = (Layout { p, ..*y }, y.derived().w);
    let mut all = Vec::new();
    all.extend([0, 1, 16, 17].map(|n| Layout { n, ..wide }));
    all.extend([0, 3, 4].map(|k| Layout { k, ..wide }));
    all.extend([w - 1, w, p, p + 1].map(|p| Layout { p, ..*y }));
    all.extend([0, 1, u, u + 1].map(|u| Layout { u, ..wide }));
    all.extend([0, 1, t, t + 1].map(|t| Layout { t, ..wide }));
    all.extend([0, 1, 2, 3].map(|edition| Layout { edition, ..wide }));
    all
}

/// Each number at its bounds in both versions, and other versions: as a line that is added, and as one that is read.
fn every_bound(bench: &mut Bench, text: &Text) {
    let y = Setting::drawn(&mut bench.draws).layout;
    for (version, y) in [(1, y.in_edition(1)), (2, y)] {
        for layout in at_bounds(&y) {
            add_and_read_line(bench, text, &Setting { version, layout });
        }
    }
    for version in [0, 3, 0xff] {
        add_and_read_line(bench, text, &Setting { version, layout: y });
    }
}

/// A line is added where there is room for it; and read behind a text, where it may be the last one or not.
fn add_and_read_line(bench: &mut Bench, text: &Text, setting: &Setting) {
    let with_room = text.with_room(&mut bench.draws, line_length(2));
    add(bench, setting, &with_room);
    let count = bench.draws.below(2);
    let after = lines(&mut bench.draws, count);
    let among = [text.used_part(), &setting.line(), &after].concat();
    read_by_both(bench, &Text::before(&among, text.rest()));
}

fn read_by_both(bench: &mut Bench, text: &Text) {
    for reader in &READERS {
        read(bench, text, reader);
    }
}

/// Makes one call; what the library left.
fn add(bench: &mut Bench, setting: &Setting, text: &Text) -> Text {
    let Setting { version, layout } = setting;
    let inputs = || format!("version {version} {} {}", told(layout), text.told());
    let mut trial = bench.begin(Call::AddSettings, &inputs);
    let buffer = bench.lend_mut(&text.buffer);
    // By its edition the call is counted in version 2 alone: version 1 has a rule of its own for edition 2.
    let lent = if *version == 2 { trial.layout(layout) } else { layouts::lent(layout) };
    let answer = Library::of(bench).add(lent, setting, text, &buffer);
    let mut expected = text.buffer.clone();
    let (refusal, used) = settings::add(*version, layout, &mut expected, text.used);
    trial.number("refusal", answer.refusal, refusal);
    trial.number("used", answer.used as u64, used as u64);
    trial.buffer("buffer", &buffer, &expected);
    let after = Text { buffer: buffer.contents().to_vec(), used: answer.used };
    bench.end(trial, refusal);
    bench.tally.settings.add(&Added { text, version: *version, layout, refusal });
    after
}

/// Makes one call by a reader; the layout that the library tells.
fn read(bench: &mut Bench, text: &Text, reader: &Reader) -> Layout {
    let (call, library, model) = *reader;
    let inputs = || text.told();
    let mut trial = bench.begin(call, &inputs);
    let buffer = bench.lend(&text.buffer);
    let answer = library(Library::of(bench), &buffer, text.used);
    let expected = model(&text.buffer, text.used);
    trial.number("refusal", answer.refusal, expected.refusal);
    trial.number("line", answer.line, expected.line);
    layouts::compare(&mut trial, &answer.layout, &expected.layout);
    trial.buffer("buffer", &buffer, &text.buffer);
    bench.end(trial, expected.refusal);
    bench.tally.settings.add_read(call, &Read { text, answer: &expected });
    expected.layout
}

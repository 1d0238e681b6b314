//! What calls on a row's settings are like: each kind by its name, told of a line that was to be added, and of a text that
//! was read, as they were asked for and answered.

use crate::damages::DIGITS;
use crate::layouts::{is_edition, MOST_TARGETS, MOST_TILES, MOST_UNIT_BYTES};
use crate::settings::Text;
use oracle::layout::Layout;
use oracle::settings::{line_of, newest, Settings};
use std::ops::Range;

/// A line that was to be added, and what the model answered.
pub struct Added<'a> {
    pub text: &'a Text,
    pub version: u64,
    pub layout: &'a Layout,
    pub refusal: u64,
}

/// A text that was read, and what the model answered.
pub struct Read<'a> {
    pub text: &'a Text,
    pub answer: &'a Settings,
}

type LayoutTest = fn(&Layout) -> bool;
type AddTest = fn(&Added) -> bool;
type ReadTest = fn(&Read) -> bool;

/// The numbers' fields in a line.
const N: Range<usize> = 3..5;
const K: Range<usize> = 6..8;
const P: Range<usize> = 9..11;
const U: Range<usize> = 12..16;
const T: Range<usize> = 17..23;
const EDITION: Range<usize> = 41..43;
/// A text of so many lines is long.
const MANY: usize = 10;

/// Of layouts that are written down or read, by each of the three calls: the bounds of each number. A library that is wrong
/// for one of these and of those below may be right for all others, so each must be met.
pub const BOUNDS: [(&str, LayoutTest); 12] = [
    ("N of 1", |y| y.n == 1),
    ("N of 16", |y| y.n == 16),
    ("K of 0", |y| y.k == 0),
    ("K of 3", |y| y.k == 3),
    ("P of W", |y| y.p == y.derived().w),
    ("P of 64", |y| y.p == MOST_TARGETS),
    ("U of 1", |y| y.u == 1),
    ("U of 4,096", |y| y.u == MOST_UNIT_BYTES),
    ("T of 1", |y| y.t == 1),
    ("T of 65,536", |y| y.t == MOST_TILES),
    ("a cookie of 0", |y| y.cookie == 0),
    ("a cookie of ones", |y| y.cookie == u64::MAX),
];

/// Of lines that are added.
pub const ADD_KINDS: [(&str, AddTest); 12] = [
    ("version 1", |a| a.version == 1),
    ("version 2, edition 1", |a| a.version == 2 && a.layout.edition == 1),
    ("version 2, edition 2", |a| a.version == 2 && a.layout.edition == 2),
    ("the first line", |a| a.text.used == 0),
    ("behind right lines", |a| a.text.newest().refusal == 0),
    ("behind a malformed line", |a| a.text.newest().refusal == 12),
    ("behind a cut line", |a| a.text.is_cut()),
    ("behind ten lines and more", |a| a.text.lines().len() >= MANY),
    ("room for it alone", |a| a.room() == Some(a.length())),
    ("a byte more than that", |a| a.room() == Some(a.length() + 1)),
    ("over a right line", |a| begins_right(a.text.rest())),
    ("no zero behind it", |a| a.leaves_no_zero()),
];

/// Of lines that are not.
pub const REFUSED_ADD_KINDS: [(&str, AddTest); 45] = [
    ("1, version 0", |a| a.is_by_version(|version| version == 0)),
    ("1, version 3", |a| a.is_by_version(|version| version == 3)),
    ("1, version 2^64-1", |a| a.is_by_version(|version| version == u64::MAX)),
    ("1, version right modulo 2^8", |a| a.is_by_version(|v| is_version(v & 0xff))),
    ("1, version right modulo 2^16", |a| a.is_by_version(|v| is_version(v & 0xffff))),
    ("1, version right modulo 2^32", |a| a.is_by_version(|v| is_version(v & 0xffff_ffff))),
    ("1, edition 2 in version 1", |a| a.is_by_first_version()),
    ("1, that, and 5", |a| a.is_by_first_version() && a.room().is_none()),
    ("1, that, and 10", |a| a.is_by_first_version() && a.is_too_little()),
    ("1, edition 0", |a| a.is_by_edition(|edition| edition == 0)),
    ("1, edition 3", |a| a.is_by_edition(|edition| edition == 3)),
    ("1, edition right in its digits", |a| a.is_by_edition(|e| is_edition(e & 0xff))),
    ("1, N of 0", |a| a.layout.n == 0 && a.is_by(|y| Layout { n: 1, ..*y })),
    ("1, N of 17", |a| a.layout.n == 17 && a.is_by(|y| Layout { n: 16, ..*y })),
    ("1, K of 4", |a| a.layout.k == 4 && a.is_by(|y| Layout { k: 3, ..*y })),
    ("1, P of W - 1", |a| a.is_by(|y| Layout { p: y.p.wrapping_add(1), ..*y })),
    ("1, P of 65", |a| a.is_by(|y| Layout { p: y.p.wrapping_sub(1), ..*y })),
    ("1, U of 0", |a| a.layout.u == 0 && a.is_by(|y| Layout { u: 1, ..*y })),
    ("1, U of 4,097", |a| a.is_by(|y| Layout { u: y.u.wrapping_sub(1), ..*y })),
    ("1, T of 0", |a| a.layout.t == 0 && a.is_by(|y| Layout { t: 1, ..*y })),
    ("1, T of 65,537", |a| a.is_by(|y| Layout { t: y.t.wrapping_sub(1), ..*y })),
    ("1, N far outside", |a| a.layout.n > 1 << 32 && a.is_by(|y| Layout { n: 1, ..*y })),
    ("1, K far outside", |a| a.layout.k > 1 << 32 && a.is_by(|y| Layout { k: 0, ..*y })),
    ("1, P far outside", |a| a.layout.p > 1 << 32 && a.is_by(|y| Layout { p: MOST_TARGETS, ..*y })),
    ("1, U far outside", |a| a.layout.u > 1 << 32 && a.is_by(|y| Layout { u: 1, ..*y })),
    ("1, T far outside", |a| a.layout.t > 1 << 32 && a.is_by(|y| Layout { t: 1, ..*y })),
    ("1, N right in its digits", |a| a.is_by(|y| Layout { n: y.n & 0xff, ..*y })),
    ("1, K right in its digits", |a| a.is_by(|y| Layout { k: y.k & 0xff, ..*y })),
    ("1, P right in its digits", |a| a.is_by(|y| Layout { p: y.p & 0xff, ..*y })),
    ("1, U right in its digits", |a| a.is_by(|y| Layout { u: y.u & 0xffff, ..*y })),
    ("1, T right in its digits", |a| a.is_by(|y| Layout { t: y.t & 0xff_ffff, ..*y })),
    ("1, numbers and version", |a| a.layout.refusal() != 0 && !is_version(a.version)),
    ("1, room enough", |a| a.refusal == 1 && a.room().is_some_and(|room| room >= 44)),
    ("1, and 5", |a| a.refusal == 1 && a.room().is_none()),
    ("1, and 10", |a| a.refusal == 1 && a.is_too_little()),
    ("5, one above", |a| a.refusal == 5 && a.text.is_one_above()),
    ("5, 2^64-1", |a| a.refusal == 5 && a.text.used == usize::MAX),
    ("5, right modulo 2^32", |a| a.refusal == 5 && a.text.is_within_in_32_bits()),
    ("5, an end that wraps", |a| a.refusal == 5 && a.text.used.checked_add(a.length()).is_none()),
    ("5, no buffer", |a| a.refusal == 5 && a.text.buffer.is_empty()),
    ("10, a byte short in version 1", |a| a.is_short(1, 40..41)),
    ("10, a byte short in version 2", |a| a.is_short(2, 43..44)),
    ("10, room for version 1 alone", |a| a.is_short(2, 41..44)),
    ("10, all used", |a| a.refusal == 10 && a.room() == Some(0) && a.text.used > 0),
    ("10, no buffer", |a| a.refusal == 10 && a.text.buffer.is_empty()),
];

/// Of texts that are shown, by each of the two readers.
pub const READ_KINDS: [(&str, ReadTest); 11] = [
    ("one line", |r| r.text.lines().len() == 1),
    ("ten lines and more", |r| r.text.lines().len() >= MANY),
    ("version 1 newest", |r| r.versions().ends_with(&[1])),
    ("version 2 newest, edition 1", |r| r.versions().ends_with(&[2]) && r.edition() == 1),
    ("version 1 behind version 2", |r| r.versions().ends_with(&[2, 1])),
    ("version 2 behind version 1", |r| r.versions().ends_with(&[1, 2])),
    ("edition 2 before the newest", |r| r.edition() == 1 && r.has_second_before()),
    ("another layout before", |r| r.before().is_some_and(|before| before != r.answer.layout)),
    ("right lines behind the text", |r| begins_right(r.text.rest())),
    ("other bytes behind the text", |r| !r.text.rest().is_empty() && !begins_right(r.text.rest())),
    ("nothing behind the text", |r| r.text.rest().is_empty()),
];

/// Of texts whose newest record has edition 2: the reader shows them, the old reader refuses them with 17.
pub const SECOND_KINDS: [(&str, ReadTest); 5] = [
    ("the only line", |r| r.text.lines().len() == 1),
    ("behind version 1", |r| r.versions().ends_with(&[1, 2])),
    ("behind edition 1 of version 2", |r| {
        r.versions().ends_with(&[2, 2]) && r.before().is_some_and(|before| before.edition == 1)
    }),
    ("behind edition 2", |r| r.before().is_some_and(|before| before.edition == 2)),
    ("behind ten lines and more", |r| r.text.lines().len() > MANY),
];

/// Of texts that are refused otherwise, by each of the two readers.
pub const REFUSED_READ_KINDS: [(&str, ReadTest); 40] = [
    ("5, one above", |r| r.is(5) && r.text.is_one_above()),
    ("5, 2^64-1", |r| r.is(5) && r.text.used == usize::MAX),
    ("5, right modulo 2^32", |r| r.is(5) && r.text.is_within_in_32_bits()),
    ("5, else right", |r| r.is(5) && r.text.newest().refusal == 0),
    ("5, else malformed", |r| r.is(5) && r.text.newest().refusal == 12),
    ("5, no buffer", |r| r.is(5) && r.text.buffer.is_empty()),
    ("11, no buffer", |r| r.is(11) && r.text.buffer.is_empty()),
    ("11, right lines behind", |r| r.is(11) && begins_right(r.text.rest())),
    ("11, other bytes behind", |r| {
        r.is(11) && !r.text.rest().is_empty() && !begins_right(r.text.rest())
    }),
    ("12, the only line", |r| r.is_at(|line, lines| line == 1 && lines == 1)),
    ("12, the first of several", |r| r.is_at(|line, lines| line == 1 && lines > 1)),
    ("12, one between", |r| r.is_at(|line, lines| line > 1 && line < lines)),
    ("12, the last of several", |r| r.is_at(|line, lines| line > 1 && line == lines)),
    ("12, the tenth and later", |r| r.is_at(|line, _| line >= MANY)),
    ("12, several malformed", |r| r.is(12) && r.malformed().count() > 1),
    ("12, edition 2 newest", |r| {
        r.is(12) && r.text.lines().last().is_some_and(|line| read(line).layout.edition == 2)
    }),
    ("12, its end lies behind", |r| r.is(12) && r.text.is_cut() && r.ends_behind()),
    ("12, 41 bytes of 44", |r| r.is(12) && r.told().len() == 41 && r.ends_behind()),
    ("12, a newline alone", |r| r.is(12) && r.text.used_part() == b"\n"),
    ("12, an empty line", |r| r.is_but(|text| joined(text, |line| line != b"\n"))),
    ("12, upper case", |r| r.is_but(<[u8]>::to_ascii_lowercase)),
    ("12, carriage returns", |r| r.is_but(|text| without(text, b'\r'))),
    ("12, a tab for a space", |r| r.is_but(|text| with_spaces(text, b'\t'))),
    ("12, zero bytes", |r| r.is_but(|text| without(text, 0))),
    ("12, 44 bytes in version 1", |r| r.is_by_form(b"01", 44)),
    ("12, 41 bytes in version 2", |r| r.is_by_form(b"02", 41)),
    ("12, version 0", |r| r.is_by(0..2, b"00", b"01") || r.is_by(0..2, b"00", b"02")),
    ("12, version 3", |r| r.is_by(0..2, b"03", b"01") || r.is_by(0..2, b"03", b"02")),
    ("12, version ff", |r| r.is_by(0..2, b"ff", b"01") || r.is_by(0..2, b"ff", b"02")),
    ("12, N of 0", |r| r.is_by(N, b"00", b"01")),
    ("12, N of 17", |r| r.is_by(N, b"11", b"10")),
    ("12, K of 4", |r| r.is_by(K, b"04", b"00")),
    ("12, P of W - 1", |r| r.is_by_a_target_too_few()),
    ("12, P of 65", |r| r.is_by(P, b"41", b"40")),
    ("12, U of 0", |r| r.is_by(U, b"0000", b"0001")),
    ("12, U of 4,097", |r| r.is_by(U, b"1001", b"1000")),
    ("12, T of 0", |r| r.is_by(T, b"000000", b"000001")),
    ("12, T of 65,537", |r| r.is_by(T, b"010001", b"010000")),
    ("12, edition 0", |r| r.is_by(EDITION, b"00", b"01")),
    ("12, edition 3", |r| r.is_by(EDITION, b"03", b"02")),
];

/// Whether a line may have this version.
fn is_version(number: u64) -> bool {
    (1..=2).contains(&number)
}

/// The bytes of a line.
pub fn line_length(version: u64) -> usize {
    if version == 1 {
        41
    } else {
        44
    }
}

/// What the model says of a whole text.
fn read(text: &[u8]) -> Settings {
    newest(text, text.len())
}

fn is_right(text: &[u8]) -> bool {
    read(text).refusal == 0
}

/// The lines of a text; the last one may have no newline.
pub fn lines_of(text: &[u8]) -> impl Iterator<Item = &[u8]> {
    text.split_inclusive(|byte| *byte == b'\n')
}

fn begins_right(text: &[u8]) -> bool {
    lines_of(text).next().is_some_and(is_right)
}

/// Whether a line has the form of its version, whatever its numbers are.
pub fn has_form(line: &[u8]) -> bool {
    let version = if line.starts_with(b"01") { 1 } else { 2 };
    let blank = |byte: &u8| if DIGITS.contains(byte) { b'0' } else { *byte };
    let blanked: Vec<u8> = line.iter().map(blank).collect();
    let zeros = line_of(version, &Layout::default()).into_bytes();
    (line.starts_with(b"01") || line.starts_with(b"02")) && blanked[2..] == zeros[2..]
}

/// The lines that pass a test.
fn joined(text: &[u8], is_kept: fn(&[u8]) -> bool) -> Vec<u8> {
    lines_of(text).filter(|line| is_kept(line)).flatten().copied().collect()
}

fn without(text: &[u8], byte: u8) -> Vec<u8> {
    text.iter().filter(|other| **other != byte).copied().collect()
}

/// The text with a space for each of these bytes.
fn with_spaces(text: &[u8], byte: u8) -> Vec<u8> {
    text.iter().map(|other| if *other == byte { b' ' } else { *other }).collect()
}

impl Text {
    /// The used part, as far as there is a buffer.
    pub fn used_part(&self) -> &[u8] {
        &self.buffer[..self.used.min(self.buffer.len())]
    }

    /// What lies behind it.
    pub fn rest(&self) -> &[u8] {
        &self.buffer[self.used_part().len()..]
    }

    pub fn lines(&self) -> Vec<&[u8]> {
        lines_of(self.used_part()).collect()
    }

    /// What the model says of the used part, as far as there is a buffer.
    fn newest(&self) -> Settings {
        read(self.used_part())
    }

    /// Whether its last line has no newline.
    fn is_cut(&self) -> bool {
        self.used_part().last().is_some_and(|byte| *byte != b'\n')
    }

    fn is_one_above(&self) -> bool {
        self.used == self.buffer.len() + 1
    }

    fn is_within_in_32_bits(&self) -> bool {
        self.used & 0xffff_ffff <= self.buffer.len()
    }
}

impl Added<'_> {
    /// How many bytes are left behind the used part; none where that ends above the buffer.
    fn room(&self) -> Option<usize> {
        self.text.buffer.len().checked_sub(self.text.used)
    }

    /// The bytes of a line in this version.
    fn length(&self) -> usize {
        line_length(self.version)
    }

    fn is_too_little(&self) -> bool {
        self.room().is_some_and(|room| room < self.length())
    }

    fn is_short(&self, version: u64, rooms: Range<usize>) -> bool {
        let is_such = |room| rooms.contains(&room);
        self.refusal == 10 && self.version == version && self.room().is_some_and(is_such)
    }

    /// Whether what lies behind the new line would show that it was cleared.
    fn leaves_no_zero(&self) -> bool {
        let left = self.text.rest().get(self.length()..).unwrap_or_default();
        !left.is_empty() && left.iter().all(|byte| *byte != 0)
    }

    /// Whether all else is good, so that 1 is for the version.
    fn is_by_version(&self, is_such: fn(u64) -> bool) -> bool {
        !is_version(self.version) && self.layout.refusal() == 0 && is_such(self.version)
    }

    fn is_by_first_version(&self) -> bool {
        self.version == 1 && self.layout.edition == 2 && self.layout.refusal() == 0
    }

    fn is_by_edition(&self, is_such: fn(u64) -> bool) -> bool {
        self.is_by(|y| Layout { edition: 1, ..*y }) && is_such(self.layout.edition)
    }

    /// Whether the version is right and the layout bad, but good with one number mended.
    fn is_by(&self, mended: fn(&Layout) -> Layout) -> bool {
        is_version(self.version) && self.layout.refusal() != 0 && mended(self.layout).refusal() == 0
    }
}

impl Read<'_> {
    fn is(&self, refusal: u64) -> bool {
        self.answer.refusal == refusal
    }

    /// The versions of a text whose lines are right.
    fn versions(&self) -> Vec<u64> {
        self.text.lines().iter().map(|line| if line.len() == 41 { 1 } else { 2 }).collect()
    }

    /// The edition of the newest record.
    fn edition(&self) -> u64 {
        self.answer.layout.edition
    }

    /// The record before the newest.
    fn before(&self) -> Option<Layout> {
        Some(read(self.text.lines().iter().rev().nth(1)?).layout)
    }

    fn has_second_before(&self) -> bool {
        self.text.lines().iter().rev().skip(1).any(|line| read(line).layout.edition == 2)
    }

    /// Whether the line that is told and how many there are pass a test.
    fn is_at(&self, test: fn(usize, usize) -> bool) -> bool {
        self.is(12) && test(self.answer.line as usize, self.text.lines().len())
    }

    fn malformed(&self) -> impl Iterator<Item = &[u8]> {
        lines_of(self.text.used_part()).filter(|line| !is_right(line))
    }

    /// The line that is told.
    fn told(&self) -> &[u8] {
        self.text.lines()[self.answer.line as usize - 1]
    }

    /// Whether the text would be right with its last line up to its newline.
    fn ends_behind(&self) -> bool {
        let end = lines_of(self.text.rest()).next().unwrap_or_default();
        is_right(&[self.text.used_part(), end].concat())
    }

    /// Whether the text is malformed, and right once it is mended.
    fn is_but(&self, mended: impl Fn(&[u8]) -> Vec<u8>) -> bool {
        self.is(12) && is_right(&mended(self.text.used_part()))
    }

    /// Whether the line that is told begins so and is so long, and is right in the other version.
    fn is_by_form(&self, version: &[u8], length: usize) -> bool {
        let other = if version == b"01" { b"02" } else { b"01" };
        self.is(12) && self.told().len() == length && self.is_by(0..2, version, other)
    }

    /// Whether a field of the line that is told holds these digits, and the line is right with others.
    fn is_by(&self, field: Range<usize>, digits: &[u8], mended: &[u8]) -> bool {
        let with_others = || {
            let mut line = self.told().to_vec();
            line.splice(field.clone(), mended.iter().copied());
            line
        };
        self.is(12) && self.told().get(field.clone()) == Some(digits) && is_right(&with_others())
    }

    /// Whether one target more makes the line that is told right.
    fn is_by_a_target_too_few(&self) -> bool {
        (1..=MOST_TARGETS).any(|p| {
            let [fewer, enough] = [p - 1, p].map(|p| format!("{p:02x}").into_bytes());
            self.is_by(P, &fewer, &enough)
        })
    }
}

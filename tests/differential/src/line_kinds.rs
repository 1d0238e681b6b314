//! What replayed lines are like: each kind by its name, told of a line as it was lent and answered.

use crate::count_kinds::{line_of, Counted};
use crate::pools::Pool;
use crate::replays::EDITION_FIELDS;
use oracle::layout::{layout, Layout};
use oracle::pool::Record;
use oracle::replay::{
    first_line, line_of_layout, play_line, First, Played, LARGEST_IMAGE, LONGEST_LINE,
};

/// A line that was lent to be played, and what the model answered.
pub struct Line<'a> {
    pub pool: &'a Pool,
    pub line: &'a [u8],
    pub room: usize,
    pub played: &'a Played,
}

/// A first line, the layout that it told before it was damaged, and what the model answered.
pub struct FirstLine<'a> {
    pub line: &'a [u8],
    pub layout: &'a Layout,
    pub first: &'a First,
}

type Test = fn(&Line) -> bool;
type FirstTest = fn(&FirstLine) -> bool;

/// The number that a malformed line is answered with.
pub const MALFORMED: usize = 13;

/// The events in the order of their own numbers, each with the numbers that it may be answered with.
pub const EVENTS: [(&str, &[usize]); 4] = [
    ("write", &[0, 1, 2, 3, 4]),
    ("fail", &[0, 1, 2, 3, 4, 6, 7]),
    ("repair", &[0, 1, 2, 3]),
    ("read", &[0, 1, 2, 3, 4]),
];

/// A library that is wrong for one of these may be right for all others, so each must be met.
pub const LINE_KINDS: [(&str, Test); 25] = [
    ("a write of no bytes", |line| line.is("write", 0) && line.line.len() == 21),
    ("a write of 4,140 bytes", |line| line.is("write", 0) && line.line.len() == LONGEST_LINE + 1),
    ("a write of 4,141 bytes", |line| line.is_too_long_a_write()),
    ("a byte above the longest", |line| {
        line.is_malformed() && line.line.len() == LONGEST_LINE + 2 && line.line.ends_with(b"\n")
    }),
    ("no newline, else right", |line| line.is_malformed_but(&[line.line, b"\n"].concat())),
    ("a newline too many", |line| {
        line.line.ends_with(b"\n\n") && line.is_malformed_but(&line.line[..line.line.len() - 1])
    }),
    ("upper case, else right", |line| line.is_malformed_but(&line.line.to_ascii_lowercase())),
    ("nothing", |line| line.is_malformed() && line.line.is_empty()),
    ("a newline alone", |line| line.is_malformed() && line.line == b"\n"),
    ("a first line", |line| line.is_malformed() && line.line.len() == 38),
    ("a read of no bytes", |line| line.played.answer == b"0 \n"),
    ("a read of all bytes", |line| line.is("read", 0) && line.length() == line.capacity()),
    ("a read above all bytes", |line| line.is("read", 4) && line.length() > line.capacity()),
    ("a read of 2^63 and more", |line| line.is("read", 4) && line.length() >> 63 == 1),
    ("a read whose end wraps", |line| {
        line.is("read", 4) && line.offset().checked_add(line.length()).is_none()
    }),
    ("a read of missing contents", |line| {
        line.is("read", 0) && line.length() > 0 && line.has_missing()
    }),
    ("a write beside missing", |line| {
        line.is("write", 0) && line.line.len() > 21 && line.has_missing()
    }),
    ("a repair of none", |line| line.is("repair", 0) && line.played.answer == b"0 0\n"),
    ("a repair of 10 and more", |line| line.is("repair", 0) && line.played.answer.len() > 4),
    ("a buffer of the least length", |line| {
        line.played.refusal == 0 && line.room == line.least_room()
    }),
    ("a longer buffer", |line| line.played.refusal == 0 && line.room > line.least_room()),
    ("a buffer one byte too short", |line| {
        line.played.refusal == 5 && line.room + 1 == line.least_room()
    }),
    ("no buffer", |line| line.played.refusal == 5 && line.room == 0),
    ("5, and malformed", |line| line.played.refusal == 5 && !is_form(line.line)),
    ("5, and a bad layout", |line| line.played.refusal == 5 && line.pool.layout.refusal() != 0),
];

pub const FIRST_KINDS: [(&str, FirstTest); 6] = [
    ("an image of 32,768 bytes", |line| line.first.image == LARGEST_IMAGE),
    ("a larger image", |line| line.is_whole() && line.layout.derived().image > LARGEST_IMAGE),
    ("malformed", |line| line.first.refusal == 13 && !line.is_whole()),
    ("an edition named too", |line| line.first.refusal == 13 && line.names_an_edition()),
    ("no newline, else right", |line| {
        [line.line, b"\n"].concat() == line_of_layout(line.layout).as_bytes()
    }),
    ("nothing", |line| line.line.is_empty()),
];

/// Whether a line has one of the forms: then a pool of a bad layout answers 1.
fn is_form(line: &[u8]) -> bool {
    let refused = layout(0, 0, 0, 0, 0, 0);
    play_line(&refused, &Record::default(), &mut [], line, 24).answer == b"1\n"
}

impl Line<'_> {
    /// The number that the line was answered with; none where the call was refused.
    pub fn number(&self) -> Option<usize> {
        let digits = self.played.answer.split(|byte| !byte.is_ascii_digit()).next()?;
        std::str::from_utf8(digits).ok()?.parse().ok()
    }

    /// The place of the line's event among [`EVENTS`]; none where it is malformed or the call was refused.
    pub fn event(&self) -> Option<usize> {
        self.number().filter(|number| *number != MALFORMED)?;
        Some((self.line[1] - b'1') as usize)
    }

    fn is(&self, event: &str, number: usize) -> bool {
        self.event().is_some_and(|at| EVENTS[at].0 == event) && self.number() == Some(number)
    }

    fn is_malformed(&self) -> bool {
        self.number() == Some(MALFORMED)
    }

    /// Whether the line is malformed, and another is not.
    fn is_malformed_but(&self, other: &[u8]) -> bool {
        self.is_malformed() && is_form(other)
    }

    /// Whether the line without two of its digits is the longest that there is.
    fn is_too_long_a_write(&self) -> bool {
        let (line, length) = (self.line, LONGEST_LINE + 3);
        line.len() == length && self.is_malformed_but(&[&line[..20], &line[22..]].concat())
    }

    /// The number that some digits of the line tell.
    fn told(&self, from: usize, digits: usize) -> u64 {
        let digits = std::str::from_utf8(&self.line[from..from + digits]).expect("of a form");
        u64::from_str_radix(digits, 16).expect("of a form")
    }

    fn offset(&self) -> u64 {
        self.told(3, 16)
    }

    /// Of a read.
    fn length(&self) -> u64 {
        self.told(20, 16)
    }

    /// The line as a call on the record's count; none where it is malformed or the call was refused.
    pub fn counted(&self) -> Option<Counted<'_>> {
        let (event, refusal) = (self.event()?, self.number()? as u64);
        let target = (EVENTS[event].0 == "fail").then(|| self.told(3, 2));
        Some(Counted { call: line_of(event), pool: self.pool, refusal, target })
    }

    fn capacity(&self) -> u64 {
        self.pool.layout.derived().capacity
    }

    fn has_missing(&self) -> bool {
        self.pool.record.q < self.pool.record.k
    }

    fn least_room(&self) -> usize {
        24 + 2 * self.pool.image.len()
    }
}

impl FirstLine<'_> {
    /// Whether the line would be accepted but for a seventh number.
    fn names_an_edition(&self) -> bool {
        let right = line_of_layout(self.layout);
        let is_behind = |field: &&[u8]| [right.trim_end().as_bytes(), field].concat() == self.line;
        first_line(right.as_bytes()).refusal == 0 && EDITION_FIELDS.iter().any(is_behind)
    }

    /// Whether the line was not damaged.
    fn is_whole(&self) -> bool {
        self.line == line_of_layout(self.layout).as_bytes()
    }
}

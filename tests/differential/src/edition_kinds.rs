//! What calls that are given a layout are like by its edition: each kind by its name, told of a call as it was made and
//! answered.

use crate::count_kinds::TAKERS;
use crate::layouts::is_edition;
use oracle::layout::Layout;

/// A call that was given a layout, and what the model answered.
pub struct Given<'a> {
    /// One of [`layout_takers`], or a call that is not counted by its edition.
    pub call: &'static str,
    pub layout: &'a Layout,
    pub refusal: u64,
}

type Test = fn(&Given) -> bool;

/// The calls that take a layout and no failure record.
const WITHOUT_RECORD: [&str; 14] = [
    "measure",
    "tile_permutation",
    "tile_inverse",
    "find_place",
    "find_unit",
    "map_offset",
    "map_byte",
    "step",
    "encode",
    "rebuild",
    "hex_line",
    "write_text",
    "read_text",
    "add_settings",
];

pub const LAYOUT_TAKERS: usize = WITHOUT_RECORD.len() + TAKERS.len();

/// The calls that take a layout. Who takes a record takes a layout too, an event of a replayed line among them: the line's
/// own call does not answer 1.
pub fn layout_takers() -> impl Iterator<Item = &'static str> {
    WITHOUT_RECORD.into_iter().chain(TAKERS)
}

/// What each of the calls must have met: one of them may go by another edition, or not test it.
pub const EDITIONS: [(&str, Test); 3] = [
    ("edition 1", |g| g.refusal == 0 && g.layout.edition == 1),
    ("edition 2", |g| g.refusal == 0 && g.layout.edition == 2),
    ("1, by the edition alone", |g| g.is_bad_by_its_edition()),
];

/// Editions that must have been refused, by whatever call: all that is tested may be a bound, or some bits.
pub const BAD_EDITIONS: [(&str, Test); 6] = [
    ("0", |g| g.is_bad(|edition| edition == 0)),
    ("3", |g| g.is_bad(|edition| edition == 3)),
    ("2^64-1", |g| g.is_bad(|edition| edition == u64::MAX)),
    ("right modulo 2^8", |g| g.is_bad(|edition| is_edition(edition & 0xff))),
    ("right modulo 2^16", |g| g.is_bad(|edition| is_edition(edition & 0xffff))),
    ("right modulo 2^32", |g| g.is_bad(|edition| is_edition(edition & 0xffff_ffff))),
];

impl Given<'_> {
    /// Whether all other numbers are good, so that 1 is for the edition.
    fn is_bad_by_its_edition(&self) -> bool {
        self.refusal == 1 && Layout { edition: 1, ..*self.layout }.refusal() == 0
    }

    fn is_bad(&self, is_such: fn(u64) -> bool) -> bool {
        self.is_bad_by_its_edition() && is_such(self.layout.edition)
    }
}

//! The layout as the library is given it; on purpose with a fault in a rule of its edition. A library with such a fault is
//! made of the right one: the layout that it is given, or what it answers, is another.

use crate::layouts::{self, is_edition};
use crate::spoil::Spoil;
use crate::tally::Call;
use oracle::layout::Layout;
use oracle::permutation::{advance, inverted, start, Entries};
use splicebell::raw::{splicebell_entries, splicebell_first_line, splicebell_layout};

/// What a library with a fault would do. The calls that a fault is in alone go by their names.
#[derive(Clone, Copy, Debug, PartialEq, Eq)]
pub enum EditionRule {
    /// Permutation and inverse advance the generator so often after the start and so often before each exchange, in
    /// edition 2: 4 and 1 would be right.
    Advances(u32, u32),
    /// The inverse is that of the other edition's permutation.
    OtherInverse,
    /// The first of these editions is taken for the second.
    Taken(u64, u64),
    /// Only so many bits of the edition are looked at.
    Narrow(u32),
    /// The edition is added into the start.
    InTheStart,
    /// One call goes by edition 1 where the layout says 2.
    FirstIn(&'static str),
    /// One call takes an edition that is neither for 1.
    UntestedIn(&'static str),
    /// The first line of a recorded day tells edition 2.
    FirstLineOfSecond,
    /// A first line that is refused tells edition 1, not 0.
    EditionThoughRefused,
}

fn rule_of(spoil: Option<Spoil>) -> Option<EditionRule> {
    match spoil {
        Some(Spoil::Edition(rule)) => Some(rule),
        _ => None,
    }
}

/// The layout that a call is given.
pub fn lent(spoil: Option<Spoil>, call: Call, y: &Layout) -> splicebell_layout {
    let mut taken = *y;
    match rule_of(spoil) {
        Some(EditionRule::OtherInverse) if call == Call::TileInverse && is_edition(y.edition) => {
            taken.edition = 3 - y.edition;
        }
        Some(EditionRule::Taken(one, other)) if y.edition == one => taken.edition = other,
        Some(EditionRule::Narrow(bits)) => taken.edition &= (1 << bits) - 1,
        Some(EditionRule::InTheStart) => taken.cookie = y.cookie.wrapping_add(y.edition),
        Some(EditionRule::FirstIn(name)) if call.name() == name && y.edition == 2 => {
            taken.edition = 1;
        }
        Some(EditionRule::UntestedIn(name)) if call.name() == name && !is_edition(y.edition) => {
            taken.edition = 1;
        }
        _ => {}
    }
    layouts::lent(&taken)
}

/// The entries that a call answers for a tile.
pub fn entries(
    spoil: Option<Spoil>,
    call: Call,
    y: &Layout,
    tile: u64,
    mut answer: splicebell_entries,
) -> splicebell_entries {
    if let Some(EditionRule::Advances(extra, each)) = rule_of(spoil) {
        if answer.refusal == 0 && y.edition == 2 {
            let wrong = shuffled(y, tile, extra, each);
            let wrong = if call == Call::TileInverse { inverted(&wrong) } else { wrong };
            answer.entries = wrong.map(|entry| entry as u8);
        }
    }
    answer
}

fn advanced(state: u64, times: u32) -> u64 {
    (0..times).fold(state, |state, _| advance(state))
}

fn shuffled(y: &Layout, tile: u64, extra: u32, each: u32) -> Entries {
    let mut entries: Entries = std::array::from_fn(|t| t as u64);
    let mut state = advanced(start(y.cookie, tile), extra);
    for i in (1..y.p as usize).rev() {
        state = advanced(state, each);
        let j = ((state >> 32) * (i as u64 + 1)) >> 32;
        entries.swap(i, j as usize);
    }
    entries
}

/// What the first line of a recorded day is answered with.
pub fn first_line(
    spoil: Option<Spoil>,
    mut answer: splicebell_first_line,
) -> splicebell_first_line {
    match rule_of(spoil) {
        Some(EditionRule::FirstLineOfSecond) if answer.refusal == 0 => answer.layout.edition = 2,
        Some(EditionRule::EditionThoughRefused) if answer.refusal != 0 => {
            answer.layout.edition = 1;
        }
        _ => {}
    }
    answer
}

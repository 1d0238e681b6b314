//! Layouts: drawn small, over the whole range, to fit an image, and damaged.

use crate::bench::Trial;
use crate::draws::Draws;
use oracle::layout::{gcd, Layout};
use splicebell::raw::splicebell_layout;

pub const MOST_TARGETS: u64 = 64;
pub const MOST_UNIT_BYTES: u64 = 4096;
pub const MOST_TILES: u64 = 65_536;
/// The model shuffles P targets for each of the W units of each group.
const MOST_STEPS: u64 = 4_000_000;

pub fn lent(y: &Layout) -> splicebell_layout {
    let Layout { n, k, p, u, t, cookie, edition } = *y;
    splicebell_layout { n, k, p, u, t, cookie, edition }
}

/// Compares a layout of the answer, number by number.
pub fn compare(trial: &mut Trial, answered: &splicebell_layout, expected: &Layout) {
    trial.number("n", answered.n, expected.n);
    trial.number("k", answered.k, expected.k);
    trial.number("p", answered.p, expected.p);
    trial.number("u", answered.u, expected.u);
    trial.number("t", answered.t, expected.t);
    trial.number("cookie", answered.cookie, expected.cookie);
    trial.number("edition", answered.edition, expected.edition);
}

/// The numbers in the bits that a line has digits for. Some lines have two for the edition, others none: it stays.
pub fn narrowed(y: &Layout) -> Layout {
    let byte = |number| number & 0xff;
    let (u, t) = (y.u & 0xffff, y.t & 0xff_ffff);
    Layout { n: byte(y.n), k: byte(y.k), p: byte(y.p), u, t, ..*y }
}

/// N, K and P, small ones more often.
fn shape(draws: &mut Draws) -> (u64, u64, u64) {
    let n = if draws.one_in(3) { draws.between(1, 16) } else { draws.between(1, 4) };
    let k = draws.between(0, 3);
    let w = n + 2 * k;
    let p = match draws.below(8) {
        0 => draws.between(w, MOST_TARGETS),
        1 => MOST_TARGETS,
        2 => w,
        _ => draws.between(w, w + 4),
    };
    (n, k, p)
}

pub fn cookie(draws: &mut Draws) -> u64 {
    if draws.one_in(3) {
        draws.edge()
    } else {
        draws.word()
    }
}

/// Either edition, one as often as the other.
pub fn edition(draws: &mut Draws) -> u64 {
    draws.between(1, 2)
}

/// Whether a layout may have this edition.
pub fn is_edition(number: u64) -> bool {
    (1..=2).contains(&number)
}

/// An accepted layout, over the whole range.
pub fn any(draws: &mut Draws) -> Layout {
    let (n, k, p) = shape(draws);
    let (u, t) = (draws.size(MOST_UNIT_BYTES), draws.size(MOST_TILES));
    Layout { n, k, p, u, t, cookie: cookie(draws), edition: edition(draws) }
}

/// An accepted layout with an image of at most `most` bytes, over the whole range that allows.
pub fn fitting(draws: &mut Draws, most: u64) -> Layout {
    loop {
        let (n, k, p) = shape(draws);
        let w = n + 2 * k;
        let budget = most / (w * p / gcd(w, p));
        if budget == 0 {
            continue;
        }
        let (u, t) = if draws.one_in(2) {
            let u = draws.size(budget.min(MOST_UNIT_BYTES));
            (u, draws.size((budget / u).min(MOST_TILES)))
        } else {
            let most = budget.min(MOST_TILES);
            // Frame numbers grow with the tiles, so as many as fit are tried often.
            let t = if draws.one_in(4) { most } else { draws.size(most) };
            (draws.size((budget / t).min(MOST_UNIT_BYTES)), t)
        };
        return Layout { n, k, p, u, t, cookie: cookie(draws), edition: edition(draws) };
    }
}

/// A layout with frames from 1,048,576 on, which have six hex digits that matter: T as large as it may be, and as
/// many rows a tile as groups are wide. Its image has 20 to 31 MB.
pub fn tall(draws: &mut Draws) -> Layout {
    let (n, k) = draws.pick(&[(15, 1), (14, 2), (16, 1), (13, 3), (16, 2), (15, 3)]);
    let p = n + 2 * k + 1;
    Layout { n, k, p, u: 1, t: MOST_TILES, cookie: cookie(draws), edition: edition(draws) }
}

/// A layout with frames from 65,536 on, which have five hex digits that matter, and the fewest lines with that: its
/// image has 393,216 to 786,432 bytes.
pub fn high(draws: &mut Draws) -> Layout {
    let (n, k, p) = draws.pick(&[(2, 0, 3), (3, 0, 4), (1, 1, 4)]);
    Layout { n, k, p, u: 1, t: MOST_TILES, cookie: cookie(draws), edition: edition(draws) }
}

/// Whether the model can go through all groups of the layout in a short time.
pub fn is_light(y: &Layout) -> bool {
    let numbers = y.derived();
    numbers.groups * numbers.w * y.p <= MOST_STEPS
}

/// The layout with another edition, mostly a bad one, some of them right in their lowest bits.
pub fn with_bad_edition(draws: &mut Draws, y: &Layout) -> Layout {
    let edge = draws.edge();
    let above = y.edition | 1 << draws.pick(&[8, 16, 32, 63]);
    Layout { edition: draws.pick(&[0, 3, u64::MAX, edge, above]), ..*y }
}

/// The layout with one number changed to one outside its bounds or at an edge: more often the edition than another, since
/// each call must meet a bad one.
pub fn damaged(draws: &mut Draws, y: &Layout) -> Layout {
    let edge = draws.edge();
    let width = y.n.wrapping_add(y.k.wrapping_mul(2));
    match draws.below(8) {
        0 => Layout { n: draws.pick(&[0, 17, edge]), ..*y },
        1 => Layout { k: draws.pick(&[4, edge]), ..*y },
        2 => Layout { p: draws.pick(&[0, width.wrapping_sub(1), MOST_TARGETS + 1, edge]), ..*y },
        3 => Layout { u: draws.pick(&[0, MOST_UNIT_BYTES + 1, edge]), ..*y },
        4 => Layout { t: draws.pick(&[0, MOST_TILES + 1, edge]), ..*y },
        _ => with_bad_edition(draws, y),
    }
}

/// Mostly the layout itself, else damaged in one number or more.
pub fn perhaps_damaged(draws: &mut Draws, y: &Layout) -> Layout {
    let mut layout = *y;
    while draws.one_in(8) {
        layout = damaged(draws, &layout);
    }
    layout
}

/// A layout in a report.
pub fn told(y: &Layout) -> String {
    format!("N K P U T cookie edition {y}")
}

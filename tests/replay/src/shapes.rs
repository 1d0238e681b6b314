//! The layouts of drawn traces: small ones, some at the size that a replay takes and above it, some refused.

use crate::draws::Draws;
use oracle::layout::{layout, Layout};
use oracle::replay::LARGEST_IMAGE;

/// A layout whose numbers have room in a first line's digits.
pub fn drawn(draws: &mut Draws) -> Layout {
    match draws.below(40) {
        0 | 1 => refused(draws),
        2 => just_above(draws),
        3 => far_above(draws),
        4 | 5 => largest(draws),
        6..=9 => fitting(draws, LARGEST_IMAGE),
        10..=24 => fitting(draws, 2048),
        _ => fitting(draws, 400),
    }
}

/// An image of at most `limit` bytes, which is at least 22.
fn fitting(draws: &mut Draws, limit: u64) -> Layout {
    loop {
        let (n, k) = (draws.size(16), draws.below(4));
        let most = if draws.one_in(2) { 64 } else { (n + 2 * k + 4).min(64) };
        let p = draws.between(n + 2 * k, most);
        let block = layout(n, k, p, 1, 1, 0).derived().image;
        if block <= limit {
            let u = draws.size((limit / block).min(4096));
            let t = draws.size((limit / block / u).min(65_536));
            return layout(n, k, p, u, t, draws.word());
        }
    }
}

/// As many tiles as a replay takes.
fn largest(draws: &mut Draws) -> Layout {
    let mut shape = fitting(draws, LARGEST_IMAGE);
    // Groups as wide as the row has targets make blocks that 32,768 is a multiple of.
    if draws.one_in(2) {
        (shape.n, shape.k, shape.p) =
            draws.pick(&[(1, 0, 1), (2, 1, 4), (4, 2, 8), (8, 0, 8), (2, 3, 8)]);
        shape.u = 1 << draws.below(10);
    }
    let tile = Layout { t: 1, ..shape }.derived().image;
    Layout { t: (LARGEST_IMAGE / tile).min(65_536), ..shape }
}

/// One tile more than a replay takes.
fn just_above(draws: &mut Draws) -> Layout {
    let shape = largest(draws);
    Layout { t: shape.t + 1, ..shape }
}

/// Good numbers, any size; some of these are small.
fn far_above(draws: &mut Draws) -> Layout {
    let shape = fitting(draws, LARGEST_IMAGE);
    Layout { u: draws.size(4096), t: draws.size(65_536), ..shape }
}

/// One number is outside its bounds; the image may be far too large too.
fn refused(draws: &mut Draws) -> Layout {
    let mut shape = if draws.one_in(2) { far_above(draws) } else { fitting(draws, 2048) };
    match draws.below(5) {
        0 => shape.n = draws.pick(&[0, 17, 0x80, 0xff]),
        1 => shape.k = draws.pick(&[4, 5, 0x80, 0xff]),
        2 => shape.p = draws.pick(&[0, shape.n + 2 * shape.k - 1, 65, 0x80, 0xff]),
        3 => shape.u = draws.pick(&[0, 4097, 0x8000, 0xffff]),
        _ => shape.t = draws.pick(&[0, 65_537, 0x80_0000, 0xff_ffff]),
    }
    shape
}

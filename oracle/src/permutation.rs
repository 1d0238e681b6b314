//! The permutation of a tile and its inverse.
//!
//! Document 01: "start = (cookie + 11400714819323198485·tile) mod 2^64. One
//! advance: state = (6364136223846793005·state + 1442695040888963407) mod 2^64
//! (Knuth's MMIX constants). Begin with entry t = t. For i = P−1 down to 1:
//! advance, take j = ((state div 2^32)·(i+1)) div 2^32, exchange entries i and
//! j. Entry t is the target of column t. The answer is 64 entries handed back
//! by value; those from P on hold their own index. Its inverse is asked for
//! too."
//!
//! Document 02, order 8: "In edition 2 the generator is advanced four extra
//! times after the start; then the exchanges go as before, each with its own
//! advance."

use crate::layout::Layout;

/// 64 entries, as the calls hand them back.
pub type Entries = [u64; 64];

const TWO_TO_64: u128 = 1 << 64;
const TWO_TO_32: u128 = 1 << 32;

/// The state that grows from cookie and tile, before any advance.
pub fn start(cookie: u64, tile: u64) -> u64 {
    let sum = u128::from(cookie) + 11_400_714_819_323_198_485_u128 * u128::from(tile);
    (sum % TWO_TO_64) as u64
}

/// One advance of the generator.
pub fn advance(state: u64) -> u64 {
    let sum = 6_364_136_223_846_793_005_u128 * u128::from(state) + 1_442_695_040_888_963_407;
    (sum % TWO_TO_64) as u64
}

/// The state from which the exchanges go: the start in edition 1, four
/// advances after it in edition 2.
pub fn begin(edition: u64, cookie: u64, tile: u64) -> u64 {
    let start = start(cookie, tile);
    if edition == 2 {
        advance(advance(advance(advance(start))))
    } else {
        start
    }
}

/// The permutation of `targets` columns by exchanges that go from this state.
fn shuffled(targets: usize, mut state: u64) -> Entries {
    let mut entries: Entries = std::array::from_fn(|t| t as u64);
    for i in (1..targets).rev() {
        state = advance(state);
        let j = (u128::from(state) / TWO_TO_32) * (i as u128 + 1) / TWO_TO_32;
        entries.swap(i, j as usize);
    }
    entries
}

/// The entries that undo the given ones.
pub fn inverted(entries: &Entries) -> Entries {
    let mut inverse = [0; 64];
    for (column, target) in entries.iter().enumerate() {
        inverse[*target as usize] = column as u64;
    }
    inverse
}

fn tile_refusal(layout: &Layout, tile: u64) -> u64 {
    if layout.refusal() != 0 {
        1
    } else if tile >= layout.t {
        4
    } else {
        0
    }
}

/// Public call: refusal (1, 4) and the permutation of a tile, all zeros where refused.
pub fn permutation(layout: &Layout, tile: u64) -> (u64, Entries) {
    match tile_refusal(layout, tile) {
        0 => {
            let from = begin(layout.edition, layout.cookie, tile);
            (0, shuffled(layout.p as usize, from))
        }
        refusal => (refusal, [0; 64]),
    }
}

/// Public call: refusal (1, 4) and the inverse permutation, all zeros where refused.
pub fn inverse(layout: &Layout, tile: u64) -> (u64, Entries) {
    match permutation(layout, tile) {
        (0, entries) => (0, inverted(&entries)),
        refused => refused,
    }
}

#[cfg(test)]
mod tests {
    use super::*;
    use crate::draws::Draws;
    use crate::layout::layout;

    /// The state `count` advances later, by powers: with the multiplier a and
    /// the increment c it is a^count·state + c·(1 + a + .. + a^(count−1)).
    fn later(state: u64, count: u32) -> u64 {
        let (multiplier, increment) = (6_364_136_223_846_793_005_u64, 1_442_695_040_888_963_407);
        let powers = (0..count).map(|n| multiplier.wrapping_pow(n));
        let sum = powers.fold(0, u64::wrapping_add);
        let grown = multiplier.wrapping_pow(count).wrapping_mul(state);
        grown.wrapping_add(sum.wrapping_mul(increment))
    }

    /// The permutation a second way: from the last column to the first each
    /// takes one of the targets that are left, whose place goes to the last of
    /// them. `skipped` states are not used.
    fn dealt(p: u64, cookie: u64, tile: u64, skipped: u32) -> Vec<u64> {
        let start = cookie.wrapping_add(tile.wrapping_mul(11_400_714_819_323_198_485));
        let mut left: Vec<u64> = (0..p).collect();
        let mut columns = Vec::new();
        for count in skipped + 1..skipped + p as u32 {
            let upper = later(start, count) >> 32;
            let j = (upper * left.len() as u64) >> 32;
            columns.push(left.swap_remove(j as usize));
        }
        columns.extend(left);
        columns.reverse();
        columns
    }

    fn entries(p: u64, edition: u64, cookie: u64, tile: u64) -> Vec<u64> {
        let shape = layout(1, 1, p, 1, 65_536, cookie).in_edition(edition);
        let (refusal, entries) = permutation(&shape, tile);
        assert_eq!(refusal, 0);
        assert!((p..64).all(|t| entries[t as usize] == t));
        entries[..p as usize].to_vec()
    }

    #[test]
    fn small_rows_in_both_editions() {
        let wanted: [(u64, u64, u64, &[u64]); 8] = [
            (3, 1, 0, &[1, 2, 0]),
            (3, 1, 1, &[2, 1, 0]),
            (3, 2, 0, &[0, 2, 1]),
            (3, 2, 1, &[1, 2, 0]),
            (4, 1, 0, &[2, 1, 3, 0]),
            (4, 1, 1, &[3, 2, 1, 0]),
            (4, 2, 0, &[2, 0, 3, 1]),
            (4, 2, 1, &[3, 2, 1, 0]),
        ];
        for (p, edition, tile, wanted) in wanted {
            let skipped = if edition == 1 { 0 } else { 4 };
            assert_eq!(entries(p, edition, 0, tile), wanted);
            assert_eq!(dealt(p, 0, tile, skipped), wanted);
        }
    }

    #[test]
    fn drawn_rows_in_both_editions() {
        let mut draws = Draws::new(88);
        for _ in 0..500 {
            let (p, cookie, tile) = (3 + draws.draw(62), draws.high(), draws.draw(32_768));
            assert_eq!(entries(p, 1, cookie, tile), dealt(p, cookie, tile, 0));
            assert_eq!(entries(p, 2, cookie, tile), dealt(p, cookie, tile, 4));
        }
    }

    #[test]
    fn the_exchanges_of_edition_2_go_from_the_fourth_state() {
        assert_eq!(begin(1, 0, 0), 0);
        assert_eq!(begin(2, 0, 0), 7_401_132_627_792_533_940);
        let mut draws = Draws::new(89);
        for _ in 0..500 {
            let (cookie, tile) = (draws.high(), draws.draw(32_768));
            assert_eq!(begin(1, cookie, tile), start(cookie, tile));
            assert_eq!(begin(2, cookie, tile), later(start(cookie, tile), 4));
        }
    }
}

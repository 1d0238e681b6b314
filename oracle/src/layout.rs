//! The numbers of a layout and what follows from them.
//!
//! Document 01: "N data units 1..16, K parity units 0..3 and as many spares,
//! W = N+2K, P targets with W ≤ P ≤ 64, U unit bytes 1..4,096, T tiles
//! 1..65,536, cookie any 64-bit number. B is the least common multiple of W
//! and P (the greatest common divisor by Euclid's rule), L = B/P rows and
//! C = B/W groups in a tile. A target has L·T frames; the file has capacity
//! T·C·N·U bytes; the image has exactly P·L·T·U bytes."
//!
//! Document 02, order 8: "The layout carries an edition, 1 or 2; another is
//! refused with 1."

/// The seven numbers of a layout, any 64-bit values.
#[derive(Clone, Copy, Debug, Default, PartialEq, Eq)]
pub struct Layout {
    /// N, the data units of a group.
    pub n: u64,
    /// K, the parity units of a group, and as many spares.
    pub k: u64,
    /// P, the targets.
    pub p: u64,
    /// U, the bytes of a unit.
    pub u: u64,
    /// T, the tiles.
    pub t: u64,
    /// The cookie that the permutations start from.
    pub cookie: u64,
    /// The edition of the permutation.
    pub edition: u64,
}

/// The six numbers in document 01's order, then the edition, as the programs
/// print them.
impl std::fmt::Display for Layout {
    fn fmt(&self, f: &mut std::fmt::Formatter<'_>) -> std::fmt::Result {
        let Layout {
            n,
            k,
            p,
            u,
            t,
            cookie,
            edition,
        } = self;
        write!(f, "{n} {k} {p} {u} {t} {cookie} {edition}")
    }
}

/// What follows from an accepted layout; all zeros for a refused one.
#[derive(Clone, Copy, Debug, Default, PartialEq, Eq)]
pub struct Numbers {
    /// W, the units of a group: data, parity and spares.
    pub w: u64,
    /// B, the units of a tile.
    pub b: u64,
    /// L, the rows of a tile.
    pub l: u64,
    /// C, the groups of a tile.
    pub c: u64,
    /// L·T, the frames of a target.
    pub frames: u64,
    /// T·C, the groups of the file.
    pub groups: u64,
    /// T·C·N·U, the bytes of the file.
    pub capacity: u64,
    /// P·L·T·U, the bytes of the image.
    pub image: u64,
}

/// The greatest common divisor by Euclid's rule.
pub fn gcd(a: u64, b: u64) -> u64 {
    if b == 0 {
        a
    } else {
        gcd(b, a % b)
    }
}

/// Makes a layout of edition 1, document 01's, from N, K, P, U, T and cookie,
/// in this order.
pub fn layout(n: u64, k: u64, p: u64, u: u64, t: u64, cookie: u64) -> Layout {
    Layout {
        n,
        k,
        p,
        u,
        t,
        cookie,
        edition: 1,
    }
}

impl Layout {
    /// Refusal 1: "a layout number outside the bounds above", else 0.
    pub fn refusal(&self) -> u64 {
        let width = u128::from(self.n) + 2 * u128::from(self.k);
        let fits = (1..=16).contains(&self.n)
            && self.k <= 3
            && width <= u128::from(self.p)
            && self.p <= 64
            && (1..=4096).contains(&self.u)
            && (1..=65_536).contains(&self.t)
            && (1..=2).contains(&self.edition);
        u64::from(!fits)
    }

    /// The refusal number (0 or 1) and the derived numbers.
    pub fn numbers(&self) -> (u64, Numbers) {
        if self.refusal() != 0 {
            return (1, Numbers::default());
        }
        let w = self.n + 2 * self.k;
        let b = w * self.p / gcd(w, self.p);
        let (l, c) = (b / self.p, b / w);
        let numbers = Numbers {
            w,
            b,
            l,
            c,
            frames: l * self.t,
            groups: self.t * c,
            capacity: self.t * c * self.n * self.u,
            image: self.p * l * self.t * self.u,
        };
        (0, numbers)
    }

    /// The derived numbers alone.
    pub fn derived(&self) -> Numbers {
        self.numbers().1
    }

    /// The same layout in another edition.
    pub fn in_edition(self, edition: u64) -> Layout {
        Layout { edition, ..self }
    }

    /// N+K of an accepted layout: "Data and parity are the contents."
    pub fn contents(&self) -> u64 {
        self.n + self.k
    }
}

/// Refusal 4 of a range: "A range is outside where offset > capacity or
/// length > capacity − offset".
pub fn range_refusal(layout: &Layout, offset: u64, length: u64) -> u64 {
    let capacity = layout.derived().capacity;
    let outside = offset > capacity || length > capacity - offset;
    if outside {
        4
    } else {
        0
    }
}

#[cfg(test)]
mod tests {
    use super::*;

    #[test]
    fn gcd_divides() {
        assert_eq!(gcd(8, 20), 4);
        assert_eq!(gcd(1, 1), 1);
        assert_eq!(gcd(22, 64), 2);
    }

    #[test]
    fn all_ones_are_refused() {
        let m = u64::MAX;
        let ones = layout(m, m, m, m, m, m).in_edition(m);
        assert_eq!(ones.numbers(), (1, Numbers::default()));
        assert_eq!(layout(2, m, 4, 1, 1, 0).refusal(), 1);
    }

    #[test]
    fn an_edition_is_1_or_2() {
        let shape = layout(1, 1, 4, 4, 1, 0);
        assert_eq!(shape.edition, 1);
        assert_eq!(shape.in_edition(2).numbers(), shape.numbers());
        for edition in [0, 3, 1 << 8 | 1, 1 << 32 | 1, 1 << 63 | 2, u64::MAX] {
            let refused = shape.in_edition(edition);
            assert_eq!(refused.numbers(), (1, Numbers::default()));
        }
    }
}

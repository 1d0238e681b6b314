//! Layout numbers, the permutation of a tile, and places.

#[repr(C)]
#[derive(Clone, Copy, Default)]
pub struct Layout {
    pub n: u64,
    pub k: u64,
    pub p: u64,
    pub u: u64,
    pub t: u64,
    pub cookie: u64,
    pub edition: u64,
}

/// A layout with the numbers that follow from it, worked out once a call.
pub struct Shape {
    pub layout: Layout,
    pub width: u64,
    pub rows: u64,
    pub groups_in_tile: u64,
}

fn common_divisor(a: u64, b: u64) -> u64 {
    if b == 0 {
        a
    } else {
        common_divisor(b, a % b)
    }
}

fn advanced(state: u64) -> u64 {
    state.wrapping_mul(6364136223846793005).wrapping_add(1442695040888963407)
}

impl Shape {
    pub fn of(layout: Layout) -> Self {
        let width = layout.n + 2 * layout.k;
        let divisor = common_divisor(width, layout.p);
        Shape { layout, width, rows: width / divisor, groups_in_tile: layout.p / divisor }
    }

    /// Of one target.
    pub fn frames(&self) -> usize {
        (self.rows * self.layout.t) as usize
    }

    /// Of the pool.
    pub fn groups(&self) -> u64 {
        self.layout.t * self.groups_in_tile
    }

    /// Bytes of the file.
    pub fn capacity(&self) -> u64 {
        self.groups() * self.layout.n * self.layout.u
    }

    /// Entry c is the target of column c.
    pub fn permutation(&self, tile: u64) -> [u8; 64] {
        let mut state = self.layout.cookie.wrapping_add(11400714819323198485u64.wrapping_mul(tile));
        if self.layout.edition == 2 {
            (0..4).for_each(|_| state = advanced(state));
        }
        let mut entries = [0; 64];
        (0..64).for_each(|t| entries[t] = t as u8);
        for i in (1..self.layout.p).rev() {
            state = advanced(state);
            let j = ((state >> 32) * (i + 1)) >> 32;
            entries.swap(i as usize, j as usize);
        }
        entries
    }

    /// Frame and target of a unit of a group, under the permutation of the group's tile.
    pub fn place(&self, permutation: &[u8; 64], group: u64, unit: u64) -> (u64, u64) {
        let x = self.width * (group % self.groups_in_tile) + unit;
        let frame = self.rows * (group / self.groups_in_tile) + x / self.layout.p;
        (frame, permutation[(x % self.layout.p) as usize] as u64)
    }

    /// Group and unit at a row and column of a tile: what undoes `place`.
    pub fn unit_at(&self, tile: u64, row: u64, column: u64) -> (u64, u64) {
        let x = self.layout.p * row + column;
        (self.groups_in_tile * tile + x / self.width, x % self.width)
    }

    pub fn image_byte(&self, (frame, target): (u64, u64)) -> usize {
        ((target * self.rows * self.layout.t + frame) * self.layout.u) as usize
    }
}

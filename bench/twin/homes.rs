//! Where the contents of a group lie under a failure record, and which are missing.

use crate::layout::Shape;

#[repr(C)]
#[derive(Clone, Copy)]
pub struct Record {
    pub failed: [u64; 3],
    pub k: u64,
    pub q: u64,
    pub waiting: u64,
}

/// Goes over groups in order, and makes the permutation of a tile once.
pub struct Tiles<'a> {
    shape: &'a Shape,
    tile: Option<u64>,
    permutation: [u8; 64],
}

/// Where the contents of a group begin in the image, and which are missing.
pub struct Group {
    pub starts: Vec<usize>,
    pub missing: Vec<bool>,
}

impl Group {
    /// How many contents below c are missing.
    pub fn rank(&self, c: usize) -> usize {
        self.missing[..c].iter().filter(|&&m| m).count()
    }
}

impl<'a> Tiles<'a> {
    pub fn new(shape: &'a Shape) -> Self {
        Tiles { shape, tile: None, permutation: [0; 64] }
    }

    fn go_to(&mut self, tile: u64) {
        if self.tile != Some(tile) {
            self.permutation = self.shape.permutation(tile);
            self.tile = Some(tile);
        }
    }

    /// The column of a target in a tile.
    pub fn column(&mut self, tile: u64, target: u64) -> u64 {
        self.go_to(tile);
        let at = self.permutation.iter().position(|&t| u64::from(t) == target);
        at.expect("a column for each target") as u64
    }

    /// Frame and target of each unit of a group.
    fn places(&mut self, group: u64) -> Vec<(u64, u64)> {
        self.go_to(group / self.shape.groups_in_tile);
        (0..self.shape.width).map(|u| self.shape.place(&self.permutation, group, u)).collect()
    }

    /// Whether a unit is a content's home under the repaired targets.
    pub fn is_home(&mut self, record: &Record, group: u64, unit: u64) -> bool {
        let places = self.places(group);
        self.homes(&places, &record.failed[..record.q as usize]).contains(&(unit as usize))
    }

    pub fn group(&mut self, record: &Record, group: u64) -> Group {
        let places = self.places(group);
        let failed = &record.failed[..record.k as usize];
        let homes = self.homes(&places, &failed[..record.q as usize]);
        let missing = homes.iter().map(|&h| failed.contains(&places[h].1)).collect();
        Group { starts: self.starts(&places, &homes), missing }
    }

    /// Where the contents of a group begin once the whole list is repaired.
    pub fn new_starts(&mut self, record: &Record, group: u64) -> Vec<usize> {
        let places = self.places(group);
        let homes = self.homes(&places, &record.failed[..record.k as usize]);
        self.starts(&places, &homes)
    }

    /// Where all units of a group begin, its spares too.
    pub fn unit_starts(&mut self, group: u64) -> Vec<usize> {
        let places = self.places(group);
        places.into_iter().map(|place| self.shape.image_byte(place)).collect()
    }

    /// The unit that is each content's home once the listed targets have failed.
    fn homes(&self, places: &[(u64, u64)], failed: &[u64]) -> Vec<usize> {
        let contents = (self.shape.layout.n + self.shape.layout.k) as usize;
        let mut homes: Vec<usize> = (0..contents).collect();
        for (f, target) in failed.iter().enumerate() {
            if let Some(c) = homes.iter().position(|&h| places[h].1 == *target) {
                homes[c] = (contents..places.len())
                    .find(|s| !homes.contains(s) && !failed[..=f].contains(&places[*s].1))
                    .expect("a spare for each failure");
            }
        }
        homes
    }

    fn starts(&self, places: &[(u64, u64)], homes: &[usize]) -> Vec<usize> {
        homes.iter().map(|&h| self.shape.image_byte(places[h])).collect()
    }
}

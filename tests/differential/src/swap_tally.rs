//! What has been tried of swapped drives so far: the accepted swaps by their kind in each edition, the refused ones, and what
//! was done in the rows that they left.

use crate::count_kinds::Counted;
use crate::swap_kinds::{Swapped, LATER_KINDS, REFUSED_KINDS, SWAP_KINDS};
use crate::tally::{add_kinds, print_kinds, unmet};

pub struct SwapTally {
    /// In edition 1, and in edition 2.
    accepted: [[u64; SWAP_KINDS.len()]; 2],
    refused: [u64; REFUSED_KINDS.len()],
    later: [u64; LATER_KINDS.len()],
}

impl SwapTally {
    pub const NONE: SwapTally = SwapTally {
        accepted: [[0; SWAP_KINDS.len()]; 2],
        refused: [0; REFUSED_KINDS.len()],
        later: [0; LATER_KINDS.len()],
    };

    /// A drive was to be taken back, and answered.
    pub fn add(&mut self, swapped: &Swapped) {
        let (kinds, counts): (&[(_, fn(&Swapped) -> bool)], &mut [u64]) = match swapped.refusal {
            0 => (&SWAP_KINDS, &mut self.accepted[swapped.pool.layout.edition as usize - 1]),
            _ => (&REFUSED_KINDS, &mut self.refused),
        };
        add_kinds(kinds, counts, |is_met| is_met(swapped));
    }

    /// A call was made and answered; where it was made on a row that took drives back.
    pub fn add_later(&mut self, call: &Counted) {
        if call.pool.returned.is_empty() || !call.pool.holds_file {
            return;
        }
        add_kinds(&LATER_KINDS, &mut self.later, |is_met| is_met(call));
    }

    pub fn print(&self) {
        for (edition, counts) in (1..).zip(self.accepted) {
            print_kinds(&format!("swap: in edition {edition}, "), &SWAP_KINDS, &counts);
        }
        print_kinds("swap: ", &REFUSED_KINDS, &self.refused);
        print_kinds("swap: and then ", &LATER_KINDS, &self.later);
    }

    pub fn never_met(&self) -> Vec<String> {
        let mut never = Vec::new();
        for (edition, counts) in (1..).zip(&self.accepted) {
            never.extend(unmet(&format!("a swap in edition {edition},"), &SWAP_KINDS, counts));
        }
        never.extend(unmet("a swap refused with", &REFUSED_KINDS, &self.refused));
        never.extend(unmet("a row with a swapped drive then", &LATER_KINDS, &self.later));
        never
    }
}

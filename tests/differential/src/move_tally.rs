//! What has been tried of moves between editions so far: the accepted ones by their kind from each edition, the refused ones,
//! those there and back, and what was done in the pools that they left.

use crate::count_kinds::Counted;
use crate::move_kinds::{Back, Moved, BACK_KINDS, LATER_KINDS, MOVE_KINDS, REFUSED_KINDS};
use crate::tally::{add_kinds, print_kinds, unmet};

pub struct MoveTally {
    /// From edition 1, and from edition 2.
    accepted: [[u64; MOVE_KINDS.len()]; 2],
    refused: [u64; REFUSED_KINDS.len()],
    backs: [u64; BACK_KINDS.len()],
    later: [u64; LATER_KINDS.len()],
}

impl MoveTally {
    pub const NONE: MoveTally = MoveTally {
        accepted: [[0; MOVE_KINDS.len()]; 2],
        refused: [0; REFUSED_KINDS.len()],
        backs: [0; BACK_KINDS.len()],
        later: [0; LATER_KINDS.len()],
    };

    /// A pool was to be moved, and answered.
    pub fn add(&mut self, moved: &Moved) {
        let (kinds, counts): (&[(_, fn(&Moved) -> bool)], &mut [u64]) = match moved.refusal {
            0 => (&MOVE_KINDS, &mut self.accepted[moved.pool.layout.edition as usize - 1]),
            _ => (&REFUSED_KINDS, &mut self.refused),
        };
        add_kinds(kinds, counts, |is_met| is_met(moved));
    }

    /// A pool was moved and moved back.
    pub fn add_back(&mut self, back: &Back) {
        add_kinds(&BACK_KINDS, &mut self.backs, |is_met| is_met(back));
    }

    /// A call was made and answered; where it was made on a pool that a move left.
    pub fn add_later(&mut self, call: &Counted) {
        if !call.pool.is_moved || !call.pool.holds_file {
            return;
        }
        add_kinds(&LATER_KINDS, &mut self.later, |is_met| is_met(call));
    }

    pub fn print(&self) {
        for (edition, counts) in (1..).zip(self.accepted) {
            print_kinds(&format!("move: from edition {edition}, "), &MOVE_KINDS, &counts);
        }
        print_kinds("move: ", &REFUSED_KINDS, &self.refused);
        print_kinds("move: there and back, ", &BACK_KINDS, &self.backs);
        print_kinds("move: and then ", &LATER_KINDS, &self.later);
    }

    pub fn never_met(&self) -> Vec<String> {
        let mut never = Vec::new();
        for (edition, counts) in (1..).zip(&self.accepted) {
            never.extend(unmet(&format!("a move from edition {edition},"), &MOVE_KINDS, counts));
        }
        never.extend(unmet("a move refused with", &REFUSED_KINDS, &self.refused));
        never.extend(unmet("a move there and back to", &BACK_KINDS, &self.backs));
        never.extend(unmet("a moved pool then", &LATER_KINDS, &self.later));
        never
    }
}

//! What has been tried of editions so far: the calls that take a layout by its edition, and the editions that were refused.

use crate::edition_kinds::{layout_takers, Given, BAD_EDITIONS, EDITIONS, LAYOUT_TAKERS};
use crate::tally::{add_kinds, unmet};

pub struct EditionTally {
    /// How often each call that takes a layout was of each kind that all must meet.
    taken: [[u64; EDITIONS.len()]; LAYOUT_TAKERS],
    /// How often a call was refused for each bad edition.
    bad: [u64; BAD_EDITIONS.len()],
}

impl EditionTally {
    pub const NONE: EditionTally =
        EditionTally { taken: [[0; EDITIONS.len()]; LAYOUT_TAKERS], bad: [0; BAD_EDITIONS.len()] };

    /// A call was given a layout and answered. One that is none of [`layout_takers`] is not counted here.
    pub fn add(&mut self, call: &Given) {
        let Some(taker) = layout_takers().position(|name| name == call.call) else { return };
        add_kinds(&EDITIONS, &mut self.taken[taker], |is_met| is_met(call));
        add_kinds(&BAD_EDITIONS, &mut self.bad, |is_met| is_met(call));
    }

    pub fn print(&self) {
        for (taker, taken) in layout_takers().zip(self.taken) {
            for ((name, _), count) in EDITIONS.iter().zip(taken) {
                println!("edition: {taker:17}{name:24}{count:9}");
            }
        }
        for ((name, _), count) in BAD_EDITIONS.iter().zip(self.bad) {
            println!("edition: refused {name:24}{count:9}");
        }
    }

    pub fn never_met(&self) -> Vec<String> {
        let mut never = unmet("a call refused for an edition of", &BAD_EDITIONS, &self.bad);
        for (taker, taken) in layout_takers().zip(&self.taken) {
            never.extend(unmet(&format!("{taker} with"), &EDITIONS, taken));
        }
        never
    }
}

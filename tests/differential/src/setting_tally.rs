//! What has been tried of rows' settings so far: the lines that were added or not, the texts that each reader showed or
//! refused, the layouts of both, and the damage done to texts.

use crate::setting_damages::SETTING_DAMAGES;
use crate::setting_kinds::{
    Added, Read, ADD_KINDS, BOUNDS, READ_KINDS, REFUSED_ADD_KINDS, REFUSED_READ_KINDS, SECOND_KINDS,
};
use crate::tally::{add_kinds, print_kinds, unmet, Call};
use oracle::layout::Layout;
use oracle::settings::{Settings, UNKNOWN_EDITION};

/// The calls on settings: the adding one, and the two readers.
const TAKERS: [Call; 3] = [Call::AddSettings, Call::NewestSettings, Call::NewestSettingsOld];

/// What a reader was given.
#[derive(Clone, Copy)]
struct Taken {
    shown: [u64; READ_KINDS.len()],
    refused: [u64; REFUSED_READ_KINDS.len()],
    /// Texts whose newest record has edition 2.
    second: [u64; SECOND_KINDS.len()],
}

pub struct SettingTally {
    added: [u64; ADD_KINDS.len()],
    refused: [u64; REFUSED_ADD_KINDS.len()],
    taken: [Taken; 2],
    bounds: [[u64; BOUNDS.len()]; TAKERS.len()],
    damages: [u64; SETTING_DAMAGES.len()],
}

impl SettingTally {
    pub const NONE: SettingTally = SettingTally {
        added: [0; ADD_KINDS.len()],
        refused: [0; REFUSED_ADD_KINDS.len()],
        taken: [Taken {
            shown: [0; READ_KINDS.len()],
            refused: [0; REFUSED_READ_KINDS.len()],
            second: [0; SECOND_KINDS.len()],
        }; 2],
        bounds: [[0; BOUNDS.len()]; TAKERS.len()],
        damages: [0; SETTING_DAMAGES.len()],
    };

    /// A line was to be added, and answered.
    pub fn add(&mut self, line: &Added) {
        if line.refusal == 0 {
            add_kinds(&ADD_KINDS, &mut self.added, |is_met| is_met(line));
            self.add_layout(0, line.layout);
        } else {
            add_kinds(&REFUSED_ADD_KINDS, &mut self.refused, |is_met| is_met(line));
        }
    }

    /// A text was read by one of the readers, and answered.
    pub fn add_read(&mut self, call: Call, read: &Read) {
        let taker = TAKERS.iter().position(|taker| *taker == call).expect("a reader");
        let (taken, Settings { refusal, layout, .. }) = (&mut self.taken[taker - 1], read.answer);
        if *refusal == UNKNOWN_EDITION || layout.edition == 2 {
            add_kinds(&SECOND_KINDS, &mut taken.second, |is_met| is_met(read));
        } else if *refusal == 0 {
            add_kinds(&READ_KINDS, &mut taken.shown, |is_met| is_met(read));
        } else {
            add_kinds(&REFUSED_READ_KINDS, &mut taken.refused, |is_met| is_met(read));
        }
        if *refusal == 0 {
            self.add_layout(taker, layout);
        }
    }

    /// A layout was written down, or shown.
    fn add_layout(&mut self, taker: usize, layout: &Layout) {
        add_kinds(&BOUNDS, &mut self.bounds[taker], |is_met| is_met(layout));
    }

    /// A text was damaged, in the way that has this number among [`SETTING_DAMAGES`].
    pub fn add_damage(&mut self, kind: usize) {
        self.damages[kind] += 1;
    }

    pub fn print(&self) {
        print_kinds("settings: added, ", &ADD_KINDS, &self.added);
        print_kinds("settings: not added, ", &REFUSED_ADD_KINDS, &self.refused);
        for (taker, taken) in TAKERS[1..].iter().zip(&self.taken) {
            let words = |of: &str| format!("settings: {}{of}, ", taker.name());
            print_kinds(&words(""), &READ_KINDS, &taken.shown);
            print_kinds(&words(" of edition 2"), &SECOND_KINDS, &taken.second);
            print_kinds(&words(""), &REFUSED_READ_KINDS, &taken.refused);
        }
        for (taker, bounds) in TAKERS.iter().zip(&self.bounds) {
            print_kinds(&format!("settings: {}, ", taker.name()), &BOUNDS, bounds);
        }
        print_kinds("settings: ", &SETTING_DAMAGES, &self.damages);
    }

    pub fn never_met(&self) -> Vec<String> {
        let mut never = unmet("a line of settings added,", &ADD_KINDS, &self.added);
        never.extend(unmet("a line of settings not added,", &REFUSED_ADD_KINDS, &self.refused));
        for (taker, taken) in TAKERS[1..].iter().zip(&self.taken) {
            let words = |of: &str| format!("{} of {of},", taker.name());
            never.extend(unmet(&words("a text"), &READ_KINDS, &taken.shown));
            never.extend(unmet(&words("edition 2"), &SECOND_KINDS, &taken.second));
            never.extend(unmet(&words("a refused text"), &REFUSED_READ_KINDS, &taken.refused));
        }
        for (taker, bounds) in TAKERS.iter().zip(&self.bounds) {
            never.extend(unmet(&format!("{} with", taker.name()), &BOUNDS, bounds));
        }
        never.extend(unmet("settings damaged by", &SETTING_DAMAGES, &self.damages));
        never
    }
}

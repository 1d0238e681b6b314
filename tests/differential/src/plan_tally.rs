//! What has been tried of plans of repair so far: the damage done to them, and the kinds of plans, of repairs by them, of
//! plans that were asked for, and of plans of many groups.

use crate::plan_damages::PLAN_DAMAGES;
use crate::plan_kinds::{Drawing, Planned, DRAWING_KINDS, PLAN_KINDS, PLAN_TAKERS, RUN_KINDS};
use crate::tally::{add_kinds, print_kinds, unmet, Call};
use crate::wide_plans::WIDE_KINDS;

/// What a call that takes a plan was given.
#[derive(Clone, Copy)]
struct Taken {
    /// How often each kind of damage was what it had to refuse, and nothing else.
    damages: [u64; PLAN_DAMAGES.len()],
    kinds: [u64; PLAN_KINDS.len()],
}

pub struct PlanTally {
    taken: [Taken; PLAN_TAKERS.len()],
    /// How often a repair by a plan, and a plan that was asked for, was of each kind.
    runs: [u64; RUN_KINDS.len()],
    drawings: [u64; DRAWING_KINDS.len()],
    wide: [u64; WIDE_KINDS.len()],
}

impl PlanTally {
    pub const NONE: PlanTally = PlanTally {
        taken: [Taken { damages: [0; PLAN_DAMAGES.len()], kinds: [0; PLAN_KINDS.len()] };
            PLAN_TAKERS.len()],
        runs: [0; RUN_KINDS.len()],
        drawings: [0; DRAWING_KINDS.len()],
        wide: [0; WIDE_KINDS.len()],
    };

    /// A plan was checked or run, and answered.
    pub fn add(&mut self, call: Call, plan: &Planned) {
        let taker = PLAN_TAKERS.iter().position(|taker| *taker == call).expect("takes a plan");
        let taken = &mut self.taken[taker];
        if let Some(kind) = plan.told_damage() {
            taken.damages[kind] += 1;
        }
        add_kinds(&PLAN_KINDS, &mut taken.kinds, |is_met| is_met(plan));
        for ((_, is_met), count) in RUN_KINDS.iter().zip(&mut self.runs) {
            *count += u64::from(call == Call::RepairBy && is_met(plan));
        }
    }

    /// Our planner was asked for a plan.
    pub fn add_drawing(&mut self, drawing: &Drawing) {
        add_kinds(&DRAWING_KINDS, &mut self.drawings, |is_met| is_met(drawing));
    }

    /// A plan of many groups was tried, of the kind that has this number among [`WIDE_KINDS`].
    pub fn add_wide(&mut self, kind: usize) {
        self.wide[kind] += 1;
    }

    pub fn print(&self) {
        for (taker, taken) in PLAN_TAKERS.iter().zip(&self.taken) {
            let taker = taker.name();
            print_kinds(&format!("plan: {taker:11}"), &PLAN_DAMAGES, &taken.damages);
            print_kinds(&format!("plan: {taker:11}"), &PLAN_KINDS, &taken.kinds);
        }
        print_kinds("plan: repair_by  ", &RUN_KINDS, &self.runs);
        print_kinds("plan: draw_plan  ", &DRAWING_KINDS, &self.drawings);
        for ((name, _), count) in WIDE_KINDS.iter().zip(self.wide) {
            println!("plan of many groups: {name:32}{count:5}");
        }
    }

    pub fn never_met(&self) -> Vec<String> {
        let mut never = Vec::new();
        for (taker, taken) in PLAN_TAKERS.iter().zip(&self.taken) {
            let damaged = format!("{} of a plan damaged by", taker.name());
            let of_kind = format!("{} of a plan with", taker.name());
            never.extend(unmet(&damaged, &PLAN_DAMAGES, &taken.damages));
            never.extend(unmet(&of_kind, &PLAN_KINDS, &taken.kinds));
        }
        never.extend(unmet("repair_by", &RUN_KINDS, &self.runs));
        never.extend(unmet("draw_plan with a buffer,", &DRAWING_KINDS, &self.drawings));
        never.extend(unmet("a plan of many groups,", &WIDE_KINDS, &self.wide));
        never
    }
}

//! `catalogue_runs`: seeded calls on a slice of eight catalogue records.

use super::{line, spaced};
use crate::catalogue::{delete, insert, listing, lookup, Record, Wide};
use crate::draws::Draws;

const CALLS: u64 = 2400;
const CALLS_OF_A_RUN: u64 = 60;
const SLOTS: usize = 8;
const PLACES: usize = 4;

struct State {
    draws: Draws,
    slots: [Record; SLOTS],
    count: u64,
}

/// The whole output.
pub fn output() -> String {
    let mut out = String::new();
    let mut state = State {
        draws: Draws::new(50_260_505),
        slots: [Record::default(); SLOTS],
        count: 0,
    };
    for call in 0..CALLS {
        if call % CALLS_OF_A_RUN == 0 {
            state.slots = [Record::default(); SLOTS];
            state.count = 0;
        }
        state.spoil();
        state.call(&mut out);
        state.show(&mut out);
    }
    out
}

impl State {
    /// One call in 64 comes upon a slot that something else wrote.
    fn spoil(&mut self) {
        if self.draws.draw(64) == 0 {
            let at = self.draws.draw(SLOTS as u64) as usize;
            self.slots[at] = self.drawn_record();
        }
    }

    fn drawn_count(&mut self) -> u64 {
        match self.draws.draw(16) {
            0 => self.draws.draw(12),
            1 => u64::MAX,
            _ => self.count,
        }
    }

    /// Mostly one of three words, at times a very large one.
    fn drawn_word(&mut self) -> u64 {
        match self.draws.draw(16) {
            0 => u64::MAX,
            1 => self.draws.high(),
            _ => self.draws.draw(3),
        }
    }

    fn drawn_wide(&mut self) -> Wide {
        let first = self.drawn_word();
        let second = self.drawn_word();
        Wide { first, second }
    }

    /// Mostly of device 0, so that it often has more files than a listing takes.
    fn drawn_record(&mut self) -> Record {
        let device = match self.draws.draw(4) {
            0 => self.drawn_word(),
            _ => 0,
        };
        let file = self.drawn_wide();
        let cob = self.drawn_wide();
        Record { device, file, cob }
    }

    /// What a call names: a slot's record, one that differs from it in one word
    /// of file or cob, or a drawn one.
    fn named_record(&mut self) -> Record {
        let aim = self.draws.draw(10);
        if aim >= 6 {
            return self.drawn_record();
        }
        let mut record = self.slots[self.draws.draw(SLOTS as u64) as usize];
        match aim {
            2 => record.file.first = self.drawn_word(),
            3 => record.file.second = self.drawn_word(),
            4 => record.cob.first = self.drawn_word(),
            5 => record.cob.second = self.drawn_word(),
            _ => {}
        }
        record
    }

    fn call(&mut self, out: &mut String) {
        let kind = self.draws.draw(10);
        let given = self.drawn_count();
        let named = self.named_record();
        let Record { device, file, cob } = named;
        match kind {
            0..=4 => {
                let answer = insert(&mut self.slots, given, device, file, cob);
                self.changed(out, "insert", given, &named, answer);
            }
            5 | 6 => {
                let answer = delete(&mut self.slots, given, device, file, cob);
                self.changed(out, "delete", given, &named, answer);
            }
            7 => {
                let (refusal, found) = lookup(&self.slots, given, device, file);
                let asked = [given, device, file.first, file.second];
                let answer = [refusal, found.first, found.second];
                line!(out, "lookup {} {}", spaced(&asked), spaced(&answer));
            }
            8 => self.list(out, given, device, file),
            _ => self.list(out, given, device, Wide::default()),
        }
    }

    /// Prints an insert or a delete, and keeps the count of an accepted one.
    fn changed(
        &mut self,
        out: &mut String,
        label: &str,
        given: u64,
        named: &Record,
        (refusal, after): (u64, u64),
    ) {
        let answer = spaced(&[refusal, after]);
        line!(out, "{label} {given} {} {answer}", spaced(&words(named)));
        if refusal == 0 {
            self.count = after;
        }
    }

    fn list(&self, out: &mut String, given: u64, device: u64, first: Wide) {
        let seven = Wide {
            first: 7,
            second: 7,
        };
        let mut cobs = [seven; PLACES];
        let (refusal, listed) = listing(&self.slots, given, device, first, &mut cobs);
        let (more, next) = (u64::from(listed.more), listed.next);
        let asked = [given, device, first.first, first.second];
        let report = [refusal, listed.count, more, next.first, next.second];
        let cobs = cobs.map(|cob| [cob.first, cob.second]);
        line!(
            out,
            "listing {} {} {}",
            spaced(&asked),
            spaced(&report),
            spaced(cobs.as_flattened())
        );
    }

    fn show(&self, out: &mut String) {
        let slots = self.slots.map(|slot| words(&slot));
        line!(out, "slots {} {}", self.count, spaced(slots.as_flattened()));
    }
}

/// A record as it is printed.
fn words(record: &Record) -> [u64; 5] {
    let Record { device, file, cob } = record;
    [*device, file.first, file.second, cob.first, cob.second]
}

//! The catalogue's calls on the library; on purpose with a fault in a rule of its numbers of two words. A library with
//! such a fault is made of the right one: what it is asked for, or what it answers, is another.

use crate::bench::Bench;
use crate::lent::Lent;
use crate::spoil::Spoil;
use splicebell::raw::{
    self, splicebell_changed, splicebell_entry, splicebell_found, splicebell_key, splicebell_page,
    splicebell_wide,
};

type Slots = Lent<splicebell_entry>;

/// What a library with a fault would do.
#[derive(Clone, Copy, Debug, PartialEq, Eq)]
pub enum Rule {
    /// Files are ordered by their second words, and by their first where those are equal.
    SecondWordFirst,
    /// Files are equal where their first words are.
    FirstWordAlone,
    /// Where a key is looked for, the first word of its file is not looked at.
    FirstWordIgnored,
    /// Delete compares the first word of the cob alone.
    HalfCob,
    /// The next file number has its words exchanged.
    NextExchanged,
    /// Of the slot that delete frees, one word alone becomes zero.
    HalfFreed,
}

/// The library, or one with a fault.
#[derive(Clone, Copy)]
pub struct Library(Option<Rule>);

fn exchanged(w: splicebell_wide) -> splicebell_wide {
    splicebell_wide { first: w.second, second: w.first }
}

fn with_file_exchanged(r: &splicebell_entry) -> splicebell_entry {
    splicebell_entry { file: exchanged(r.file), ..*r }
}

impl Library {
    pub fn of(bench: &Bench) -> Library {
        match bench.spoil {
            Some(Spoil::Rule(rule)) => Library(Some(rule)),
            _ => Library(None),
        }
    }

    /// What the right library is to be asked for, so that it answers as one that compares too little, or else.
    fn taken_for(self, slots: &Slots, n: usize, asked: splicebell_entry) -> splicebell_entry {
        let used = &slots.contents()[..n.min(slots.len())];
        let first_like = |is_like: fn(&splicebell_entry, &splicebell_entry) -> bool| {
            let mut same_device = used.iter().filter(|slot| slot.device == asked.device);
            same_device.find(|slot| is_like(slot, &asked)).copied().unwrap_or(asked)
        };
        match self.0 {
            Some(Rule::SecondWordFirst) => with_file_exchanged(&asked),
            Some(Rule::FirstWordAlone) => {
                let taken = first_like(|slot, asked| slot.file.first == asked.file.first);
                splicebell_entry { file: taken.file, ..asked }
            }
            Some(Rule::FirstWordIgnored) => {
                let taken = first_like(|slot, asked| slot.file.second == asked.file.second);
                splicebell_entry { file: taken.file, ..asked }
            }
            Some(Rule::HalfCob) => first_like(|slot, asked| {
                (slot.file, slot.cob.first) == (asked.file, asked.cob.first)
            }),
            _ => asked,
        }
    }

    fn key_taken_for(self, slots: &Slots, n: usize, key: splicebell_key) -> splicebell_key {
        let splicebell_key { device, file } = key;
        let asked = splicebell_entry { device, file, cob: splicebell_wide::default() };
        splicebell_key { device, file: self.taken_for(slots, n, asked).file }
    }

    /// Makes a call on the slots, or on a copy with the words of its files exchanged, which then goes back to the slots.
    fn call<T>(self, slots: &Slots, call: impl FnOnce(*mut splicebell_entry) -> T) -> T {
        if self.0 != Some(Rule::SecondWordFirst) {
            return call(slots.pointer());
        }
        let mut copy: Vec<_> = slots.contents().iter().map(with_file_exchanged).collect();
        let answer = call(copy.as_mut_ptr());
        for (i, slot) in copy.iter().enumerate().filter(|_| !slots.is_sealed()) {
            // SAFETY: inside the slots, which can be stored to.
            unsafe { *slots.pointer().add(i) = with_file_exchanged(slot) };
        }
        answer
    }

    pub fn lookup(self, slots: &Slots, n: usize, key: splicebell_key) -> splicebell_found {
        let key = self.key_taken_for(slots, n, key);
        // SAFETY: the pointer leads to that many records.
        self.call(slots, |at| unsafe { raw::splicebell_lookup(at, slots.len(), n, key) })
    }

    pub fn insert(self, slots: &Slots, n: usize, record: splicebell_entry) -> splicebell_changed {
        let taken = splicebell_entry { cob: record.cob, ..self.taken_for(slots, n, record) };
        // SAFETY: the pointer leads to that many records.
        self.call(slots, |at| unsafe { raw::splicebell_insert(at, slots.len(), n, taken) })
    }

    pub fn delete(self, slots: &Slots, n: usize, record: splicebell_entry) -> splicebell_changed {
        let before = slots.contents().to_vec();
        let taken = self.taken_for(slots, n, record);
        // SAFETY: the pointer leads to that many records.
        let answer =
            self.call(slots, |at| unsafe { raw::splicebell_delete(at, slots.len(), n, taken) });
        if self.0 == Some(Rule::HalfFreed) && answer.refusal == 0 {
            let freed = splicebell_entry { device: 0, ..before[answer.count] };
            // SAFETY: inside the slots, of which one was freed.
            unsafe { *slots.pointer().add(answer.count) = freed };
        }
        answer
    }

    pub fn listing(
        self,
        slots: &Slots,
        n: usize,
        from: splicebell_key,
        out: &Lent<splicebell_wide>,
    ) -> splicebell_page {
        let from = self.key_taken_for(slots, n, from);
        // SAFETY: both pointers lead to that many elements, and the buffers lie apart.
        let mut page = self.call(slots, |at| unsafe {
            raw::splicebell_listing(at, slots.len(), n, from, out.pointer(), out.len())
        });
        if matches!(self.0, Some(Rule::SecondWordFirst | Rule::NextExchanged)) {
            page.next = exchanged(page.next);
        }
        page
    }
}

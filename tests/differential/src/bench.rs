//! Where a call is made on both sides: buffers are lent, answers and bytes compared, differences reported.

use crate::draws::Draws;
use crate::edition_kinds::Given;
use crate::edition_rules;
use crate::lent::{Arena, Lent};
use crate::spoil::Spoil;
use crate::tally::{Call, Tally};
use oracle::layout::Layout;
use splicebell::raw::splicebell_layout;
use std::fmt::Debug;
use std::sync::atomic::{AtomicU64, Ordering::Relaxed};

/// The call that is being made, for a report that comes from a fault.
pub static SEED: AtomicU64 = AtomicU64::new(0);
pub static ROUND: AtomicU64 = AtomicU64::new(0);
pub static CALLS: AtomicU64 = AtomicU64::new(0);

/// Says which call it is, and how to see it again.
pub fn tell_where() {
    let (seed, round, calls) = (SEED.load(Relaxed), ROUND.load(Relaxed), CALLS.load(Relaxed));
    eprintln!("seed {seed}, round {round}, call {calls}");
    eprintln!("repeat with: tests/differential/run --seed {seed} --round {round}");
}

pub struct Bench {
    pub draws: Draws,
    pub tally: Tally,
    arenas: [Arena; 3],
    lent: usize,
    /// Whether every call is printed before it is made.
    tells: bool,
    pub spoil: Option<Spoil>,
}

impl Bench {
    pub fn new(heap: bool, tells: bool, spoil: Option<Spoil>) -> Bench {
        let arena = || if heap { Arena::Heap } else { Arena::pages() };
        Bench {
            draws: Draws::new(0, 0),
            tally: Tally::NONE,
            arenas: [arena(), arena(), arena()],
            lent: 0,
            tells,
            spoil,
        }
    }

    /// Starts one call; `inputs` tells all that it is given.
    pub fn begin<'a>(&mut self, call: Call, inputs: &'a dyn Fn() -> String) -> Trial<'a> {
        CALLS.fetch_add(1, Relaxed);
        self.lent = 0;
        if self.tells {
            eprintln!("{}: {}", call.name(), inputs());
        }
        Trial { call, inputs, layout: None, differences: Vec::new(), spoil: self.spoil }
    }

    /// Lends a copy of `contents`, to be read, to the call that was begun.
    pub fn lend<T: Copy>(&mut self, contents: &[T]) -> Lent<T> {
        let mut lent = self.lend_mut(contents);
        if self.draws.one_in(8) {
            lent.seal();
        }
        lent
    }

    /// Lends a copy of `contents` that the call may change. No call takes more than three buffers.
    pub fn lend_mut<T: Copy>(&mut self, contents: &[T]) -> Lent<T> {
        self.lent += 1;
        self.arenas[self.lent - 1].lend(contents, &mut self.draws)
    }

    /// Ends the call: counts it by the model's refusal, or reports what differed and ends the program.
    pub fn end(&mut self, trial: Trial, refusal: u64) {
        self.tally.add(trial.call, refusal);
        if let Some(layout) = &trial.layout {
            self.tally.editions.add(&Given { call: trial.call.name(), layout, refusal });
        }
        if !trial.differences.is_empty() {
            eprintln!("DIFFERENCE in {}", trial.call.name());
            tell_where();
            eprintln!("inputs: {}", (trial.inputs)());
            trial.differences.iter().for_each(|difference| eprintln!("{difference}"));
            std::process::exit(1);
        }
    }
}

/// One call: what differed between the library and the model.
pub struct Trial<'a> {
    call: Call,
    inputs: &'a dyn Fn() -> String,
    layout: Option<Layout>,
    differences: Vec<String>,
    spoil: Option<Spoil>,
}

impl Trial<'_> {
    /// The layout as the library is given it.
    pub fn layout(&mut self, y: &Layout) -> splicebell_layout {
        self.layout = Some(*y);
        edition_rules::lent(self.spoil, self.call, y)
    }

    /// Compares one number of the answer.
    pub fn number(&mut self, name: &str, mut answered: u64, expected: u64) {
        if self.spoil == Some(Spoil::Answer) {
            answered ^= 1;
        }
        if answered != expected {
            self.differences
                .push(format!("{name}: answered {answered}, the model says {expected}"));
        }
    }

    /// Compares a flag by its byte: the library might answer one that is neither 0 nor 1.
    pub fn flag(&mut self, name: &str, answered: &bool, expected: bool) {
        // SAFETY: a bool is one byte.
        let byte = unsafe { *std::ptr::from_ref(answered).cast::<u8>() };
        self.number(name, u64::from(byte), u64::from(expected));
    }

    /// Compares a buffer of which the call fills the first `length` bytes, and no others.
    pub fn beginning(&mut self, name: &str, lent: &Lent<u8>, expected: &[u8], length: usize) {
        if let Some(spoil) = self.spoil {
            spoil.rest(lent, length);
        }
        self.buffer(name, lent, expected);
    }

    /// Compares every byte of a lent buffer, and the guards on both its sides.
    pub fn buffer<T: Copy + PartialEq + Debug>(
        &mut self,
        name: &str,
        lent: &Lent<T>,
        expected: &[T],
    ) {
        if self.spoil.is_some_and(|spoil| spoil.buffer(lent)) {
            self.spoil = None;
        }
        let now = lent.contents();
        if now != expected {
            let at = (0..now.len()).find(|i| now[*i] != expected[*i]).expect("of one length");
            self.differences
                .push(format!("{name}[{at}]: {:?}, the model says {:?}", now[at], expected[at]));
        }
        if let Some(guard) = lent.changed_guard() {
            self.differences.push(format!("{name}: a byte {guard} was changed"));
        }
    }
}

/// How much of a buffer is told in a report: the round of a long one can be repeated.
const SHOWN: usize = 4096;

/// The bytes of a buffer in a report.
pub fn hex(bytes: &[u8]) -> String {
    let digits: String = bytes.iter().take(SHOWN).map(|byte| format!("{byte:02x}")).collect();
    let rest = if bytes.len() > SHOWN { ".." } else { "" };
    format!("({} bytes) {digits}{rest}", bytes.len())
}

/// The numbers of a buffer in a report.
pub fn numbers(all: &[u64]) -> String {
    let shown: Vec<String> = all.iter().take(SHOWN).map(u64::to_string).collect();
    let rest = if all.len() > SHOWN { " .." } else { "" };
    format!("({} numbers) {}{rest}", all.len(), shown.join(" "))
}

/// The characters of a text in a report.
pub fn quoted(text: &[u8]) -> String {
    let rest = if text.len() > SHOWN { ".." } else { "" };
    format!("({} bytes) \"{}\"{rest}", text.len(), text[..text.len().min(SHOWN)].escape_ascii())
}

//! The catalogue, with all tested that a call must refuse: one loop over the records in use tests that their keys rise
//! and counts those below the key that is asked for.
//!
//! Keys are compared as a device and a number of 128 bits, with no branch. On a Neoverse-N1 the order that `derive` gives
//! two words took a fifth longer. The standard library's test of the order and then its search by halves took 0.67 to
//! 0.86 of the time; but one loop is what ours is to be compared with.

/// The first word is the more significant.
#[repr(C)]
#[derive(Clone, Copy, Default, PartialEq)]
pub struct Wide {
    first: u64,
    second: u64,
}

#[repr(C)]
#[derive(Clone, Copy, Default, PartialEq)]
pub struct Entry {
    device: u64,
    file: Wide,
    cob: Wide,
}

#[repr(C)]
#[derive(Clone, Copy)]
pub struct Key {
    device: u64,
    file: Wide,
}

#[repr(C)]
pub struct Found {
    refusal: u64,
    cob: Wide,
}

#[repr(C)]
pub struct Changed {
    refusal: u64,
    count: usize,
}

#[repr(C)]
pub struct Page {
    refusal: u64,
    count: usize,
    more: bool,
    next: Wide,
}

const BAD: u64 = 9;
const FULL: u64 = 10;
const NOT_THERE: u64 = 11;

impl Key {
    fn order(self) -> (u64, u128) {
        (self.device, u128::from(self.file.first) << 64 | u128::from(self.file.second))
    }
}

impl Entry {
    fn key(&self) -> Key {
        Key { device: self.device, file: self.file }
    }
}

/// How many of the first n keys are below this one; none where n is above the slice or the keys do not rise.
fn place(slots: &[Entry], n: usize, key: Key) -> Option<usize> {
    let mut below = 0;
    let mut last = None;
    for record in slots.get(..n)? {
        let now = record.key().order();
        if last.is_some_and(|last| last >= now) {
            return None;
        }
        below += usize::from(now < key.order());
        last = Some(now);
    }
    Some(below)
}

/// Whether the key stands at its place.
fn stands(records: &[Entry], at: usize, key: Key) -> bool {
    records.get(at).is_some_and(|record| record.key().order() == key.order())
}

pub fn lookup(slots: &[Entry], n: usize, key: Key) -> Found {
    match place(slots, n, key) {
        None => Found { refusal: BAD, cob: Wide::default() },
        Some(at) if stands(&slots[..n], at, key) => Found { refusal: 0, cob: slots[at].cob },
        Some(_) => Found { refusal: NOT_THERE, cob: Wide::default() },
    }
}

pub fn insert(slots: &mut [Entry], n: usize, record: Entry) -> Changed {
    let Some(at) = place(slots, n, record.key()) else {
        return Changed { refusal: BAD, count: n };
    };
    if stands(&slots[..n], at, record.key()) {
        slots[at].cob = record.cob;
        return Changed { refusal: 0, count: n };
    }
    if n == slots.len() {
        return Changed { refusal: FULL, count: n };
    }
    slots.copy_within(at..n, at + 1);
    slots[at] = record;
    Changed { refusal: 0, count: n + 1 }
}

pub fn delete(slots: &mut [Entry], n: usize, record: Entry) -> Changed {
    match place(slots, n, record.key()) {
        None => Changed { refusal: BAD, count: n },
        Some(at) if slots[..n].get(at) == Some(&record) => {
            slots.copy_within(at + 1..n, at);
            slots[n - 1] = Entry::default();
            Changed { refusal: 0, count: n - 1 }
        }
        Some(_) => Changed { refusal: NOT_THERE, count: n },
    }
}

pub fn listing(slots: &[Entry], n: usize, from: Key, out: &mut [Wide]) -> Page {
    let Some(at) = place(slots, n, from) else {
        out.fill(Wide::default());
        return Page { refusal: BAD, count: 0, more: false, next: Wide::default() };
    };
    let mut records = slots[at..n].iter().take_while(|record| record.device == from.device);
    let mut count = 0;
    for (cob, record) in out.iter_mut().zip(&mut records) {
        *cob = record.cob;
        count += 1;
    }
    let next = records.next();
    Page { refusal: 0, count, more: next.is_some(), next: next.map_or(Wide::default(), |r| r.file) }
}

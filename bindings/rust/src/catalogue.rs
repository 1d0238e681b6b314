use crate::calls;
use crate::raw::{splicebell_entry, splicebell_key, splicebell_wide};
use crate::refusal::{answered, Result};
use std::fmt;

/// One record of the catalogue: the component object that holds a file's part on a device.
///
/// It lies in memory as the library reads it, so files and cobs are kept as pairs of words.
///
/// ```
/// use splicebell::{Entry, Key};
///
/// let entry = Entry::new(3, 1 << 64, u128::MAX);
/// assert_eq!(entry.key(), Key { device: 3, file: 1 << 64 });
/// assert_eq!(entry.cob(), u128::MAX);
/// ```
#[repr(C)]
#[derive(Clone, Copy, Default, PartialEq, Eq, Hash)]
pub struct Entry {
    pub(crate) device: u64,
    pub(crate) file: splicebell_wide,
    pub(crate) cob: splicebell_wide,
}

/// What a record is found by.
#[derive(Clone, Copy, Debug, Default, PartialEq, Eq, Hash, PartialOrd, Ord)]
pub struct Key {
    /// The device.
    pub device: u64,
    /// The file.
    pub file: u128,
}

/// What a listing answers beside the cobs.
#[derive(Clone, Copy, Debug, PartialEq, Eq, Hash)]
pub struct Page {
    /// How many cobs were written.
    pub count: usize,
    /// The file number to go on from, if more remain.
    pub next: Option<u128>,
}

/// A catalogue: lent slots, of which the first `count` are in use, strictly rising by key.
///
/// ```
/// use splicebell::{Catalogue, Entry, Key, Refusal};
///
/// let mut slots = [Entry::default(); 2];
/// let mut catalogue = Catalogue::new(&mut slots, 0);
/// catalogue.insert(Entry::new(3, 8, 80))?;
/// catalogue.insert(Entry::new(3, 5, 50))?;
/// assert_eq!(catalogue.lookup(Key { device: 3, file: 5 })?, 50);
/// assert_eq!(catalogue.insert(Entry::new(4, 1, 1)), Err(Refusal::CatalogueFull));
///
/// let mut cobs = [0; 1];
/// let page = catalogue.listing(Key { device: 3, file: 0 }, &mut cobs)?;
/// assert_eq!((page.count, cobs[0], page.next), (1, 50, Some(8)));
/// # Ok::<(), Refusal>(())
/// ```
#[derive(Debug)]
pub struct Catalogue<'a> {
    slots: &'a mut [Entry],
    count: usize,
}

impl<'a> Catalogue<'a> {
    /// A catalogue whose first `count` slots are in use.
    pub fn new(slots: &'a mut [Entry], count: usize) -> Catalogue<'a> {
        Catalogue { slots, count }
    }

    /// How many slots are in use.
    pub fn count(&self) -> usize {
        self.count
    }

    /// All slots, also those that are not in use.
    pub fn slots(&self) -> &[Entry] {
        self.slots
    }

    /// The cob of a key.
    pub fn lookup(&self, key: Key) -> Result<u128> {
        let found = calls::lookup(self.slots, self.count, key.to_raw());
        answered(found.refusal, found.cob.into())
    }

    /// Stores a record; one of an equal key gets the new cob.
    pub fn insert(&mut self, record: Entry) -> Result<()> {
        let changed = calls::insert(self.slots, self.count, record.to_raw());
        self.count = changed.count;
        answered(changed.refusal, ())
    }

    /// Takes out the record that matches in all three numbers.
    pub fn delete(&mut self, record: Entry) -> Result<()> {
        let changed = calls::delete(self.slots, self.count, record.to_raw());
        self.count = changed.count;
        answered(changed.refusal, ())
    }

    /// Writes the cobs of a device from a file on, in file order, as many as fit; the rest of `out` stays.
    /// Refused: `out` is all zeros.
    pub fn listing(&self, from: Key, out: &mut [u128]) -> Result<Page> {
        let page = calls::listing(self.slots, self.count, from.to_raw(), out);
        let next = page.more.then_some(page.next.into());
        answered(page.refusal, Page { count: page.count, next })
    }
}

impl Entry {
    /// The record of a file's cob on a device.
    pub fn new(device: u64, file: u128, cob: u128) -> Entry {
        Entry { device, file: file.into(), cob: cob.into() }
    }

    /// The device.
    pub fn device(&self) -> u64 {
        self.device
    }

    /// The file.
    pub fn file(&self) -> u128 {
        self.file.into()
    }

    /// The component object.
    pub fn cob(&self) -> u128 {
        self.cob.into()
    }

    /// What the record is found by.
    pub fn key(&self) -> Key {
        Key { device: self.device, file: self.file() }
    }

    fn to_raw(self) -> splicebell_entry {
        let Entry { device, file, cob } = self;
        splicebell_entry { device, file, cob }
    }
}

/// Shows the numbers, not the words that they are kept in.
impl fmt::Debug for Entry {
    fn fmt(&self, f: &mut fmt::Formatter<'_>) -> fmt::Result {
        f.debug_struct("Entry")
            .field("device", &self.device)
            .field("file", &self.file())
            .field("cob", &self.cob())
            .finish()
    }
}

impl Key {
    fn to_raw(self) -> splicebell_key {
        splicebell_key { device: self.device, file: self.file.into() }
    }
}

impl From<u128> for splicebell_wide {
    fn from(number: u128) -> splicebell_wide {
        splicebell_wide { first: (number >> 64) as u64, second: number as u64 }
    }
}

impl From<splicebell_wide> for u128 {
    fn from(pair: splicebell_wide) -> u128 {
        u128::from(pair.first) << 64 | u128::from(pair.second)
    }
}

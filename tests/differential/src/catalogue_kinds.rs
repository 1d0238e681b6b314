//! What calls on catalogues are like: each kind by its name, told of a call as it was made and answered.

use crate::catalogue_draws::Catalogue;
use crate::tally::Call;
use oracle::catalogue::{Listed, Record, Wide};

/// A call, and what the model answered. The record's key is that of a lookup, or where a listing begins.
pub struct Asked<'a> {
    pub call: Call,
    pub before: &'a Catalogue,
    pub asked: Record,
    pub refusal: u64,
    /// How many places a listing had, and its report.
    pub listed: Option<(usize, Listed)>,
}

type Test = fn(&Asked) -> bool;

/// A library that is wrong for one of these may be right for all others, so each must be met.
pub const CATALOGUE_KINDS: [(&str, Test); 36] = [
    ("lookup: first word differs", |a| a.is(Call::Lookup, 11) && a.is_beside(first_alone)),
    ("lookup: second word differs", |a| a.is(Call::Lookup, 11) && a.is_beside(second_alone)),
    ("lookup: words exchanged", |a| a.is(Call::Lookup, 11) && a.is_beside(are_exchanged)),
    ("insert: first word differs", |a| a.opens_a_slot() && a.is_beside(first_alone)),
    ("insert: second word differs", |a| a.opens_a_slot() && a.is_beside(second_alone)),
    ("insert: words exchanged", |a| a.opens_a_slot() && a.is_beside(are_exchanged)),
    ("insert: replaces, none is free", |a| {
        a.is(Call::Insert, 0) && a.found().is_some() && a.used().len() == a.before.slots.len()
    }),
    ("insert: replaces half the cob", |a| {
        a.is(Call::Insert, 0) && a.is_cob_beside(|x, y| first_alone(x, y) || second_alone(x, y))
    }),
    ("insert: 10, beside a file", |a| {
        a.is(Call::Insert, 10) && a.is_beside(|x, y| first_alone(x, y) || second_alone(x, y))
    }),
    ("delete: first word differs", |a| a.is(Call::Delete, 11) && a.is_beside(first_alone)),
    ("delete: second word differs", |a| a.is(Call::Delete, 11) && a.is_beside(second_alone)),
    ("delete: cob's first differs", |a| a.is(Call::Delete, 11) && a.is_cob_beside(first_alone)),
    ("delete: cob's second differs", |a| a.is(Call::Delete, 11) && a.is_cob_beside(second_alone)),
    ("delete: cob exchanged", |a| a.is(Call::Delete, 11) && a.is_cob_beside(are_exchanged)),
    ("delete: five words to clear", |a| a.is(Call::Delete, 0) && a.ends_in_no_zero()),
    ("delete: the last one", |a| a.is(Call::Delete, 0) && a.used().len() == 1),
    ("found: (0,0)", |a| a.finds(|file| (file.first, file.second) == (0, 0))),
    ("found: equal words", |a| a.finds(|file| file.first == file.second && file.first > 0)),
    ("found: ones in the first word", |a| a.finds(|file| file.first == u64::MAX)),
    ("found: ones in the second word", |a| a.finds(|file| file.second == u64::MAX)),
    ("found: above 2^63 in a word", |a| a.finds(|file| (file.first | file.second) >> 63 == 1)),
    ("files alike in 32 bits", |a| a.refusal != 9 && a.is_beside(are_alike)),
    ("rising, second words fall", |a| a.refusal != 9 && a.has(|x, y| x.second > y.second)),
    ("rising, by the second alone", |a| a.refusal != 9 && a.has(|x, y| x.first == y.first)),
    ("9: the first word alone falls", |a| a.has_fallen(first_alone)),
    ("9: the second word alone falls", |a| a.has_fallen(second_alone)),
    ("9: first falls, second rises", |a| a.has_fallen(|x, y| x.second < y.second)),
    ("9: equal keys", |a| a.has_fallen(|x, y| x == y)),
    ("9: one above the slots", |a| a.before.n == a.before.slots.len() as u64 + 1),
    ("9: a count of 2^64-1", |a| a.before.n == u64::MAX),
    ("listing: no place, more", |a| a.lists(|room, page| room == 0 && page.more)),
    ("listing: more, next (0,0)", |a| a.lists(|_, page| page.more && page.next == Wide::default())),
    ("listing: next of two words", |a| a.lists(|_, page| page.next.first != page.next.second)),
    ("listing: just as many places", |a| {
        a.lists(|room, page| room > 0 && page.count == room as u64 && !page.more)
    }),
    ("listing: places that stay", |a| {
        a.lists(|room, page| page.count > 0 && page.count < room as u64)
    }),
    ("listing: a lower second word", |a| a.lists_a_lower_second()),
];

fn first_alone(x: &Wide, y: &Wide) -> bool {
    x.first != y.first && x.second == y.second
}

fn second_alone(x: &Wide, y: &Wide) -> bool {
    x.first == y.first && x.second != y.second
}

fn are_exchanged(x: &Wide, y: &Wide) -> bool {
    x != y && (x.first, x.second) == (y.second, y.first)
}

/// Different, though the lower halves of their words are equal.
fn are_alike(x: &Wide, y: &Wide) -> bool {
    x != y && x.first as u32 == y.first as u32 && x.second as u32 == y.second as u32
}

impl Asked<'_> {
    fn is(&self, call: Call, refusal: u64) -> bool {
        self.call == call && self.refusal == refusal
    }

    /// The records that the count names, as far as there are slots.
    fn used(&self) -> &[Record] {
        let slots = &self.before.slots;
        &slots[..slots.len().min(self.before.n as usize)]
    }

    /// The records of the device that is asked for.
    fn of_device(&self) -> impl Iterator<Item = &Record> {
        self.used().iter().filter(|r| r.device == self.asked.device)
    }

    /// The record of the key that is asked for.
    fn found(&self) -> Option<&Record> {
        self.of_device().find(|r| r.file == self.asked.file)
    }

    /// Whether the file that is asked for stands so to one that is there.
    fn is_beside(&self, is_so: fn(&Wide, &Wide) -> bool) -> bool {
        self.of_device().any(|r| is_so(&self.asked.file, &r.file))
    }

    /// Whether the key is there, and the cobs stand so to each other.
    fn is_cob_beside(&self, is_so: fn(&Wide, &Wide) -> bool) -> bool {
        self.found().is_some_and(|r| is_so(&self.asked.cob, &r.cob))
    }

    fn opens_a_slot(&self) -> bool {
        self.is(Call::Insert, 0) && self.found().is_none()
    }

    /// Whether a lookup finds a file of this kind.
    fn finds(&self, is_so: fn(&Wide) -> bool) -> bool {
        self.is(Call::Lookup, 0) && is_so(&self.asked.file)
    }

    /// Whether no word of the last record in use is zero, so that each one which is not cleared shows.
    fn ends_in_no_zero(&self) -> bool {
        self.used().last().is_some_and(|Record { device, file, cob }| {
            [*device, file.first, file.second, cob.first, cob.second].iter().all(|word| *word > 0)
        })
    }

    /// Whether the files of two neighbours of one device stand so to each other.
    fn has(&self, is_so: impl Fn(&Wide, &Wide) -> bool) -> bool {
        let is_met =
            |two: &[Record]| two[0].device == two[1].device && is_so(&two[0].file, &two[1].file);
        self.used().windows(2).any(is_met)
    }

    /// Whether the count is good, and the files of two neighbours that do not rise stand so to each other.
    fn has_fallen(&self, is_so: fn(&Wide, &Wide) -> bool) -> bool {
        let is_counted = self.before.n <= self.before.slots.len() as u64;
        is_counted && self.has(|x, y| x >= y && is_so(x, y))
    }

    /// Whether a listing is accepted and its places and report are of this kind.
    fn lists(&self, is_so: fn(usize, &Listed) -> bool) -> bool {
        self.refusal == 0 && self.listed.as_ref().is_some_and(|(room, page)| is_so(*room, page))
    }

    /// Whether a file is listed whose second word is below that of the file where the listing begins.
    fn lists_a_lower_second(&self) -> bool {
        let begins = self.asked.file;
        let shown = self.listed.as_ref().map_or(0, |(_, page)| page.count as usize);
        let mut listed = self.of_device().filter(|r| r.file >= begins).take(shown);
        self.refusal == 0 && listed.any(|r| r.file.second < begins.second)
    }
}

//! Catalogues as they are lent: good ones, ones with one thing wrong, and the records that they are asked for.

use crate::draws::Draws;
use oracle::catalogue::{Record, Wide};

/// The slots that are lent, and how many are said to be in use.
#[derive(Clone)]
pub struct Catalogue {
    pub slots: Vec<Record>,
    pub n: u64,
    /// What its devices and files are made of: few words, so that keys meet again, or differ in one word alone.
    words: Vec<u64>,
}

fn words(draws: &mut Draws) -> Vec<u64> {
    let word = |draws: &mut Draws| match draws.below(6) {
        0 | 1 => draws.edge(),
        2 => u64::MAX,
        3 => 0,
        _ => draws.below(3),
    };
    (0..draws.between(2, 8)).map(|_| word(draws)).collect()
}

/// Mostly a few devices, so that one of them has many files.
fn record(draws: &mut Draws, words: &[u64]) -> Record {
    let device = if draws.one_in(3) { draws.pick(words) } else { words[0] };
    let file = Wide { first: draws.pick(words), second: draws.pick(words) };
    Record { device, file, cob: cob(draws) }
}

fn cob(draws: &mut Draws) -> Wide {
    Wide { first: draws.word(), second: draws.word() }
}

/// Where a listing begins: mostly at a file, or where the files with its first word begin or end.
pub fn listed_from(draws: &mut Draws, file: Wide) -> Wide {
    match draws.below(5) {
        0 => Wide::default(),
        1 => Wide { second: 0, ..file },
        2 => Wide { second: u64::MAX, ..file },
        _ => file,
    }
}

impl Catalogue {
    /// An empty one, a good one, or one that is full, with anything in the free slots.
    pub fn drawn(draws: &mut Draws) -> Catalogue {
        let words = words(draws);
        let most = if draws.one_in(20) { 200 } else { 12 };
        let length = draws.between(0, most);
        let mut slots: Vec<Record> = (0..length).map(|_| record(draws, &words)).collect();
        slots.sort_by_key(|r| (r.device, r.file));
        slots.dedup_by_key(|r| (r.device, r.file));
        let some = draws.between(0, slots.len() as u64) as usize;
        let kept = draws.pick(&[0, some, slots.len(), slots.len()]);
        slots.truncate(kept);
        let full = draws.one_in(4);
        while !full && (slots.len() as u64) < length {
            slots.push(record(draws, &words));
        }
        Catalogue { slots, n: kept as u64, words }
    }

    /// The catalogue with a count above the slots, or with something else in a key: mostly the keys then do not rise.
    pub fn damaged(&self, draws: &mut Draws) -> Catalogue {
        let mut other = self.clone();
        let edge = draws.edge();
        if self.n < 2 || draws.one_in(4) {
            other.n = draws.pick(&[self.slots.len() as u64 + 1, u64::MAX, edge]);
            return other;
        }
        let second = draws.between(1, self.n - 1) as usize;
        let first = second - draws.size(second as u64) as usize;
        match draws.below(4) {
            0 => other.slots.swap(first, second),
            1 => other.slots.swap(second - 1, second),
            2 => other.slots[second] = Record { cob: cob(draws), ..other.slots[first] },
            _ => other.slots[second].file = self.beside(draws, other.slots[second].file),
        }
        other
    }

    /// A record to be asked for: mostly one that is there, or one that differs from it in one number or word.
    pub fn asked(&self, draws: &mut Draws) -> Record {
        if self.slots.is_empty() || draws.one_in(4) {
            return record(draws, &self.words);
        }
        let used = (self.n as usize).clamp(1, self.slots.len());
        let known =
            if draws.one_in(8) { draws.pick(&self.slots) } else { draws.pick(&self.slots[..used]) };
        match draws.below(12) {
            0 => Record { device: self.other(draws, known.device), ..known },
            1 => Record { cob: cob(draws), ..known },
            2..=4 => Record { file: self.beside(draws, known.file), ..known },
            5 | 6 => Record { cob: self.beside(draws, known.cob), ..known },
            _ => known,
        }
    }

    /// A pair that differs from this one in one word, or has its words exchanged.
    fn beside(&self, draws: &mut Draws, Wide { first, second }: Wide) -> Wide {
        match draws.below(5) {
            0 | 1 => Wide { first: self.other(draws, first), second },
            2 | 3 => Wide { first, second: self.other(draws, second) },
            _ => Wide { first: second, second: first },
        }
    }

    /// A word one above or below, one with another bit, or any of the catalogue's.
    fn other(&self, draws: &mut Draws, word: u64) -> u64 {
        match draws.below(4) {
            0 => word.wrapping_add(1),
            1 => word.wrapping_sub(1),
            2 => word ^ (1 << draws.below(64)),
            _ => draws.pick(&self.words),
        }
    }

    pub fn told(&self) -> String {
        let pair = |w: Wide| format!("{}:{}", w.first, w.second);
        let slot = |r: &Record| format!("({} {} {})", r.device, pair(r.file), pair(r.cob));
        let slots: Vec<String> = self.slots.iter().map(slot).collect();
        format!("n {} of {} slots {}", self.n, slots.len(), slots.join(" "))
    }
}

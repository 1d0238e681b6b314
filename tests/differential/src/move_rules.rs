//! Moves between editions on the library; on purpose with a fault in a rule of theirs. A library with such a fault is made of
//! the right one: the record that it is given is another, or what it answers and leaves.

use crate::bench::Bench;
use crate::count_rules;
use crate::layouts::is_light;
use crate::lent::Lent;
use crate::move_kinds::{contents, unit, Content};
use crate::moves::file_of;
use crate::pools::Pool;
use crate::spoil::Spoil;
use oracle::group::{data_from, encoded, Bytes};
use oracle::layout::Layout;
use oracle::permutation::permutation;
use oracle::place::place;
use oracle::pool::{repair, write, Record};
use oracle::pool_count::{missing_units, panel};
use oracle::pool_move::{move_edition, other_edition};
use splicebell::raw::{self, splicebell_layout, splicebell_record};

/// What a library with a fault would do.
#[derive(Clone, Copy, Debug, PartialEq, Eq)]
pub enum MoveRule {
    /// Spares keep what the new image held.
    SparesKept,
    /// Only the first group's spares are cleared.
    FirstSparesAlone,
    /// Parity that is present is copied, not worked out.
    ParityCopied,
    /// Parity is left out: zeros.
    ParityLeftOut,
    /// The new pool is of the old edition.
    SameEdition,
    /// The new pool goes by no cookie.
    CookieDropped,
    /// In the new pool contents lie where repairs put them in the old one.
    OldHomesUsed,
    /// What is missing is copied from where it was lost.
    MissingAsTheyLie,
    /// Missing data is rebuilt from the N highest present contents.
    HighestSources,
    /// All failed targets are taken for repaired, or none.
    AllAsRepaired,
    NoneAsRepaired,
    /// The last group is left out.
    LastGroupLeftOut,
    /// Groups that 16 bits do not tell are left out.
    GroupsOf16Bits,
    /// The first tile's permutation serves for all.
    FirstTileForAll,
    /// The old image is repaired on the way.
    OldMended,
    /// A refused move leaves the new image as it was.
    KeptThoughRefused,
    /// A refused move clears no more of the new image than the old one has.
    TailKept,
    /// A bad record is refused, but the file is moved as if nothing had failed.
    MovedThoughRefused,
    /// The old length, or the new one, is not tested.
    OldLengthUntested,
    NewLengthUntested,
    /// All that is tested is that both have one length.
    LengthsAlike,
    /// A bad record is told before the new image's length.
    RecordFirst,
    /// Only a true count is accepted.
    TrueCountAlone,
    /// Only a pool without failures is accepted.
    HealthyAlone,
    /// Entries from k on must be targets too.
    AllEntries,
}

/// The library, or one with a fault.
#[derive(Clone, Copy)]
pub struct Library {
    rule: Option<MoveRule>,
    /// A fault in a rule of the count shows in this call too.
    by_count: count_rules::Library,
}

impl Library {
    pub fn of(bench: &Bench) -> Library {
        let rule = match bench.spoil {
            Some(Spoil::Move(rule)) => Some(rule),
            _ => None,
        };
        Library { rule, by_count: count_rules::Library::of(bench) }
    }

    /// The record that the right library is to be given.
    fn record(self, pool: &Pool) -> splicebell_record {
        let mut record = self.by_count.record(pool);
        match self.rule.filter(|_| pool.is_sound()) {
            Some(MoveRule::AllAsRepaired) => record.q = record.k,
            Some(MoveRule::NoneAsRepaired) => record.q = 0,
            _ => {}
        }
        record
    }

    pub fn move_edition(
        self,
        y: splicebell_layout,
        pool: &Pool,
        old: &Lent<u8>,
        new: &Lent<u8>,
    ) -> u64 {
        let (r, before) = (self.record(pool), new.contents().to_vec());
        let (from, into) = (old.pointer(), new.pointer());
        // SAFETY: both pointers lead to that many bytes, and the buffers lie apart.
        let answer =
            unsafe { raw::splicebell_move_edition(y, r, from, old.len(), into, new.len()) };
        let Some(rule) = self.rule else { return answer };
        let (answer, image) = match answer {
            0 => accepted_by(rule, pool, &before, new.contents()),
            refusal => refused_by(rule, pool, &before, refusal),
        };
        store_all(new, &image);
        if rule == MoveRule::OldMended && answer == 0 && !old.is_sealed() {
            store_all(old, &mended(pool));
        }
        answer
    }
}

/// What is answered, and what the new image holds then, where the right library accepts.
fn accepted_by(rule: MoveRule, pool: &Pool, before: &[u8], right: &[u8]) -> (u64, Vec<u8>) {
    let (y, r) = (&pool.layout, &pool.record);
    let is_refused = match rule {
        MoveRule::TrueCountAlone => is_light(y) && r.waiting != missing_units(y, r),
        MoveRule::HealthyAlone => r.k > 0,
        MoveRule::AllEntries => r.failed.iter().any(|target| *target >= y.p),
        _ => false,
    };
    if is_refused {
        return (3, vec![0; right.len()]);
    }
    (0, left_by(rule, pool, before, right))
}

/// What an accepted move leaves by a wrong rule.
fn left_by(rule: MoveRule, pool: &Pool, before: &[u8], right: &[u8]) -> Vec<u8> {
    let (y, there) = (&pool.layout, other_edition(&pool.layout));
    let (r, groups) = (&pool.record, y.derived().groups);
    let is_spare = |number: u64| number >= y.contents();
    let is_parity = |number: u64| number >= y.n && !is_spare(number);
    match rule {
        MoveRule::SparesKept => mixed(y, right, before, |_, number| is_spare(number)),
        MoveRule::FirstSparesAlone => {
            mixed(y, right, before, |group, number| group > 0 && is_spare(number))
        }
        MoveRule::ParityCopied => {
            copied(pool, right, |content| !content.is_missing && is_parity(content.number))
        }
        MoveRule::ParityLeftOut => mixed(y, right, &[], |_, number| is_parity(number)),
        MoveRule::SameEdition => stored(y, &Record::default(), &file_of(pool)),
        MoveRule::CookieDropped => {
            stored(&Layout { cookie: 0, ..there }, &Record::default(), &file_of(pool))
        }
        MoveRule::OldHomesUsed => {
            stored(&there, &Record { k: r.q, waiting: 0, ..*r }, &file_of(pool))
        }
        MoveRule::MissingAsTheyLie => copied(pool, right, |content| content.is_missing),
        MoveRule::HighestSources => stored(&there, &Record::default(), &from_the_highest(pool)),
        MoveRule::LastGroupLeftOut => mixed(y, right, &[], |group, _| group + 1 == groups),
        MoveRule::GroupsOf16Bits => mixed(y, right, &[], |group, _| group >= 1 << 16),
        MoveRule::FirstTileForAll => by_the_first_tile(&there, right),
        _ => right.to_vec(),
    }
}

/// The new image with other bytes in some of its units, which are told by their group and number: those of another image, or
/// zeros where there is none.
fn mixed(y: &Layout, right: &[u8], other: &[u8], is_such: impl Fn(u64, u64) -> bool) -> Vec<u8> {
    let (there, mut image) = (other_edition(y), right.to_vec());
    let zeros = vec![0; right.len()];
    let other = if other.is_empty() { &zeros } else { other };
    for group in 0..y.derived().groups {
        for number in (0..y.derived().w).filter(|number| is_such(group, *number)) {
            put(&there, &mut image, group, number, unit(&there, other, group, number));
        }
    }
    image
}

/// The new image with some contents as they lie in the old one.
fn copied(pool: &Pool, right: &[u8], is_such: impl Fn(&Content) -> bool) -> Vec<u8> {
    let (there, mut image) = (other_edition(&pool.layout), right.to_vec());
    for Content { group, number, home, .. } in contents(pool).filter(|content| is_such(content)) {
        let bytes = unit(&pool.layout, &pool.image, group, home);
        put(&there, &mut image, group, number, bytes);
    }
    image
}

pub fn put(y: &Layout, image: &mut [u8], group: u64, number: u64, bytes: &[u8]) {
    let begins = place(y, group, number).1.begins as usize;
    image[begins..begins + bytes.len()].copy_from_slice(bytes);
}

/// A file written on zeros.
fn stored(y: &Layout, r: &Record, file: &[u8]) -> Vec<u8> {
    let mut image = vec![0; y.derived().image as usize];
    write(y, r, &mut image, 0, file);
    image
}

/// The whole file of a sound pool, with missing data from the N highest present contents of its group.
fn from_the_highest(pool: &Pool) -> Vec<u8> {
    let (y, all) = (&pool.layout, contents(pool).collect::<Vec<_>>());
    let mut file = Vec::new();
    for group in all.chunks(y.contents() as usize) {
        let bytes = |c: &Content| unit(y, &pool.image, c.group, c.home).to_vec();
        let present = group.iter().rev().filter(|content| !content.is_missing);
        let given = present.take(y.n as usize).map(|c| (c.number as usize, bytes(c)));
        let rebuilt: Vec<Bytes> = data_from(&given.collect::<Vec<_>>());
        for content in &group[..y.n as usize] {
            let lost = || encoded(&rebuilt, content.number as usize);
            file.extend(if content.is_missing { lost() } else { bytes(content) });
        }
    }
    file
}

/// The new image with every unit in the column's target of tile 0.
fn by_the_first_tile(there: &Layout, right: &[u8]) -> Vec<u8> {
    let (numbers, targets) = (there.derived(), permutation(there, 0).1);
    let mut image = vec![0; right.len()];
    for group in 0..numbers.groups {
        for number in 0..numbers.w {
            let column = (numbers.w * (group % numbers.c) + number) % there.p;
            let frame = place(there, group, number).1.frame;
            let begins = (targets[column as usize] * numbers.frames + frame) * there.u;
            let bytes = unit(there, right, group, number);
            image[begins as usize..][..bytes.len()].copy_from_slice(bytes);
        }
    }
    image
}

/// The old image after a repair.
fn mended(pool: &Pool) -> Vec<u8> {
    let mut image = pool.image.clone();
    repair(&pool.layout, &pool.record, &mut image);
    image
}

/// What is answered, and what the new image holds then, where the right library refuses.
fn refused_by(rule: MoveRule, pool: &Pool, before: &[u8], refusal: u64) -> (u64, Vec<u8>) {
    let mut image = vec![0; before.len()];
    let sound = Pool { record: Record::default(), ..pool.clone() };
    let right = pool.layout.derived().image as usize;
    let is_old = pool.image.len() == right;
    match rule {
        MoveRule::KeptThoughRefused => return (refusal, before.to_vec()),
        MoveRule::TailKept if before.len() > pool.image.len() => {
            image[pool.image.len()..].copy_from_slice(&before[pool.image.len()..]);
        }
        MoveRule::MovedThoughRefused if refusal == 3 => return (3, fitted(&sound, before.len())),
        MoveRule::NewLengthUntested if pool.is_sound() => return (0, fitted(pool, before.len())),
        MoveRule::OldLengthUntested if refusal == 2 && before.len() == right => {
            let mut other = pool.clone();
            other.image.resize(right, 0);
            return if other.is_sound() { (0, fitted(&other, right)) } else { (3, image) };
        }
        MoveRule::LengthsAlike if refusal == 2 && before.len() == pool.image.len() => {
            return (0, image);
        }
        MoveRule::RecordFirst if refusal == 2 && is_old => {
            return (panel(&pool.layout, &pool.record, &pool.image).0.max(2), image);
        }
        _ => {}
    }
    (refusal, image)
}

/// What a move of a sound pool leaves, cut or filled up to a length.
fn fitted(pool: &Pool, length: usize) -> Vec<u8> {
    let mut image = vec![0; pool.image.len()];
    move_edition(&pool.layout, &pool.record, &pool.image, &mut image);
    image.resize(length, 0);
    image
}

/// Puts these in the place of all bytes.
pub fn store_all(lent: &Lent<u8>, bytes: &[u8]) {
    assert_eq!(lent.len(), bytes.len());
    // SAFETY: as many bytes as the buffer has, which is not sealed, and nothing else refers to it.
    unsafe { lent.pointer().copy_from_nonoverlapping(bytes.as_ptr(), bytes.len()) };
}

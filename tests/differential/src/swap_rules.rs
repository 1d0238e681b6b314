//! Swaps of a drive on the library; on purpose with a fault in a rule of theirs. A library with such a fault is made of the
//! right one: what it answers and leaves is another.

use crate::bench::Bench;
use crate::count_rules;
use crate::lent::Lent;
use crate::move_kinds::unit;
use crate::move_rules::{put, store_all};
use crate::pools::Pool;
use crate::records;
use crate::spoil::Spoil;
use crate::swap_kinds::{journeys, listed, Journey};
use oracle::group::{data_from, encoded};
use oracle::layout::Layout;
use oracle::place::unit_targets;
use oracle::pool::Record;
use oracle::pool_swap::{self, NOT_REPAIRED};
use splicebell::raw::{self, splicebell_layout, splicebell_swapped};

/// What a library with a fault would do.
#[derive(Clone, Copy, Debug, PartialEq, Eq)]
pub enum SwapRule {
    /// Content after content is moved, the lowest first, none taken up before another is put down; or the highest first.
    OneByOne,
    OneByOneFalling,
    /// Only contents that come to the new drive are moved.
    TargetAlone,
    /// What comes to the new drive is taken for there already.
    NewDriveKept,
    /// It is worked out from the lowest others of its group.
    WorkedOut,
    /// Spares that contents leave, or frames of the new drive that none comes to, are cleared.
    LeftCleared,
    NewDriveCleared,
    /// The last group is left out, or those that 16 bits do not tell.
    LastGroupKept,
    GroupsOf16Bits,
    /// The last of the list leaves it, whichever was named.
    LastDropped,
    /// The last of the list comes in the place of the one that leaves.
    LastInTheGap,
    QKept,
    KKept,
    /// The freed entry keeps its number, or those behind it are cleared too.
    FreedKept,
    BehindCleared,
    CountCleared,
    /// Only a true count is accepted.
    ByTrueCount,
    /// A list that is not all repaired is accepted.
    UnrepairedToo,
    /// 16 is answered before 11, or 11 before 4.
    SixteenFirst,
    ElevenFirst,
    /// Entries from k on are searched too.
    BehindSearched,
    /// Only so many bits of the target are looked at.
    TargetOf(u32),
    /// Refused with 16, the contents are moved, or the record is shortened.
    MovedThoughRefused,
    ShortenedThoughRefused,
}

/// What a swap is answered with, and the image that it leaves.
struct Outcome {
    refusal: u64,
    record: Record,
    image: Vec<u8>,
}

/// The library, or one with a fault.
#[derive(Clone, Copy)]
pub struct Library {
    rule: Option<SwapRule>,
    /// A fault in a rule of the count shows in this call too.
    by_count: count_rules::Library,
}

impl Library {
    pub fn of(bench: &Bench) -> Library {
        let rule = match bench.spoil {
            Some(Spoil::Swap(rule)) => Some(rule),
            _ => None,
        };
        Library { rule, by_count: count_rules::Library::of(bench) }
    }

    pub fn swap(
        self,
        y: splicebell_layout,
        pool: &Pool,
        image: &Lent<u8>,
        target: u64,
    ) -> splicebell_swapped {
        let r = self.by_count.record(pool);
        // SAFETY: the pointer leads to that many bytes.
        let mut answer =
            unsafe { raw::splicebell_swap(y, r, image.pointer(), image.len(), target) };
        answer.record = self.by_count.handed_back(pool, answer.record);
        let Some(rule) = self.rule else { return answer };
        let right = right(pool, target);
        let wrong = match answer.refusal {
            0 => accepted_by(rule, pool, target, right),
            _ => refused_by(rule, pool, target, right),
        };
        store_all(image, &wrong.image);
        splicebell_swapped { refusal: wrong.refusal, record: records::lent(&wrong.record) }
    }
}

/// What the model says.
fn right(pool: &Pool, target: u64) -> Outcome {
    let mut image = pool.image.clone();
    let (refusal, record) = pool_swap::swap(&pool.layout, &pool.record, &mut image, target);
    Outcome { refusal, record, image }
}

/// What a wrong rule makes of a swap that is right to be accepted.
fn accepted_by(rule: SwapRule, pool: &Pool, target: u64, right: Outcome) -> Outcome {
    let (old, mut wrong) = (&pool.record, right);
    let k = old.k as usize;
    match rule {
        SwapRule::LastDropped => return by_list(pool, &listed(old)[..k - 1]),
        SwapRule::LastInTheGap => {
            let mut list = listed(old).to_vec();
            list.swap_remove(listed(old).iter().position(|one| *one == target).expect("listed"));
            return by_list(pool, &list);
        }
        SwapRule::ByTrueCount if old.waiting != 0 => {
            return Outcome { refusal: 3, record: *old, image: pool.image.clone() };
        }
        SwapRule::QKept => wrong.record.q = old.q,
        SwapRule::KKept => wrong.record.k = old.k,
        SwapRule::FreedKept => wrong.record.failed[k - 1] = old.failed[k - 1],
        SwapRule::BehindCleared => wrong.record.failed[k..].fill(0),
        SwapRule::CountCleared => wrong.record.waiting = 0,
        _ => wrong.image = left_by(rule, pool, target, &wrong),
    }
    wrong
}

/// What a swap leaves after which the list is this one.
fn by_list(pool: &Pool, list: &[u64]) -> Outcome {
    let (y, k) = (&pool.layout, list.len());
    let mut record = Record { k: k as u64, q: k as u64, ..pool.record };
    record.failed[..k].copy_from_slice(list);
    record.failed[k] = 0;
    let mut image = pool.image.clone();
    for journey in journeys(y, listed(&pool.record), list).flatten() {
        go(y, &mut image, &pool.image, &journey);
    }
    Outcome { refusal: 0, record, image }
}

/// Puts a content where it goes to, as it lies in another image.
fn go(y: &Layout, image: &mut [u8], from: &[u8], journey: &Journey) {
    put(y, image, journey.group, journey.to, unit(y, from, journey.group, journey.from));
}

/// The image that a wrong rule leaves where the record is right.
fn left_by(rule: SwapRule, pool: &Pool, target: u64, right: &Outcome) -> Vec<u8> {
    let mut image = match rule {
        SwapRule::OneByOne | SwapRule::OneByOneFalling | SwapRule::TargetAlone => &pool.image,
        _ => &right.image,
    }
    .clone();
    for mut group in journeys(&pool.layout, listed(&pool.record), listed(&right.record)) {
        if rule == SwapRule::OneByOneFalling {
            group.reverse();
        }
        for one in &group {
            leave(rule, pool, target, (&group, one), &mut image);
        }
        clear(rule, &pool.layout, target, &group, &mut image);
    }
    image
}

/// Leaves one content of a group by a wrong rule.
fn leave(
    rule: SwapRule,
    pool: &Pool,
    target: u64,
    (group, one): (&[Journey], &Journey),
    image: &mut [u8],
) {
    let (y, old) = (&pool.layout, &pool.image);
    match rule {
        SwapRule::OneByOne | SwapRule::OneByOneFalling => {
            let now = unit(y, image, one.group, one.from).to_vec();
            put(y, image, one.group, one.to, &now);
        }
        SwapRule::TargetAlone if one.comes_to(target) => go(y, image, old, one),
        SwapRule::NewDriveKept if one.comes_to(target) => restore(y, image, old, one),
        SwapRule::WorkedOut if one.comes_to(target) => work_out(pool, image, group, one),
        SwapRule::LastGroupKept if one.group + 1 == y.derived().groups => {
            restore(y, image, old, one);
        }
        SwapRule::GroupsOf16Bits if one.group >= 1 << 16 => restore(y, image, old, one),
        _ => {}
    }
}

/// Clears units of a group that are no new home, where a wrong rule does.
fn clear(rule: SwapRule, y: &Layout, target: u64, group: &[Journey], image: &mut [u8]) {
    let number = group[0].group;
    let targets = unit_targets(y, number);
    let is_cleared = |unit: &u64| match rule {
        SwapRule::LeftCleared => group.iter().any(|one| one.from == *unit),
        SwapRule::NewDriveCleared => targets[*unit as usize] == target,
        _ => false,
    };
    let is_new_home = |unit: &u64| group.iter().any(|one| one.to == *unit);
    for unit in (0..y.derived().w).filter(|unit| is_cleared(unit) && !is_new_home(unit)) {
        put(y, image, number, unit, &vec![0; y.u as usize]);
    }
}

/// Puts back what stood at a content's new home.
fn restore(y: &Layout, image: &mut [u8], old: &[u8], journey: &Journey) {
    put(y, image, journey.group, journey.to, unit(y, old, journey.group, journey.to));
}

/// Puts at a content's new home what the N lowest others of its group make it.
fn work_out(pool: &Pool, image: &mut [u8], group: &[Journey], one: &Journey) {
    let y = &pool.layout;
    let bytes = |other: &Journey| unit(y, &pool.image, other.group, other.from).to_vec();
    let others = group.iter().filter(|other| other.number != one.number).take(y.n as usize);
    let given: Vec<_> = others.map(|other| (other.number as usize, bytes(other))).collect();
    let unit = encoded(&data_from(&given), one.number as usize);
    put(y, image, one.group, one.to, &unit);
}

/// What a wrong rule makes of a swap that is right to be refused.
fn refused_by(rule: SwapRule, pool: &Pool, target: u64, right: Outcome) -> Outcome {
    let (old, refusal) = (&pool.record, right.refusal);
    let as_if_repaired = || {
        let repaired = Record { q: old.k, ..*old };
        self::right(&Pool { record: repaired, ..pool.clone() }, target)
    };
    match rule {
        SwapRule::UnrepairedToo if refusal == NOT_REPAIRED => as_if_repaired(),
        SwapRule::MovedThoughRefused if refusal == NOT_REPAIRED => {
            Outcome { image: as_if_repaired().image, ..right }
        }
        SwapRule::ShortenedThoughRefused if refusal == NOT_REPAIRED => {
            Outcome { record: as_if_repaired().record, ..right }
        }
        SwapRule::SixteenFirst if refusal == 11 && old.q != old.k => {
            Outcome { refusal: NOT_REPAIRED, ..right }
        }
        SwapRule::ElevenFirst if refusal == 4 => Outcome { refusal: 11, ..right },
        SwapRule::BehindSearched if refusal == 11 && old.failed.contains(&target) => {
            Outcome { refusal: 0, ..right }
        }
        SwapRule::TargetOf(bits) if refusal == 4 => self::right(pool, target & ((1 << bits) - 1)),
        _ => right,
    }
}

//! The calls that are about the count of missing units on the library; on purpose with a fault in a rule of the count. A
//! library with such a fault is made of the right one: the record that it is given, or what it answers, is another.

use crate::bench::Bench;
use crate::layouts::is_light;
use crate::lent::Lent;
use crate::pools::Pool;
use crate::records;
use crate::spoil::Spoil;
use oracle::pool_count::{self, contents_on, missing_units, most_missing};
use splicebell::raw::{
    self, splicebell_counts, splicebell_failed, splicebell_layout, splicebell_record,
    splicebell_repaired,
};

/// What a library with a fault would do.
#[derive(Clone, Copy, Debug, PartialEq, Eq)]
pub enum CountRule {
    /// Fail raises the count by all units on the target, also by spares that are no content's home.
    AllUnits,
    /// Fail raises it by the contents whose own place is on the target, though a repair put others there.
    OwnPlaces,
    /// Fail refuses with 3 what it would raise up to the bound.
    RaisedTooLittle,
    /// Fail accepts what it raises to one above the bound.
    RaisedTooFar,
    /// Fail answers 3 for a raise above the bound before it looks whether the target may fail.
    RaiseFirst,
    /// A refused fail hands the raised count back.
    RaisedThoughRefused,
    /// Repair keeps the count.
    KeptByRepair,
    /// Repair answers the record's count, not its own.
    TakenByRepair,
    /// The panel counts afresh.
    PanelCounts,
    /// The audit answers 0 whatever the count is.
    AuditOfNothing,
    /// The audit counts the contents whose own place is on a failed target, repaired or not.
    AuditOfOwnPlaces,
    /// Every call takes a count at the bound for one above it.
    LowerBound,
    /// Every call takes a count one above the bound for one at it.
    HigherBound,
}

/// The library, or one with a fault.
#[derive(Clone, Copy)]
pub struct Library(Option<CountRule>);

/// The contents that a fail of the target would make missing, where the pool has such a target and is soon counted.
fn raise(pool: &Pool, target: u64) -> Option<u64> {
    let (y, r) = (&pool.layout, &pool.record);
    (pool.is_sound() && target < y.p && is_light(y)).then(|| contents_on(y, r, target))
}

impl Library {
    pub fn of(bench: &Bench) -> Library {
        match bench.spoil {
            Some(Spoil::Count(rule)) => Library(Some(rule)),
            _ => Library(None),
        }
    }

    fn is(self, rule: CountRule) -> bool {
        self.0 == Some(rule)
    }

    /// The pool's record as a call of this library takes it.
    pub fn record(self, pool: &Pool) -> splicebell_record {
        let mut record = records::lent(&pool.record);
        let (above, taken_for) = match self.0 {
            Some(CountRule::LowerBound) => (0, 1),
            Some(CountRule::HigherBound) => (1, 0),
            _ => return record,
        };
        if pool.layout.refusal() == 0 && record.waiting == most_missing(&pool.layout) + above {
            record.waiting = most_missing(&pool.layout) + taken_for;
        }
        record
    }

    /// The record that a call hands back: where it is the one that the call took, it is the pool's.
    pub fn handed_back(self, pool: &Pool, record: splicebell_record) -> splicebell_record {
        if record == self.record(pool) {
            return records::lent(&pool.record);
        }
        record
    }

    pub fn fail(
        self,
        y: splicebell_layout,
        pool: &Pool,
        image: &Lent<u8>,
        target: u64,
    ) -> splicebell_failed {
        let r = self.record(pool);
        // SAFETY: the pointer leads to that many bytes.
        let mut answer =
            unsafe { raw::splicebell_fail(y, r, image.pointer(), image.len(), target) };
        answer.record = self.handed_back(pool, answer.record);
        match self.0 {
            Some(rule) => failed_by(rule, pool, target, answer),
            None => answer,
        }
    }

    pub fn repair(
        self,
        y: splicebell_layout,
        pool: &Pool,
        image: &Lent<u8>,
    ) -> splicebell_repaired {
        let r = self.record(pool);
        // SAFETY: the pointer leads to that many bytes.
        let mut answer = unsafe { raw::splicebell_repair(y, r, image.pointer(), image.len()) };
        answer.record = self.handed_back(pool, answer.record);
        if answer.refusal == 0 && self.is(CountRule::KeptByRepair) {
            answer.record.waiting = pool.record.waiting;
        }
        if answer.refusal == 0 && self.is(CountRule::TakenByRepair) {
            answer.count = pool.record.waiting;
        }
        answer
    }

    pub fn panel(self, y: splicebell_layout, pool: &Pool, image: &Lent<u8>) -> splicebell_counts {
        let r = self.record(pool);
        // SAFETY: the pointer leads to that many bytes.
        let mut answer = unsafe { raw::splicebell_panel(y, r, image.pointer(), image.len()) };
        if answer.refusal == 0 && self.is(CountRule::PanelCounts) && is_light(&pool.layout) {
            answer.waiting = missing_units(&pool.layout, &pool.record);
        }
        answer
    }

    pub fn audit(self, y: splicebell_layout, pool: &Pool, image: &Lent<u8>) -> u64 {
        let r = self.record(pool);
        // SAFETY: the pointer leads to that many bytes.
        let answer = unsafe { raw::splicebell_audit(y, r, image.pointer(), image.len()) };
        match self.0 {
            Some(CountRule::AuditOfNothing) if answer == pool_count::WRONG_COUNT => 0,
            Some(CountRule::AuditOfOwnPlaces) => {
                let record = records::as_at_first(&pool.record);
                pool_count::audit(&pool.layout, &record, &pool.image)
            }
            _ => answer,
        }
    }
}

/// What fail answers by a wrong rule.
fn failed_by(
    rule: CountRule,
    pool: &Pool,
    target: u64,
    mut answer: splicebell_failed,
) -> splicebell_failed {
    let Some(raise) = raise(pool, target) else { return answer };
    let (y, r) = (&pool.layout, &pool.record);
    let (most, raised) = (most_missing(y), r.waiting + raise);
    let is_accepted = answer.refusal == 0;
    match rule {
        CountRule::AllUnits if is_accepted => {
            answer.record.waiting = r.waiting + y.derived().frames;
        }
        CountRule::OwnPlaces if is_accepted => {
            answer.record.waiting = r.waiting + contents_on(y, &records::as_at_first(r), target);
        }
        CountRule::RaisedTooLittle if is_accepted && raised == most => {
            answer = splicebell_failed { refusal: 3, record: records::lent(r) };
        }
        CountRule::RaisedTooFar if answer.refusal == 3 && raised == most + 1 => {
            let mut record = splicebell_record { k: r.k + 1, waiting: raised, ..records::lent(r) };
            record.failed[r.k as usize] = target;
            answer = splicebell_failed { refusal: 0, record };
        }
        CountRule::RaiseFirst if raised > most => answer.refusal = 3,
        CountRule::RaisedThoughRefused if !is_accepted => answer.record.waiting = raised,
        _ => {}
    }
    answer
}

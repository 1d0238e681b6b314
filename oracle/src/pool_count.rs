//! The count of missing units that the failure record carries.
//!
//! Document 02, order 6: "The service panel shows how many units await repair,
//! and counting takes a walk over the pool. Carry the count in the failure
//! record. Fail raises it by the contents whose home under the first q entries
//! was on that target; repair sets it to 0; nothing else changes it. From a true
//! count every call keeps it true. A count above T·C·(N+K), or one that an
//! otherwise accepted fail would raise above it, is 3. An audit call counts
//! afresh and answers 14 if the stored one differs; besides the panel, the
//! audit, number 3 and the record handed back, nothing depends on it."

use crate::layout::Layout;
use crate::place::unit_targets;
use crate::pool::{homes, pool_refusal, Record};

/// The stored count is not the number of missing units.
pub const WRONG_COUNT: u64 = 14;

/// What the service panel shows: how many units await repair, how many targets
/// have failed, and how many of these have been repaired.
#[derive(Clone, Copy, Debug, Default, PartialEq, Eq)]
pub struct Counts {
    pub waiting: u64,
    pub failed: u64,
    pub repaired: u64,
}

/// T·C·(N+K), all contents of the pool. The layout is an accepted one.
pub fn most_missing(layout: &Layout) -> u64 {
    layout.derived().groups * layout.contents()
}

/// How many (group, content) pairs have their home under the first q entries on
/// targets of this kind. The layout is an accepted one, the list a good one.
fn contents_where(layout: &Layout, record: &Record, is_so: impl Fn(u64) -> bool) -> u64 {
    let mut count = 0;
    for group in 0..layout.derived().groups {
        let targets = unit_targets(layout, group);
        for home in homes(layout.contents() as usize, &targets, record.repaired()) {
            count += u64::from(is_so(targets[home]));
        }
    }
    count
}

/// "the contents whose home under the first q entries was on that target".
pub fn contents_on(layout: &Layout, record: &Record, target: u64) -> u64 {
    contents_where(layout, record, |other| other == target)
}

/// The missing units, counted afresh: "A content is present if its home under
/// the first q entries is on none of the k targets, else missing."
pub fn missing_units(layout: &Layout, record: &Record) -> u64 {
    contents_where(layout, record, |target| record.listed().contains(&target))
}

/// Public call: what the service panel shows; refusals 1, 2, 3, and then all
/// zeros. The image is lent for its length alone.
pub fn panel(layout: &Layout, record: &Record, image: &[u8]) -> (u64, Counts) {
    match pool_refusal(layout, record, image) {
        0 => {
            let counts = Counts {
                waiting: record.waiting,
                failed: record.k,
                repaired: record.q,
            };
            (0, counts)
        }
        refusal => (refusal, Counts::default()),
    }
}

/// Public call: "counts afresh and answers 14 if the stored one differs";
/// refusals 1, 2, 3, 14. The image is lent for its length alone.
pub fn audit(layout: &Layout, record: &Record, image: &[u8]) -> u64 {
    match pool_refusal(layout, record, image) {
        0 if record.waiting != missing_units(layout, record) => WRONG_COUNT,
        refusal => refusal,
    }
}

#[cfg(test)]
mod tests {
    use super::*;
    use crate::draws::Draws;
    use crate::layout::layout;
    use crate::pool::{fail, prepare, read, repair, show, write};
    use crate::pool_list::write_list;

    /// Document 01's row of four targets: T·C·(N+K) = 8, an image of 48 bytes.
    fn four() -> Layout {
        layout(1, 1, 4, 4, 1, 0)
    }

    const IMAGE: [u8; 48] = [7; 48];

    fn empty(waiting: u64) -> Record {
        Record {
            waiting,
            ..Record::default()
        }
    }

    /// The refusals of every call, with arguments that are inside.
    fn refusals(layout: &Layout, record: &Record) -> [u64; 9] {
        let (mut image, mut unit) = (IMAGE, [1; 4]);
        let preparing = prepare(layout, record, &image, 0, 0, &mut unit);
        let showing = show(layout, record, &image, &unit, 0, 0).0;
        [
            read(layout, record, &image, 0, &mut [1]),
            write(layout, record, &mut image, 0, &[1]),
            write_list(layout, record, &mut image, &[(0, 1)], &[1]).0,
            fail(layout, record, &image, 4).0,
            preparing,
            showing,
            panel(layout, record, &image).0,
            audit(layout, record, &image),
            repair(layout, record, &mut image).0,
        ]
    }

    #[test]
    fn a_count_above_all_contents_is_3_in_every_call() {
        assert_eq!(most_missing(&four()), 8);
        assert_eq!(refusals(&four(), &empty(0)), [0, 0, 0, 4, 0, 0, 0, 0, 0]);
        assert_eq!(refusals(&four(), &empty(8)), [0, 0, 0, 4, 0, 0, 0, 14, 0]);
        for waiting in [9, 1 << 32, 1 << 63, u64::MAX] {
            assert_eq!(refusals(&four(), &empty(waiting)), [3; 9]);
        }
        let longer = layout(1, 1, 4, 4, 2, 0);
        assert_eq!(refusals(&longer, &empty(9)), [2; 9]);
        let bad = layout(1, 1, 2, 4, 1, 0);
        assert_eq!(refusals(&bad, &empty(u64::MAX)), [1; 9]);
    }

    #[test]
    fn a_fail_stays_within_the_bound() {
        let failing = |waiting, target| fail(&four(), &empty(waiting), &IMAGE, target);
        let (refusal, after) = failing(6, 3);
        assert_eq!((refusal, after.waiting, after.k, after.q), (0, 8, 1, 0));
        assert_eq!(failing(7, 3), (3, empty(7)));
        assert_eq!(failing(8, 3), (3, empty(8)));
        // Only where it is otherwise accepted.
        assert_eq!(failing(8, 4), (4, empty(8)));
        let one = Record {
            waiting: 8,
            ..failing(0, 3).1
        };
        assert_eq!(fail(&four(), &one, &IMAGE, 3), (6, one));
        assert_eq!(fail(&four(), &one, &IMAGE, 0), (7, one));
    }

    #[test]
    fn repair_sets_any_count_to_0_and_answers_its_own() {
        let one = fail(&four(), &empty(0), &IMAGE, 3).1;
        for waiting in 0..=8 {
            let false_count = Record { waiting, ..one };
            let (refusal, after, missing) = repair(&four(), &false_count, &mut IMAGE.clone());
            assert_eq!((refusal, after.waiting, after.q, missing), (0, 0, 1, 2));
            let again = Record { waiting, ..after };
            assert_eq!(repair(&four(), &again, &mut IMAGE.clone()), (0, after, 0));
        }
    }

    #[test]
    fn the_panel_shows_the_record_and_the_audit_counts() {
        let one = fail(&four(), &empty(0), &IMAGE, 3).1;
        for waiting in 0..=8 {
            let told = Record { waiting, ..one };
            let counts = Counts {
                waiting,
                failed: 1,
                repaired: 0,
            };
            assert_eq!(panel(&four(), &told, &IMAGE), (0, counts));
            let wanted = if waiting == 2 { 0 } else { WRONG_COUNT };
            assert_eq!(audit(&four(), &told, &IMAGE), wanted);
        }
        let above = Record { waiting: 9, ..one };
        assert_eq!(panel(&four(), &above, &IMAGE), (3, Counts::default()));
    }

    /// Document 01's N=1 K=2 example: after [a] is repaired the data is on d,
    /// so that failing d makes it missing again, and the parities stay.
    #[test]
    fn a_repaired_content_counts_where_it_is_now() {
        let shape = layout(1, 2, 5, 3, 1, 0);
        let targets = unit_targets(&shape, 0);
        let image = vec![0; shape.derived().image as usize];
        let failing = |record: &Record, unit: usize| fail(&shape, record, &image, targets[unit]).1;
        let lost = failing(&empty(0), 0);
        assert_eq!(lost.waiting, 1);
        assert_eq!(failing(&lost, 3).waiting, 1);
        let mended = repair(&shape, &lost, &mut image.clone()).1;
        assert_eq!((mended.waiting, failing(&mended, 3).waiting), (0, 1));
        assert_eq!(failing(&mended, 4).waiting, 0);
    }

    #[test]
    fn fails_raise_by_what_becomes_missing() {
        let mut draws = Draws::new(6);
        for _ in 0..200 {
            let (n, k) = (1 + draws.draw(5), 1 + draws.draw(3));
            let p = n + 2 * k + draws.draw(6);
            let shape =
                layout(n, k, p, 1, 1 + draws.draw(3), draws.high()).in_edition(1 + draws.draw(2));
            let mut image = vec![0; shape.derived().image as usize];
            let mut record = empty(0);
            for _ in 0..8 {
                let before = missing_units(&shape, &record);
                let target = draws.draw(p);
                let raise = contents_on(&shape, &record, target);
                let (refusal, after) = fail(&shape, &record, &image, target);
                if refusal == 0 {
                    assert_eq!(missing_units(&shape, &after), before + raise);
                }
                record = after;
                if draws.draw(3) == 0 {
                    record = repair(&shape, &record, &mut image).1;
                    assert_eq!(missing_units(&shape, &record), 0);
                }
            }
        }
    }
}

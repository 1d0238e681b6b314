//! A swapped drive taken back into its row.
//!
//! Document 02, order 10: "Target d, now a new drive, leaves the failure list,
//! the others in order. Allowed only if q = k; else number 16. A target not in
//! the list is 11. Homes under the shorter list can differ for contents of other
//! drives, and one content's new home may be another's old one. Every content's
//! bytes go from its old home to its new one, which on a pool that demand 3 can
//! reach is what encoding afresh would put there; k and q are both one lower,
//! the freed entry is 0, and only bytes of new homes change, on d and on unused
//! spares too."

use crate::layout::Layout;
use crate::place::{place, unit_targets};
use crate::pool::{homes, pool_refusal, Record};

/// The target is not in the failure list.
const NOT_LISTED: u64 = 11;
/// Some target of the list is not repaired.
pub const NOT_REPAIRED: u64 = 16;

/// Public call: refusal (1, 2, 3, 4, 11, 16) and the record afterwards, which
/// comes back unchanged where refused.
pub fn swap(layout: &Layout, record: &Record, image: &mut [u8], target: u64) -> (u64, Record) {
    let refusal = swap_refusal(layout, record, image, target);
    if refusal != 0 {
        return (refusal, *record);
    }
    let after = without(record, target);
    let (from, to) = (homes_of(layout, record), homes_of(layout, &after));
    let (old, u) = (image.to_vec(), layout.u as usize);
    for (from, to) in from.into_iter().zip(to) {
        image[to..to + u].copy_from_slice(&old[from..from + u]);
    }
    (0, after)
}

fn swap_refusal(layout: &Layout, record: &Record, image: &[u8], target: u64) -> u64 {
    match pool_refusal(layout, record, image) {
        0 if target >= layout.p => 4,
        0 if !record.listed().contains(&target) => NOT_LISTED,
        0 if record.q != record.k => NOT_REPAIRED,
        refusal => refusal,
    }
}

/// The record with a target of its list taken out. All of the list are repaired.
fn without(record: &Record, target: u64) -> Record {
    let listed = record.listed().iter().copied();
    let mut entries: Vec<u64> = listed.filter(|other| *other != target).collect();
    entries.push(0);
    entries.extend(&record.failed[entries.len()..]);
    Record {
        failed: [entries[0], entries[1], entries[2]],
        k: record.k - 1,
        q: record.q - 1,
        ..*record
    }
}

/// Where the home of every content begins in the image, groups rising and
/// contents rising within each.
fn homes_of(layout: &Layout, record: &Record) -> Vec<usize> {
    let of_group = |group| {
        let targets = unit_targets(layout, group);
        let units = homes(layout.contents() as usize, &targets, record.repaired());
        let begins = move |unit| place(layout, group, unit as u64).1.begins as usize;
        units.into_iter().map(begins)
    };
    (0..layout.derived().groups).flat_map(of_group).collect()
}

#[cfg(test)]
mod tests {
    use super::*;
    use crate::draws::Draws;
    use crate::layout::layout;
    use crate::pool::{fail, repair};

    /// All k targets of a list, repaired.
    fn repaired(failed: [u64; 3], k: u64) -> Record {
        Record {
            failed,
            k,
            q: k,
            waiting: 0,
        }
    }

    #[test]
    fn the_target_leaves_the_list_and_nothing_else_does() {
        let after = |failed, k, target| without(&repaired(failed, k), target);
        assert_eq!(after([5, 6, 7], 1, 5), repaired([0, 6, 7], 0));
        assert_eq!(after([5, 6, 7], 2, 5), repaired([6, 0, 7], 1));
        assert_eq!(after([5, 6, 7], 2, 6), repaired([5, 0, 7], 1));
        assert_eq!(after([5, 6, 7], 3, 5), repaired([6, 7, 0], 2));
        assert_eq!(after([5, 6, 7], 3, 6), repaired([5, 7, 0], 2));
        assert_eq!(after([5, 6, 7], 3, 7), repaired([5, 6, 0], 2));
        let counted = Record {
            waiting: 4,
            ..repaired([5, 5, u64::MAX], 1)
        };
        let wanted = Record {
            waiting: 4,
            ..repaired([0, 5, u64::MAX], 0)
        };
        assert_eq!(without(&counted, 5), wanted);
    }

    /// Failures up to K at one time, repaired, and drives taken back in any
    /// order, the first of the list too.
    fn aged(draws: &mut Draws, shape: &Layout) -> Record {
        let mut image = vec![0; shape.derived().image as usize];
        let mut record = Record::default();
        for _ in 0..2 * shape.k {
            record = fail(shape, &record, &image, draws.draw(shape.p)).1;
            record = repair(shape, &record, &mut image).1;
        }
        record
    }

    /// On drawn bytes, which hold no file: each content is what it was, and what
    /// is no new home keeps its bytes.
    #[test]
    fn bytes_go_from_home_to_home_on_any_image() {
        let mut draws = Draws::new(10);
        for _ in 0..300 {
            let (n, k) = (1 + draws.draw(6), 1 + draws.draw(3));
            let p = n + 2 * k + draws.draw(4);
            let shape = layout(n, k, p, 1 + draws.draw(3), 1 + draws.draw(3), draws.high())
                .in_edition(1 + draws.draw(2));
            let record = aged(&mut draws, &shape);
            let target = record.listed()[draws.draw(record.k) as usize];
            let mut image = vec![0; shape.derived().image as usize];
            draws.fill(&mut image);
            let mut after = image.clone();
            let (refusal, shorter) = swap(&shape, &record, &mut after, target);
            assert_eq!((refusal, shorter), (0, without(&record, target)));
            let u = shape.u as usize;
            let (from, to) = (homes_of(&shape, &record), homes_of(&shape, &shorter));
            for (from, to) in from.iter().zip(&to) {
                assert_eq!(after[*to..to + u], image[*from..from + u]);
            }
            for at in (0..image.len()).filter(|at| !to.contains(&(at / u * u))) {
                assert_eq!(after[at], image[at]);
            }
        }
    }

    #[test]
    fn refusals_come_in_the_order_of_their_numbers() {
        let (shape, flat) = (layout(1, 2, 6, 4, 1, 0), layout(1, 2, 6, 0, 1, 0));
        let whole = shape.derived().image as usize;
        let waits = Record {
            q: 1,
            ..repaired([3, 5, 2], 2)
        };
        let bad = Record { k: 3, ..waits };
        let refused = |shape: &Layout, record: &Record, length: usize, target| {
            let mut image = vec![7; length];
            let (refusal, after) = swap(shape, record, &mut image, target);
            assert_eq!((after, image), (*record, vec![7; length]));
            refusal
        };
        assert_eq!(refused(&flat, &bad, whole - 1, 6), 1);
        assert_eq!(refused(&shape.in_edition(3), &waits, whole, 3), 1);
        assert_eq!(refused(&shape, &bad, whole - 1, 6), 2);
        assert_eq!(refused(&shape, &bad, whole, 6), 3);
        assert_eq!(refused(&shape, &waits, whole, 6), 4);
        assert_eq!(refused(&shape, &waits, whole, u64::MAX), 4);
        assert_eq!(refused(&shape, &waits, whole, 2), NOT_LISTED);
        assert_eq!(
            refused(&shape, &repaired([3, 5, 2], 2), whole, 2),
            NOT_LISTED
        );
        assert_eq!(
            refused(&shape, &repaired([3, 5, 2], 0), whole, 3),
            NOT_LISTED
        );
        assert_eq!(refused(&shape, &waits, whole, 3), NOT_REPAIRED);
        assert_eq!(refused(&shape, &waits, whole, 5), NOT_REPAIRED);
    }
}

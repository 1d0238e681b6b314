//! Repair by a proposed plan.
//!
//! Document 02, order 7: "The row controller wants to choose what repair reads.
//! It sends, for each missing content, the N units to use, and its own order of
//! groups. A small checker accepts a plan exactly if each missing content is
//! named once, each of its N sources is a different present content of the same
//! group, and nothing else is named; else number 15 and nothing changed. On any
//! pool that demand 3 can reach, running an accepted plan leaves the same image
//! and record as plain repair, whoever drew it up. Our planner's plans are
//! always accepted; its buffer too short is 5, unchanged."
//!
//! A plan is a slice of 64-bit numbers, one entry after another in any order,
//! each of N+2 numbers: group, content, then the N source contents.

use crate::group::{data_from, encoded, Bytes};
use crate::layout::Layout;
use crate::place::unit_targets;
use crate::pool::{group_state, homes, pool_refusal, Record};
use std::collections::BTreeMap;

/// The plan is none that may be run.
pub const BAD_PLAN: u64 = 15;

/// A group, and a content of it.
pub type Pair = (u64, u64);

/// What a plan says of one content.
struct Entry<'a> {
    names: Pair,
    sources: &'a [u64],
}

/// The entries of a plan, or `None` where its length is not that of whole ones.
fn entries<'a>(layout: &Layout, plan: &'a [u64]) -> Option<Vec<Entry<'a>>> {
    let cut = plan.chunks_exact(layout.n as usize + 2);
    let is_whole = cut.remainder().is_empty();
    let entry = |numbers: &'a [u64]| Entry {
        names: (numbers[0], numbers[1]),
        sources: &numbers[2..],
    };
    is_whole.then(|| cut.map(entry).collect())
}

/// Whether each content of a group that the layout has is present: "its home
/// under the first q entries is on none of the k targets".
pub fn presence(layout: &Layout, record: &Record, group: u64) -> Vec<bool> {
    let targets = unit_targets(layout, group);
    let homes = homes(layout.contents() as usize, &targets, record.repaired());
    let is_present = |home: &usize| !record.listed().contains(&targets[*home]);
    homes.iter().map(is_present).collect()
}

/// All missing contents, groups rising and contents rising within each. The
/// layout is an accepted one, the record a good one.
pub fn missing_contents(layout: &Layout, record: &Record) -> Vec<Pair> {
    let mut missing = Vec::new();
    for group in 0..layout.derived().groups {
        let presence = presence(layout, record, group);
        let absent = (0..layout.contents()).filter(|content| !presence[*content as usize]);
        missing.extend(absent.map(|content| (group, content)));
    }
    missing
}

/// "each missing content is named once .. and nothing else is named": what is
/// named, with how often, is what is missing, once each.
fn names_the_missing_once(layout: &Layout, record: &Record, entries: &[Entry]) -> bool {
    let mut times: BTreeMap<Pair, u64> = BTreeMap::new();
    for entry in entries {
        *times.entry(entry.names).or_default() += 1;
    }
    let missing = missing_contents(layout, record).into_iter();
    times == missing.map(|pair| (pair, 1)).collect()
}

/// "each of its N sources is a different present content of the same group",
/// which is one that the layout has.
fn has_good_sources(layout: &Layout, record: &Record, entry: &Entry) -> bool {
    let presence = presence(layout, record, entry.names.0);
    let is_present = |source: u64| source < layout.contents() && presence[source as usize];
    let times = |source: u64| entry.sources.iter().filter(|s| **s == source).count();
    let is_good = |source: &u64| is_present(*source) && times(*source) == 1;
    entry.sources.iter().all(is_good)
}

/// Whether the checker accepts the plan, for an accepted layout and a good
/// record.
fn is_accepted(layout: &Layout, record: &Record, plan: &[u64]) -> bool {
    entries(layout, plan).is_some_and(|entries| {
        let is_good = |entry: &Entry| has_good_sources(layout, record, entry);
        names_the_missing_once(layout, record, &entries) && entries.iter().all(is_good)
    })
}

/// Public call, the checker; refusals 1, 2, 3, 15. The image is lent for its
/// length alone.
pub fn check_plan(layout: &Layout, record: &Record, image: &[u8], plan: &[u64]) -> u64 {
    match pool_refusal(layout, record, image) {
        0 if !is_accepted(layout, record, plan) => BAD_PLAN,
        refusal => refusal,
    }
}

/// Public call: refusal (1, 2, 3, 15), the record afterwards, and how many
/// (group, content) pairs were missing before (0 where refused). A refused call
/// changes nothing.
pub fn repair_by(
    layout: &Layout,
    record: &Record,
    image: &mut [u8],
    plan: &[u64],
) -> (u64, Record, u64) {
    let refusal = check_plan(layout, record, image, plan);
    if refusal != 0 {
        return (refusal, *record, 0);
    }
    for entry in entries(layout, plan).unwrap_or_default() {
        run(layout, record, image, &entry);
    }
    let after = Record {
        q: record.k,
        waiting: 0,
        ..*record
    };
    let missing = missing_contents(layout, record).len() as u64;
    (0, after, missing)
}

/// Rebuilds one missing content from the sources that its entry names, whatever
/// the others hold, and stores it at its home under the whole list.
fn run(layout: &Layout, record: &Record, image: &mut [u8], entry: &Entry) {
    let (group, content) = entry.names;
    let (content, u) = (content as usize, layout.u as usize);
    let state = group_state(layout, record, group);
    let unit = |source: &u64| {
        let source = *source as usize;
        let begins = state.present[source].expect("the sources are present");
        (source, image[begins..begins + u].to_vec())
    };
    let given: Vec<(usize, Bytes)> = entry.sources.iter().map(unit).collect();
    let rebuilt = encoded(&data_from(&given), content);
    let home = state.repaired[content];
    image[home..home + u].copy_from_slice(&rebuilt);
}

/// Our planner's plan: groups rising, contents rising within each, the N lowest
/// present contents as sources, rising too. The layout is an accepted one, the
/// record a good one.
pub fn drawn_plan(layout: &Layout, record: &Record) -> Vec<u64> {
    let mut plan = Vec::new();
    for (group, content) in missing_contents(layout, record) {
        let presence = presence(layout, record, group);
        let present = (0..layout.contents()).filter(|source| presence[*source as usize]);
        plan.extend([group, content]);
        plan.extend(present.take(layout.n as usize));
    }
    plan
}

/// Public call, our planner: refusal (1, 2, 3, and 5 where the buffer is too
/// short), and how many numbers of the buffer the plan takes from the first on
/// (0 where refused). The other numbers stay, and after a refusal all do. The
/// image is lent for its length alone.
pub fn draw_plan(layout: &Layout, record: &Record, image: &[u8], buffer: &mut [u64]) -> (u64, u64) {
    let refusal = pool_refusal(layout, record, image);
    if refusal != 0 {
        return (refusal, 0);
    }
    let plan = drawn_plan(layout, record);
    if buffer.len() < plan.len() {
        return (5, 0);
    }
    buffer[..plan.len()].copy_from_slice(&plan);
    (0, plan.len() as u64)
}

#[cfg(test)]
mod tests {
    use super::*;
    use crate::draws::Draws;
    use crate::layout::layout;
    use crate::pool::{fail, repair, write};

    /// Document 01's row of four targets, of which target 3 has failed: group
    /// 2's data and group 3's parity are missing.
    fn four() -> (Layout, Record) {
        let shape = layout(1, 1, 4, 4, 1, 0);
        let record = fail(&shape, &Record::default(), &[7; 48], 3).1;
        (shape, record)
    }

    const PLAN: [u64; 6] = [2, 0, 1, 3, 1, 0];

    #[test]
    fn refusals_come_in_the_order_of_their_numbers() {
        let (shape, record) = four();
        let bad_layout = Layout { u: 0, ..shape };
        let bad_record = Record { q: 2, ..record };
        let tried = |shape: &Layout, record: &Record, length: usize, plan: &[u64]| {
            let mut image = vec![7; length];
            let (refusal, after, count) = repair_by(shape, record, &mut image, plan);
            assert_eq!(check_plan(shape, record, &image, plan), refusal);
            assert_eq!((after, count, image), (*record, 0, vec![7; length]));
            refusal
        };
        assert_eq!(tried(&bad_layout, &bad_record, 47, &[1]), 1);
        assert_eq!(tried(&shape, &bad_record, 47, &[1]), 2);
        assert_eq!(tried(&shape, &bad_record, 48, &[1]), 3);
        assert_eq!(tried(&shape, &record, 48, &[1]), BAD_PLAN);
        assert_eq!(tried(&shape, &record, 48, &[]), BAD_PLAN);
        assert_eq!(tried(&shape, &record, 48, &PLAN[..5]), BAD_PLAN);
    }

    #[test]
    fn each_damage_is_15() {
        let (shape, record) = four();
        let with = |place: usize, number: u64| {
            let mut plan = PLAN;
            plan[place] = number;
            check_plan(&shape, &record, &[7; 48], &plan)
        };
        assert_eq!(with(0, 2), 0);
        for far in [1 << 8, 1 << 16, 1 << 32, 1 << 63] {
            for (place, number) in PLAN.iter().enumerate() {
                assert_eq!(with(place, number + far), BAD_PLAN);
            }
        }
        for (place, number) in PLAN.iter().enumerate() {
            for other in (0..6).chain([u64::MAX]).filter(|other| other != number) {
                assert_eq!(with(place, other), BAD_PLAN);
            }
        }
        let longer = |more: &[u64]| [&PLAN[..], more].concat();
        for more in [&[2, 0, 1][..], &[0, 0, 1], &[4, 0, 1], &[2, 0], &[2]] {
            let plan = longer(more);
            assert_eq!(check_plan(&shape, &record, &[7; 48], &plan), BAD_PLAN);
        }
    }

    #[test]
    fn nothing_missing_takes_the_empty_plan_alone() {
        let (shape, record) = four();
        let mended = repair(&shape, &record, &mut [7; 48]).1;
        for record in [Record::default(), mended] {
            let mut image = [7; 48];
            assert_eq!(check_plan(&shape, &record, &image, &[]), 0);
            assert_eq!(check_plan(&shape, &record, &image, &[2, 0, 1]), BAD_PLAN);
            assert_eq!(repair_by(&shape, &record, &mut image, &[]), (0, record, 0));
            assert_eq!(draw_plan(&shape, &record, &image, &mut []), (0, 0));
            assert_eq!(image, [7; 48]);
        }
    }

    #[test]
    fn the_planner_leaves_what_stands_behind_its_plan() {
        let (shape, record) = four();
        for room in 0..9 {
            let mut buffer = vec![9; room];
            let answer = draw_plan(&shape, &record, &[7; 48], &mut buffer);
            let wanted = [&PLAN[..], &vec![9; room.saturating_sub(6)]].concat();
            if room < 6 {
                assert_eq!((answer, buffer), ((5, 0), vec![9; room]));
            } else {
                assert_eq!((answer, buffer), ((0, 6), wanted));
            }
        }
    }

    /// A pool that holds a drawn file, with failures and repairs, and other
    /// bytes on its failed targets.
    fn drawn_pool(draws: &mut Draws) -> (Layout, Record, Vec<u8>) {
        let (n, k) = (1 + draws.draw(6), 1 + draws.draw(3));
        let p = n + 2 * k + draws.draw(4);
        let shape = layout(n, k, p, 1 + draws.draw(3), 1 + draws.draw(3), draws.high())
            .in_edition(1 + draws.draw(2));
        let mut image = vec![0; shape.derived().image as usize];
        let mut file = vec![0; shape.derived().capacity as usize];
        draws.fill(&mut file);
        let mut record = Record::default();
        assert_eq!(write(&shape, &record, &mut image, 0, &file), 0);
        for _ in 0..4 {
            record = fail(&shape, &record, &image, draws.draw(p)).1;
            if draws.draw(3) == 0 {
                record = repair(&shape, &record, &mut image).1;
            }
        }
        let length = image.len() / p as usize;
        for target in record.listed() {
            draws.fill(&mut image[*target as usize * length..][..length]);
        }
        (shape, record, image)
    }

    fn shuffle<T>(draws: &mut Draws, all: &mut [T]) {
        for last in (1..all.len()).rev() {
            all.swap(last, draws.draw(last as u64 + 1) as usize);
        }
    }

    /// Any order of the missing contents, and of any N present ones for each.
    fn drawn_right(draws: &mut Draws, shape: &Layout, record: &Record) -> Vec<u64> {
        let mut missing = missing_contents(shape, record);
        shuffle(draws, &mut missing);
        let mut plan = Vec::new();
        for (group, content) in missing {
            let presence = presence(shape, record, group);
            let present = (0..shape.contents()).filter(|source| presence[*source as usize]);
            let mut sources: Vec<u64> = present.collect();
            shuffle(draws, &mut sources);
            plan.extend([group, content]);
            plan.extend(&sources[..shape.n as usize]);
        }
        plan
    }

    #[test]
    fn any_accepted_plan_leaves_what_plain_repair_leaves() {
        let mut draws = Draws::new(7);
        for _ in 0..300 {
            let (shape, record, image) = drawn_pool(&mut draws);
            let mut wanted = image.clone();
            let (_, after, missing) = repair(&shape, &record, &mut wanted);
            let right = drawn_right(&mut draws, &shape, &record);
            let ours = drawn_plan(&shape, &record);
            assert_eq!(ours.len() as u64, missing * (shape.n + 2));
            for plan in [right, ours] {
                let mut by_plan = image.clone();
                let answer = repair_by(&shape, &record, &mut by_plan, &plan);
                assert_eq!(answer, (0, after, missing));
                assert_eq!(by_plan, wanted);
            }
        }
    }

    /// On drawn bytes the present units disagree: our planner's sources are
    /// those of plain repair, others may give others.
    #[test]
    fn the_named_sources_decide() {
        let mut draws = Draws::new(17);
        let mut others = 0;
        for _ in 0..100 {
            let (shape, record, mut image) = drawn_pool(&mut draws);
            draws.fill(&mut image);
            let (mut plain, mut ours, mut another) = (image.clone(), image.clone(), image);
            repair(&shape, &record, &mut plain);
            let right = drawn_right(&mut draws, &shape, &record);
            repair_by(&shape, &record, &mut ours, &drawn_plan(&shape, &record));
            assert_eq!(repair_by(&shape, &record, &mut another, &right).0, 0);
            assert_eq!(ours, plain);
            others += u64::from(another != plain);
        }
        assert!(others > 10);
    }

    /// "N = 1 gives replication": what is stored is the named source's unit.
    #[test]
    fn a_single_source_is_copied() {
        let mut draws = Draws::new(27);
        for _ in 0..100 {
            let shape = layout(1, 3, 7 + draws.draw(3), 2, 2, draws.high());
            let mut image = vec![0; shape.derived().image as usize];
            draws.fill(&mut image);
            let mut record = Record::default();
            for _ in 0..=draws.draw(3) {
                record = fail(&shape, &record, &image, draws.draw(shape.p)).1;
            }
            let plan = drawn_right(&mut draws, &shape, &record);
            let mut after = image.clone();
            assert_eq!(repair_by(&shape, &record, &mut after, &plan).0, 0);
            for entry in plan.chunks(3) {
                let state = group_state(&shape, &record, entry[0]);
                let source = state.present[entry[2] as usize].unwrap();
                let home = state.repaired[entry[1] as usize];
                assert_eq!(after[home..home + 2], image[source..source + 2]);
            }
        }
    }
}

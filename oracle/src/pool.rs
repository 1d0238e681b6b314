//! Failures, homes, and the calls over a lent pool image.
//!
//! Document 01: "The record holds an ordered list of k failed targets (room for
//! 3), and q: the first q have been repaired." "Homes under a list: each
//! content starts at its own place; for each listed target in turn, a content
//! whose home is there moves to the lowest spare of its group that is no
//! content's home and lies on none of the targets listed up to and including
//! this one." "A content is present if its home under the first q entries is on
//! none of the k targets, else missing."
//!
//! Document 02, order 6: "Carry the count in the failure record. Fail raises it
//! by the contents whose home under the first q entries was on that target;
//! repair sets it to 0; nothing else changes it." [`crate::pool_count`] counts.

use crate::group::{data_of, encoded, Bytes};
use crate::layout::{range_refusal, Layout};
use crate::place::{place, unit_targets};
use crate::pool_count::{contents_on, most_missing};

/// The failure record: three entries, k, q and the count of missing units, any
/// values.
#[derive(Clone, Copy, Debug, Default, PartialEq, Eq)]
pub struct Record {
    pub failed: [u64; 3],
    pub k: u64,
    pub q: u64,
    pub waiting: u64,
}

impl Record {
    /// Refusal 3: "k > K, q > k, an entry among the first k that is ≥ P or
    /// occurs twice", and by order 6 "A count above T·C·(N+K)", else 0. The
    /// layout is an accepted one.
    fn refusal(&self, layout: &Layout) -> u64 {
        if self.k > layout.k || self.q > self.k {
            return 3;
        }
        let listed = self.listed();
        let outside = listed.iter().any(|target| *target >= layout.p);
        let twice = (0..listed.len()).any(|i| listed[..i].contains(&listed[i]));
        if outside || twice || self.waiting > most_missing(layout) {
            3
        } else {
            0
        }
    }

    /// The k failed targets.
    pub(crate) fn listed(&self) -> &[u64] {
        &self.failed[..self.k as usize]
    }

    /// The q repaired ones among them.
    pub(crate) fn repaired(&self) -> &[u64] {
        &self.failed[..self.q as usize]
    }
}

/// The homes of a group's contents under a list, where `targets` are the
/// targets of its W units: for each content the unit number of its home. The
/// list has at most K different targets.
pub fn homes(contents: usize, targets: &[u64], list: &[u64]) -> Vec<usize> {
    let mut homes: Vec<usize> = (0..contents).collect();
    for (i, failed) in list.iter().enumerate() {
        for content in 0..contents {
            if targets[homes[content]] == *failed {
                homes[content] = (contents..targets.len())
                    .find(|spare| !homes.contains(spare) && !list[..=i].contains(&targets[*spare]))
                    .expect("a free spare exists for at most K failures");
            }
        }
    }
    homes
}

/// What the record says about one group.
pub(crate) struct GroupState {
    /// Where each content's present home begins in the image, `None` where missing.
    pub(crate) present: Vec<Option<usize>>,
    /// Where each content's home under the whole list begins in the image.
    pub(crate) repaired: Vec<usize>,
}

pub(crate) fn group_state(layout: &Layout, record: &Record, group: u64) -> GroupState {
    let contents = layout.contents() as usize;
    let targets = unit_targets(layout, group);
    let begins = |unit: usize| place(layout, group, unit as u64).1.begins as usize;
    let now = homes(contents, &targets, record.repaired());
    let then = homes(contents, &targets, record.listed());
    GroupState {
        present: now
            .iter()
            .map(|unit| (!record.listed().contains(&targets[*unit])).then(|| begins(*unit)))
            .collect(),
        repaired: then.iter().map(|unit| begins(*unit)).collect(),
    }
}

impl GroupState {
    /// The N data units of the group, missing ones rebuilt.
    fn data(&self, layout: &Layout, image: &[u8]) -> Vec<Bytes> {
        let unit = |at: usize| image[at..at + layout.u as usize].to_vec();
        let contents: Vec<Option<Bytes>> = self.present.iter().map(|at| at.map(unit)).collect();
        data_of(layout.n as usize, &contents)
    }
}

/// Refusals 1, 2 and 3, which every call over the image tests first.
pub(crate) fn pool_refusal(layout: &Layout, record: &Record, image: &[u8]) -> u64 {
    let (refusal, numbers) = layout.numbers();
    if refusal != 0 {
        1
    } else if image.len() as u64 != numbers.image {
        2
    } else {
        record.refusal(layout)
    }
}

fn access_refusal(layout: &Layout, record: &Record, image: &[u8], at: u64, length: u64) -> u64 {
    match pool_refusal(layout, record, image) {
        0 => range_refusal(layout, at, length),
        refusal => refusal,
    }
}

/// The parts of a range, one for each group that it touches: the group, the
/// first byte in the group's file bytes, the first byte in the range, length.
fn group_parts(layout: &Layout, offset: u64, length: usize) -> Vec<(u64, usize, usize, usize)> {
    let group_bytes = layout.n * layout.u;
    let mut parts = Vec::new();
    let mut done = 0;
    while done < length {
        let x = offset + done as u64;
        let within = (x % group_bytes) as usize;
        let part = (group_bytes as usize - within).min(length - done);
        parts.push((x / group_bytes, within, done, part));
        done += part;
    }
    parts
}

/// Public call: reads the file from `offset` into the whole of `out`;
/// refusals 1, 2, 3, 4, and then `out` is all zeros.
pub fn read(layout: &Layout, record: &Record, image: &[u8], offset: u64, out: &mut [u8]) -> u64 {
    let refusal = access_refusal(layout, record, image, offset, out.len() as u64);
    if refusal != 0 {
        out.fill(0);
        return refusal;
    }
    for (group, within, done, part) in group_parts(layout, offset, out.len()) {
        let data = group_state(layout, record, group)
            .data(layout, image)
            .concat();
        out[done..done + part].copy_from_slice(&data[within..within + part]);
    }
    0
}

/// Public call: writes `bytes` into the file at `offset`; refusals 1, 2, 3, 4.
///
/// Document 01: "On any image, at each group and unit offset that it touches, a
/// write takes the N old data bytes (missing ones rebuilt), lays its own on
/// them, and stores the named data bytes and all K parity bytes worked out from
/// those N, each where its content is present."
pub fn write(layout: &Layout, record: &Record, image: &mut [u8], offset: u64, bytes: &[u8]) -> u64 {
    let refusal = access_refusal(layout, record, image, offset, bytes.len() as u64);
    if refusal != 0 {
        return refusal;
    }
    for (group, within, done, part) in group_parts(layout, offset, bytes.len()) {
        write_group(
            layout,
            record,
            image,
            group,
            within,
            &bytes[done..done + part],
        );
    }
    0
}

/// Lays `bytes` on one group's file bytes from byte `within` on.
fn write_group(
    layout: &Layout,
    record: &Record,
    image: &mut [u8],
    group: u64,
    within: usize,
    bytes: &[u8],
) {
    let (n, u) = (layout.n as usize, layout.u as usize);
    let state = group_state(layout, record, group);
    let mut data = state.data(layout, image);
    for (i, byte) in bytes.iter().enumerate() {
        data[(within + i) / u][(within + i) % u] = *byte;
    }
    let contents: Vec<Bytes> = (0..n + layout.k as usize)
        .map(|content| encoded(&data, content))
        .collect();
    for i in within..within + bytes.len() {
        let at = i % u;
        let named = std::iter::once(i / u).chain(n..contents.len());
        for content in named {
            if let Some(begins) = state.present[content] {
                image[begins + at] = contents[content][at];
            }
        }
    }
}

/// Public call: marks a target as failed; refusals 1, 2, 3, 4, 6, 7, and then
/// the record comes back unchanged.
///
/// Order 6: a count "that an otherwise accepted fail would raise above"
/// T·C·(N+K) "is 3".
pub fn fail(layout: &Layout, record: &Record, image: &[u8], target: u64) -> (u64, Record) {
    let refusal = refusal_otherwise(layout, record, image, target);
    if refusal != 0 {
        return (refusal, *record);
    }
    let waiting = record.waiting + contents_on(layout, record, target);
    if waiting > most_missing(layout) {
        return (3, *record);
    }
    let mut after = Record { waiting, ..*record };
    after.failed[record.k as usize] = target;
    after.k += 1;
    (0, after)
}

/// What speaks against a fail, but for the count that it would raise.
fn refusal_otherwise(layout: &Layout, record: &Record, image: &[u8], target: u64) -> u64 {
    match pool_refusal(layout, record, image) {
        0 if target >= layout.p => 4,
        0 if record.listed().contains(&target) => 6,
        0 if record.k == layout.k => 7,
        refusal => refusal,
    }
}

/// Public call: refusal (1, 2, 3), the record afterwards, and how many (group,
/// content) pairs were missing before (0 where refused).
///
/// Document 01: "Repair stores every missing content at its home under the
/// whole list, sets q = k, and answers with how many (group, content) pairs
/// were missing before." Order 6: "repair sets it to 0".
pub fn repair(layout: &Layout, record: &Record, image: &mut [u8]) -> (u64, Record, u64) {
    let refusal = pool_refusal(layout, record, image);
    if refusal != 0 {
        return (refusal, *record, 0);
    }
    let mut missing = 0;
    for group in 0..layout.derived().groups {
        let state = group_state(layout, record, group);
        let data = state.data(layout, image);
        for content in 0..state.present.len() {
            if state.present[content].is_none() {
                let begins = state.repaired[content];
                image[begins..begins + layout.u as usize].copy_from_slice(&encoded(&data, content));
                missing += 1;
            }
        }
    }
    let after = Record {
        q: record.k,
        waiting: 0,
        ..*record
    };
    (0, after, missing)
}

fn look_refusal(
    layout: &Layout,
    record: &Record,
    image: &[u8],
    scratch: &[u8],
    group: u64,
    content: u64,
) -> u64 {
    match pool_refusal(layout, record, image) {
        0 if group >= layout.derived().groups || content >= layout.contents() => 4,
        0 if scratch.len() as u64 != layout.u => 5,
        refusal => refusal,
    }
}

/// Public call, the first step of a look: "fills a scratch of U bytes with the
/// rebuilt unit if it is missing, with zeros if present"; refusals 1, 2, 3, 4,
/// 5, and then the scratch is all zeros over its whole length.
pub fn prepare(
    layout: &Layout,
    record: &Record,
    image: &[u8],
    group: u64,
    content: u64,
    scratch: &mut [u8],
) -> u64 {
    let refusal = look_refusal(layout, record, image, scratch, group, content);
    scratch.fill(0);
    if refusal != 0 {
        return refusal;
    }
    let state = group_state(layout, record, group);
    if state.present[content as usize].is_none() {
        let data = state.data(layout, image);
        scratch.copy_from_slice(&encoded(&data, content as usize));
    }
    0
}

/// Public call, the second step of a look: "shows the unit as a part of the
/// image, or of the scratch where it is missing"; refusals 1, 2, 3, 4, 5, and
/// then the part is empty.
pub fn show<'a>(
    layout: &Layout,
    record: &Record,
    image: &'a [u8],
    scratch: &'a [u8],
    group: u64,
    content: u64,
) -> (u64, &'a [u8]) {
    let refusal = look_refusal(layout, record, image, scratch, group, content);
    if refusal != 0 {
        return (refusal, &[]);
    }
    match group_state(layout, record, group).present[content as usize] {
        Some(begins) => (0, &image[begins..begins + layout.u as usize]),
        None => (0, scratch),
    }
}

#[cfg(test)]
mod tests {
    use super::*;
    use crate::draws::Draws;
    use crate::layout::layout;
    use crate::pool_count::audit;
    use crate::pool_swap::swap;

    /// A pool beside the file that it should hold.
    struct Beside {
        layout: Layout,
        record: Record,
        image: Vec<u8>,
        file: Vec<u8>,
    }

    impl Beside {
        fn new(layout: Layout) -> Beside {
            Beside {
                layout,
                record: Record::default(),
                image: vec![0; layout.derived().image as usize],
                file: vec![0; layout.derived().capacity as usize],
            }
        }

        fn event(&mut self, draws: &mut Draws) {
            let (layout, record) = (&self.layout, &self.record);
            match draws.draw(9) {
                0..=2 => {
                    let at = draws.draw(self.file.len() as u64) as usize;
                    let length = draws.draw((self.file.len() - at) as u64 + 1) as usize;
                    draws.fill(&mut self.file[at..at + length]);
                    let bytes = &self.file[at..at + length];
                    assert_eq!(write(layout, record, &mut self.image, at as u64, bytes), 0);
                }
                3 => self.record = fail(layout, record, &self.image, draws.draw(layout.p)).1,
                4 | 5 => self.record = repair(layout, record, &mut self.image).1,
                6 | 7 => {
                    let target = record.failed[draws.draw(3) as usize];
                    self.record = swap(layout, record, &mut self.image, target).1;
                }
                _ => {
                    let size = self.image.len() / layout.p as usize;
                    for target in record.listed() {
                        let at = *target as usize * size;
                        draws.fill(&mut self.image[at..at + size]);
                    }
                }
            }
        }

        /// Each present content holds its encoding, a read shows the file, and
        /// the count is true.
        fn check(&self) {
            let u = self.layout.u as usize;
            let group_bytes = (self.layout.n * self.layout.u) as usize;
            for (group, bytes) in self.file.chunks(group_bytes).enumerate() {
                let data: Vec<Bytes> = bytes.chunks(u).map(<[u8]>::to_vec).collect();
                let state = group_state(&self.layout, &self.record, group as u64);
                for (content, present) in state.present.iter().enumerate() {
                    if let Some(at) = present {
                        assert_eq!(self.image[*at..at + u], encoded(&data, content));
                    }
                }
            }
            let mut out = vec![1; self.file.len()];
            assert_eq!(
                read(&self.layout, &self.record, &self.image, 0, &mut out),
                0
            );
            assert_eq!(out, self.file);
            assert_eq!(audit(&self.layout, &self.record, &self.image), 0);
        }
    }

    #[test]
    fn runs_keep_the_file() {
        let mut draws = Draws::new(3);
        for _ in 0..60 {
            let (n, k) = (1 + draws.draw(8), draws.draw(4));
            let p = n + 2 * k + draws.draw(4);
            let shape = layout(n, k, p, 1 + draws.draw(5), 1 + draws.draw(3), draws.high());
            let mut pool = Beside::new(shape.in_edition(1 + draws.draw(2)));
            for _ in 0..40 {
                pool.event(&mut draws);
                pool.check();
            }
        }
    }

    #[test]
    fn the_lowest_refusal_is_given() {
        let shape = layout(1, 1, 4, 4, 1, 0);
        let (image, empty) = ([0; 48], Record::default());
        let refused = |shape: &Layout, record: &Record, image: &[u8], target| {
            fail(shape, record, image, target).0
        };
        let bad = Record { k: 2, ..empty };
        let one = fail(&shape, &empty, &image, 3).1;
        assert_eq!(refused(&layout(0, 1, 4, 4, 1, 0), &bad, &image[1..], 4), 1);
        assert_eq!(refused(&shape, &bad, &image[1..], 4), 2);
        assert_eq!(refused(&shape, &bad, &image, 4), 3);
        assert_eq!(refused(&shape, &one, &image, 4), 4);
        assert_eq!(refused(&shape, &one, &image, 3), 6);
        assert_eq!(refused(&shape, &one, &image, 0), 7);
    }

    #[test]
    fn a_bad_record_is_refused_3() {
        let shape = layout(1, 2, 6, 4, 1, 0);
        let refusal = |failed, k, q| {
            let record = Record {
                failed,
                k,
                q,
                waiting: 0,
            };
            record.refusal(&shape)
        };
        assert_eq!(refusal([5, 4, 9], 2, 2), 0);
        assert_eq!(refusal([5, 5, 5], 1, 1), 0);
        assert_eq!(refusal([5, 5, 0], 2, 0), 3);
        assert_eq!(refusal([6, 5, 0], 2, 0), 3);
        assert_eq!(refusal([5, 4, 3], 3, 0), 3);
        assert_eq!(refusal([5, 4, 3], 1, 2), 3);
        assert_eq!(refusal([u64::MAX; 3], u64::MAX, u64::MAX), 3);
    }
}

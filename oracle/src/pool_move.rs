//! A pool moved to the other edition.
//!
//! Document 02, order 9: "Installed rows are edition 1. Given an old image and a
//! second lent image, write the same file in the other edition, all N, K, P, U,
//! T and cookie kept. The old pool may have failures, repaired or not; the new
//! one has an empty list and zero spares. Reads agree over the whole capacity.
//! Moving there and back gives the first image again if it had an empty list,
//! zero spares and the parity of its own data. The new image has length rule 2
//! as well; a refusal leaves it zero and the old one untouched, so for demand 1
//! the new image counts as a read's output."

use crate::group::encode;
use crate::layout::Layout;
use crate::place::place;
use crate::pool::{pool_refusal, read, Record};

/// The layout of the pool that a move of this one leaves. The edition is 1 or 2.
pub fn other_edition(layout: &Layout) -> Layout {
    match layout.edition {
        1 => layout.in_edition(2),
        _ => layout.in_edition(1),
    }
}

/// Public call: fills the new image with the old pool's file in the other
/// edition; refusals 1, 2 (of either image) and 3, and then the new image is all
/// zeros over its whole length.
pub fn move_edition(layout: &Layout, record: &Record, old: &[u8], new: &mut [u8]) -> u64 {
    let refusal = move_refusal(layout, record, [old, &*new]);
    new.fill(0);
    if refusal == 0 {
        lay(&other_edition(layout), &file_of(layout, record, old), new);
    }
    refusal
}

/// The lowest number that speaks against the pool with either image.
fn move_refusal(layout: &Layout, record: &Record, images: [&[u8]; 2]) -> u64 {
    let numbers = images.map(|image| pool_refusal(layout, record, image));
    let refused = numbers.into_iter().filter(|number| *number != 0);
    refused.min().unwrap_or(0)
}

/// The whole file, as a read shows it. The pool is a good one.
fn file_of(layout: &Layout, record: &Record, image: &[u8]) -> Vec<u8> {
    let mut file = vec![0; layout.derived().capacity as usize];
    assert_eq!(read(layout, record, image, 0, &mut file), 0);
    file
}

/// Lays a file on an image of zeros: N data units a group, the K parity units
/// worked out from them, each at its own place.
fn lay(layout: &Layout, file: &[u8], image: &mut [u8]) {
    let (n, u) = (layout.n as usize, layout.u as usize);
    for (group, data) in (0..).zip(file.chunks(n * u)) {
        let mut contents = data.to_vec();
        contents.resize(layout.contents() as usize * u, 0);
        assert_eq!(encode(layout, &mut contents), 0);
        for (content, unit) in (0..).zip(contents.chunks(u)) {
            let begins = place(layout, group, content).1.begins as usize;
            image[begins..begins + u].copy_from_slice(unit);
        }
    }
}

#[cfg(test)]
mod tests {
    use super::*;
    use crate::draws::Draws;
    use crate::layout::layout;
    use crate::pool::{fail, repair, write};

    fn drawn_layout(draws: &mut Draws) -> Layout {
        let (n, k) = (1 + draws.draw(6), draws.draw(4));
        let p = n + 2 * k + draws.draw(4);
        layout(n, k, p, 1 + draws.draw(3), 1 + draws.draw(3), draws.high())
            .in_edition(1 + draws.draw(2))
    }

    fn zeros(layout: &Layout) -> Vec<u8> {
        vec![0; layout.derived().image as usize]
    }

    /// A pool of zeros into which a file was written, and that file.
    fn stored(draws: &mut Draws, shape: &Layout) -> (Vec<u8>, Vec<u8>) {
        let mut file = vec![0; shape.derived().capacity as usize];
        draws.fill(&mut file);
        let mut image = zeros(shape);
        assert_eq!(write(shape, &Record::default(), &mut image, 0, &file), 0);
        (image, file)
    }

    /// Failures, some of them repaired, and other bytes on the failed targets.
    fn age(draws: &mut Draws, shape: &Layout, image: &mut [u8]) -> Record {
        let mut record = Record::default();
        for _ in 0..draws.draw(5) {
            record = fail(shape, &record, image, draws.draw(shape.p)).1;
            if draws.draw(3) == 0 {
                record = repair(shape, &record, image).1;
            }
        }
        let length = image.len() / shape.p as usize;
        for target in record.listed() {
            draws.fill(&mut image[*target as usize * length..][..length]);
        }
        record
    }

    /// An accepted move, into an image that holds no zero before.
    fn moved(shape: &Layout, record: &Record, old: &[u8]) -> Vec<u8> {
        let mut new = vec![7; old.len()];
        assert_eq!(move_edition(shape, record, old, &mut new), 0);
        new
    }

    /// By another road: the file written into a pool of zeros of that edition.
    #[test]
    fn a_move_leaves_the_file_as_if_written_there() {
        let mut draws = Draws::new(9);
        for _ in 0..200 {
            let shape = drawn_layout(&mut draws);
            let (mut image, file) = stored(&mut draws, &shape);
            let record = age(&mut draws, &shape, &mut image);
            let there = other_edition(&shape);
            let mut wanted = zeros(&shape);
            write(&there, &Record::default(), &mut wanted, 0, &file);
            assert_eq!(moved(&shape, &record, &image), wanted);
        }
    }

    #[test]
    fn there_and_back_gives_the_first_image() {
        let mut draws = Draws::new(19);
        for _ in 0..200 {
            let shape = drawn_layout(&mut draws);
            let (first, _) = stored(&mut draws, &shape);
            let mut image = first.clone();
            let record = age(&mut draws, &shape, &mut image);
            let there = other_edition(&shape);
            assert_eq!(other_edition(&there), shape);
            let new = moved(&shape, &record, &image);
            assert_eq!(moved(&there, &Record::default(), &new), first);
        }
    }

    /// Drawn bytes hold no file, but a read shows one all the same.
    #[test]
    fn reads_agree_on_any_image() {
        let mut draws = Draws::new(29);
        for _ in 0..200 {
            let shape = drawn_layout(&mut draws);
            let mut image = zeros(&shape);
            let record = age(&mut draws, &shape, &mut image);
            draws.fill(&mut image);
            let there = other_edition(&shape);
            let new = moved(&shape, &record, &image);
            let file = file_of(&shape, &record, &image);
            assert_eq!(file_of(&there, &Record::default(), &new), file);
            let mut wanted = zeros(&shape);
            write(&there, &Record::default(), &mut wanted, 0, &file);
            assert_eq!(new, wanted);
        }
    }

    #[test]
    fn refusals_come_in_the_order_of_their_numbers() {
        let (good, bad) = (layout(1, 1, 4, 4, 1, 0), layout(1, 1, 4, 0, 1, 0));
        let record = Record {
            k: 2,
            ..Record::default()
        };
        let refused = |shape: &Layout, record: &Record, lengths: [usize; 2]| {
            let [old, mut new] = lengths.map(|length| vec![7; length]);
            let refusal = move_edition(shape, record, &old, &mut new);
            assert_eq!(old, vec![7; lengths[0]]);
            assert_eq!(new, vec![0; lengths[1]]);
            refusal
        };
        assert_eq!(refused(&bad, &record, [47, 49]), 1);
        assert_eq!(refused(&good.in_edition(3), &record, [48, 48]), 1);
        assert_eq!(refused(&good, &record, [47, 48]), 2);
        assert_eq!(refused(&good, &record, [48, 47]), 2);
        assert_eq!(refused(&good, &record, [49, 49]), 2);
        assert_eq!(refused(&good, &Record::default(), [48, 0]), 2);
        assert_eq!(refused(&good, &record, [48, 48]), 3);
    }
}

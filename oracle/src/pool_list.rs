//! A list of writes in one call.
//!
//! Document 02, order 2: "Take a list of up to 64 ranges and one buffer with
//! their bytes in order. The end state equals writing them one after the other;
//! where they overlap, the later wins. If any range alone would be refused,
//! nothing is written and the answer gives the lowest number and the first
//! range that earns it. A buffer whose length isn't the sum of the lengths is
//! 5; more than 64 ranges is 4. Ranges count from 1; for numbers 1, 2, 3, 5 and
//! for too many ranges the range given is 0."

use crate::layout::{range_refusal, Layout};
use crate::pool::{pool_refusal, write, Record};

/// "up to 64 ranges".
pub const MOST_RANGES: usize = 64;

/// Public call: writes the bytes of all ranges, each an offset and a length;
/// the refusal (1, 2, 3, 4, 5) and the range that earns it. Refused, nothing is
/// written.
pub fn write_list(
    layout: &Layout,
    record: &Record,
    image: &mut [u8],
    ranges: &[(u64, u64)],
    bytes: &[u8],
) -> (u64, u64) {
    let objections = [
        vec![(pool_refusal(layout, record, image), 0)],
        objections_to_ranges(layout, ranges),
        vec![(length_refusal(ranges, bytes), 0)],
    ]
    .concat();
    // Among equal numbers this is the first.
    let lowest = objections
        .into_iter()
        .filter(|(number, _)| *number != 0)
        .min_by_key(|(number, _)| *number);
    if let Some(refused) = lowest {
        return refused;
    }
    let mut rest = bytes;
    for (offset, length) in ranges {
        let (own, others) = rest.split_at(*length as usize);
        let refusal = write(layout, record, image, *offset, own);
        assert_eq!(refusal, 0, "no range alone is refused");
        rest = others;
    }
    (0, 0)
}

/// The number 4 of the list as a whole, with range 0, and of each range alone.
fn objections_to_ranges(layout: &Layout, ranges: &[(u64, u64)]) -> Vec<(u64, u64)> {
    let too_many = if ranges.len() > MOST_RANGES { 4 } else { 0 };
    let alone = (1..)
        .zip(ranges)
        .map(|(range, (offset, length))| (range_refusal(layout, *offset, *length), range));
    std::iter::once((too_many, 0)).chain(alone).collect()
}

/// Refusal 5: "A buffer whose length isn't the sum of the lengths", else 0.
/// Lengths are any 64-bit numbers, and their sum is not cut to 64 bits.
fn length_refusal(ranges: &[(u64, u64)], bytes: &[u8]) -> u64 {
    let sum: u128 = ranges.iter().map(|(_, length)| u128::from(*length)).sum();
    if sum == bytes.len() as u128 {
        0
    } else {
        5
    }
}

#[cfg(test)]
mod tests {
    use super::*;
    use crate::draws::Draws;
    use crate::layout::layout;
    use crate::pool::{fail, read, repair};

    /// Document 01's row of four targets: a file of 16 bytes, an image of 48.
    fn four() -> Layout {
        layout(1, 1, 4, 4, 1, 0)
    }

    const CAPACITY: u64 = 16;
    const MAX: u64 = u64::MAX;

    /// What a list that must be refused is answered; the image stays.
    fn refused_of(
        shape: &Layout,
        record: &Record,
        ranges: &[(u64, u64)],
        length: usize,
    ) -> (u64, u64) {
        let mut image = [7; 48];
        let answer = write_list(shape, record, &mut image, ranges, &vec![9; length]);
        assert_ne!(answer.0, 0);
        assert_eq!(image, [7; 48]);
        answer
    }

    fn refused(ranges: &[(u64, u64)], length: usize) -> (u64, u64) {
        refused_of(&four(), &Record::default(), ranges, length)
    }

    /// The file after a list that must be accepted, written on a file of dots.
    fn file_after(ranges: &[(u64, u64)], bytes: &[u8]) -> String {
        let (record, mut image) = (Record::default(), [0; 48]);
        assert_eq!(write(&four(), &record, &mut image, 0, &[b'.'; 16]), 0);
        assert_eq!(
            write_list(&four(), &record, &mut image, ranges, bytes),
            (0, 0)
        );
        let mut file = [0; 16];
        assert_eq!(read(&four(), &record, &image, 0, &mut file), 0);
        file.iter().map(|byte| char::from(*byte)).collect()
    }

    #[test]
    fn each_range_takes_its_own_bytes_in_order() {
        assert_eq!(
            file_after(&[(0, 3), (8, 2), (14, 2)], b"abcdefg"),
            "abc.....de....fg"
        );
        assert_eq!(
            file_after(&[(14, 2), (0, 3), (8, 2)], b"abcdefg"),
            "cde.....fg....ab"
        );
        assert_eq!(
            file_after(&[(0, 16)], b"abcdefghijklmnop"),
            "abcdefghijklmnop"
        );
        assert_eq!(file_after(&[(3, 7)], b"abcdefg"), "...abcdefg......");
    }

    #[test]
    fn where_ranges_overlap_the_later_wins() {
        assert_eq!(
            file_after(&[(2, 4), (4, 4)], b"aaaabbbb"),
            "..aabbbb........"
        );
        assert_eq!(
            file_after(&[(4, 4), (2, 4)], b"bbbbaaaa"),
            "..aaaabb........"
        );
        assert_eq!(
            file_after(&[(0, 9), (3, 3)], b"aaaaaaaaabbb"),
            "aaabbbaaa......."
        );
        assert_eq!(
            file_after(&[(3, 3), (0, 9)], b"bbbaaaaaaaaa"),
            "aaaaaaaaa......."
        );
        assert_eq!(
            file_after(&[(5, 2), (5, 2), (5, 2)], b"aabbcc"),
            ".....cc........."
        );
    }

    #[test]
    fn a_list_of_nothing_does_nothing() {
        let dots = "................";
        assert_eq!(file_after(&[], b""), dots);
        assert_eq!(file_after(&[(0, 0)], b""), dots);
        assert_eq!(
            file_after(&[(CAPACITY, 0), (7, 0), (CAPACITY, 0)], b""),
            dots
        );
        assert_eq!(file_after(&[(7, 0); 64], b""), dots);
        assert_eq!(refused(&[], 1), (5, 0));
        assert_eq!(refused(&[(CAPACITY + 1, 0)], 0), (4, 1));
        assert_eq!(refused(&[(0, 0), (MAX, 0)], 0), (4, 2));
    }

    #[test]
    fn ranges_of_no_bytes_stand_between_others() {
        let ranges = [(0, 0), (0, 2), (CAPACITY, 0), (1, 0), (15, 1), (4, 0)];
        assert_eq!(file_after(&ranges, b"abc"), "ab.............c");
    }

    #[test]
    fn sixty_four_ranges_are_taken_and_sixty_five_are_not() {
        let bytes: Vec<u8> = (0..64).map(|i| b'a' + i / 4).collect();
        let quarters: Vec<(u64, u64)> = (0..64).map(|i| (i / 4, 1)).collect();
        assert_eq!(file_after(&quarters, &bytes), "abcdefghijklmnop");
        assert_eq!(refused(&[(0, 0); 65], 0), (4, 0));
        assert_eq!(refused(&[(0, 1); 65], 65), (4, 0));
        assert_eq!(refused(&[(0, 1); 65], 64), (4, 0));
        assert_eq!(refused(&[(CAPACITY, 1); 65], 65), (4, 0));
        assert_eq!(refused(&[(MAX, MAX); 100], 0), (4, 0));
        let mut last_outside = [(0, 1); 64];
        last_outside[63] = (CAPACITY, 1);
        assert_eq!(refused(&last_outside, 64), (4, 64));
    }

    #[test]
    fn the_first_range_outside_is_told() {
        assert_eq!(refused(&[(CAPACITY, 1)], 1), (4, 1));
        assert_eq!(refused(&[(0, CAPACITY + 1)], 17), (4, 1));
        assert_eq!(refused(&[(0, 4), (13, 4), (0, 4)], 12), (4, 2));
        assert_eq!(refused(&[(0, 4), (4, 4), (MAX, 1)], 9), (4, 3));
        assert_eq!(refused(&[(0, 4), (17, 0), (20, 4), (15, 2)], 10), (4, 2));
    }

    #[test]
    fn no_sum_wraps() {
        assert_eq!(refused(&[(0, MAX)], 0), (4, 1));
        assert_eq!(refused(&[(0, 1), (0, MAX)], 0), (4, 2));
        assert_eq!(refused(&[(1, 1), (1, MAX), (1, 1)], 1), (4, 2));
        assert_eq!(refused(&[(0, 1 << 63), (0, 1 << 63)], 0), (4, 1));
        assert_eq!(refused(&[(0, 16), (MAX, MAX), (0, 2)], 17), (4, 2));
        assert_eq!(length_refusal(&[(0, MAX), (0, 1)], &[]), 5);
        assert_eq!(length_refusal(&[(0, 1 << 63), (0, 1 << 63)], &[]), 5);
        assert_eq!(length_refusal(&[(0, MAX); 65], &[9; 65]), 5);
    }

    #[test]
    fn another_length_than_the_sum_is_5_behind_all_others() {
        assert_eq!(refused(&[(0, 3), (8, 2)], 4), (5, 0));
        assert_eq!(refused(&[(0, 3), (8, 2)], 6), (5, 0));
        assert_eq!(refused(&[(0, 3), (8, 2)], 0), (5, 0));
        assert_eq!(refused(&[(0, 0), (CAPACITY, 0)], 1), (5, 0));
        assert_eq!(refused(&[(0, 3), (15, 2)], 4), (4, 2));
        assert_eq!(refused(&[(0, 3), (15, 2)], 0), (4, 2));
    }

    #[test]
    fn the_lowest_refusal_is_given() {
        let (bad_shape, bad) = (
            layout(1, 1, 2, 4, 1, 0),
            Record {
                q: 1,
                ..Record::default()
            },
        );
        let outside = [(0, 1), (MAX, MAX)];
        assert_eq!(refused_of(&bad_shape, &bad, &outside, 0), (1, 0));
        let longer = layout(1, 1, 4, 4, 2, 0);
        assert_eq!(refused_of(&longer, &bad, &outside, 0), (2, 0));
        assert_eq!(refused_of(&four(), &bad, &outside, 0), (3, 0));
        assert_eq!(refused_of(&four(), &bad, &[(0, 1); 65], 65), (3, 0));
        assert_eq!(refused_of(&four(), &bad, &[(0, 1)], 2), (3, 0));
        assert_eq!(refused(&outside, 0), (4, 2));
        // Of a list of no ranges the pool is tested too.
        assert_eq!(refused_of(&bad_shape, &bad, &[], 0), (1, 0));
        assert_eq!(refused_of(&longer, &bad, &[], 0), (2, 0));
        assert_eq!(refused_of(&four(), &bad, &[], 1), (3, 0));
    }

    /// Some ranges of a file; one in six goes a byte past its end.
    fn drawn_ranges(draws: &mut Draws, capacity: u64) -> Vec<(u64, u64)> {
        let count = draws.draw(6);
        let mut range = || {
            let offset = draws.draw(capacity + 1);
            match draws.draw(6) {
                0 => (offset, capacity - offset + 1),
                _ => (offset, draws.draw(capacity - offset + 1)),
            }
        };
        (0..count).map(|_| range()).collect()
    }

    /// The image after one write of document 01 for each range, or the refusal
    /// and the number of the first that is refused.
    fn one_by_one(
        shape: &Layout,
        record: &Record,
        image: &[u8],
        ranges: &[(u64, u64)],
        bytes: &[u8],
    ) -> Result<Vec<u8>, (u64, u64)> {
        let (mut image, mut begins) = (image.to_vec(), 0);
        for (number, (offset, length)) in (1..).zip(ranges) {
            let own = &bytes[begins..begins + *length as usize];
            begins += own.len();
            match write(shape, record, &mut image, *offset, own) {
                0 => {}
                refusal => return Err((refusal, number)),
            }
        }
        Ok(image)
    }

    #[test]
    fn a_list_is_its_writes_one_after_the_other() {
        let mut draws = Draws::new(8);
        let shape = layout(2, 2, 7, 3, 2, 11).in_edition(2);
        let numbers = shape.derived();
        let (mut record, mut image) = (Record::default(), vec![0; numbers.image as usize]);
        let mut accepted = 0;
        for _ in 0..400 {
            let ranges = drawn_ranges(&mut draws, numbers.capacity);
            let mut bytes = vec![0; ranges.iter().map(|range| range.1 as usize).sum()];
            draws.fill(&mut bytes);
            let expected = one_by_one(&shape, &record, &image, &ranges, &bytes);
            let before = image.clone();
            let answer = write_list(&shape, &record, &mut image, &ranges, &bytes);
            assert_eq!(answer, expected.as_ref().err().copied().unwrap_or((0, 0)));
            accepted += u64::from(answer.0 == 0);
            assert_eq!(image, expected.unwrap_or(before));
            match draws.draw(4) {
                0 => record = fail(&shape, &record, &image, draws.draw(7)).1,
                1 => record = repair(&shape, &record, &mut image).1,
                _ => {}
            }
        }
        assert!((100..=300).contains(&accepted), "{accepted} of 400");
    }
}

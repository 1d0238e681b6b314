//! A whole pool as text: the hex lines of all its frames, and back.
//!
//! Document 02, order 1: the reader "accepts exactly what the writer makes for
//! the whole pool, targets rising and frames rising within each, nothing
//! before, between or after. Anything else is refused with new number 12 and
//! the number of the first wrong line, counted from 1; a missing end counts as
//! a wrong line. On refusal the image is zeros".

use crate::hexline::line_of;
use crate::layout::Layout;

/// The target and frame of each line, in the order of the lines.
fn frames_in_order(layout: &Layout) -> impl Iterator<Item = (u64, u64)> {
    let frames = layout.derived().frames;
    (0..layout.p).flat_map(move |target| (0..frames).map(move |frame| (target, frame)))
}

/// P·L·T·(11+2U), the bytes of the text; 0 for a refused layout.
pub fn text_length(layout: &Layout) -> u64 {
    let (refusal, numbers) = layout.numbers();
    match refusal {
        0 => layout.p * numbers.frames * (11 + 2 * layout.u),
        _ => 0,
    }
}

/// Refusals 1 and 2.
fn image_refusal(layout: &Layout, image: &[u8]) -> u64 {
    let (refusal, numbers) = layout.numbers();
    if refusal != 0 {
        1
    } else if image.len() as u64 != numbers.image {
        2
    } else {
        0
    }
}

/// Public call: writes the lines of all frames; refusals 1, 2, 5, and then the
/// whole text is zeros.
pub fn write_text(layout: &Layout, image: &[u8], text: &mut [u8]) -> u64 {
    let refusal = match image_refusal(layout, image) {
        0 if text.len() as u64 != text_length(layout) => 5,
        refusal => refusal,
    };
    if refusal != 0 {
        text.fill(0);
        return refusal;
    }
    // "Frame r of target p begins at p·L·T·U + r·U": the units of an image lie
    // in the order of the lines.
    let units = image.chunks(layout.u as usize);
    let lines: String = frames_in_order(layout)
        .zip(units)
        .map(|((target, frame), unit)| line_of(target, frame, unit))
        .collect();
    text.copy_from_slice(lines.as_bytes());
    0
}

/// Public call: fills the image from such a text; the refusal (1, 2, 12) and
/// the first wrong line (0 unless the refusal is 12). Refused, the image is all
/// zeros over its whole length.
pub fn read_text(layout: &Layout, text: &[u8], image: &mut [u8]) -> (u64, u64) {
    let answer = match image_refusal(layout, image) {
        0 => match units_of(layout, text) {
            Ok(units) => {
                image.copy_from_slice(&units.concat());
                return (0, 0);
            }
            Err(wrong) => (12, wrong),
        },
        refusal => (refusal, 0),
    };
    image.fill(0);
    answer
}

/// The units that a text tells, in the order of its lines, or the number of
/// its first wrong line. A line reaches up to its newline; one that no newline
/// ends is wrong, and so is one that is not there.
fn units_of(layout: &Layout, text: &[u8]) -> Result<Vec<Vec<u8>>, u64> {
    let mut lines = text.split_inclusive(|byte| *byte == b'\n');
    let mut units = Vec::new();
    for (target, frame) in frames_in_order(layout) {
        let number = units.len() as u64 + 1;
        let line = lines.next().ok_or(number)?;
        let unit = unit_of(line).ok_or(number)?;
        let is_made = line_of(target, frame, &unit).as_bytes() == line;
        if !is_made || unit.len() as u64 != layout.u {
            return Err(number);
        }
        units.push(unit);
    }
    match lines.next() {
        None => Ok(units),
        Some(_) => Err(units.len() as u64 + 1),
    }
}

/// The bytes that a line's third word tells, however badly it is written:
/// whether it is what the writer makes is seen by making it again.
fn unit_of(line: &[u8]) -> Option<Vec<u8>> {
    let line = std::str::from_utf8(line).ok()?;
    let digits = line.trim_end().split(' ').nth(2)?;
    let byte = |pair: &[u8]| {
        let pair = std::str::from_utf8(pair).ok()?;
        u8::from_str_radix(pair, 16).ok()
    };
    digits.as_bytes().chunks(2).map(byte).collect()
}

#[cfg(test)]
mod tests {
    use super::*;
    use crate::draws::Draws;
    use crate::hexline::hex_line;
    use crate::layout::layout;

    const LINES: &[u8] = b"00 000000 0000\n01 000000 4142\n02 000000 4142\n";
    const IMAGE: [u8; 6] = [0, 0, 0x41, 0x42, 0x41, 0x42];

    fn three() -> Layout {
        layout(1, 1, 3, 2, 1, 0)
    }

    fn drawn(draws: &mut Draws) -> (Layout, Vec<u8>, Vec<u8>) {
        let (n, k) = (1 + draws.draw(4), draws.draw(4));
        let p = n + 2 * k + draws.draw(5);
        let shape = layout(n, k, p, 1 + draws.draw(5), 1 + draws.draw(3), draws.high())
            .in_edition(1 + draws.draw(2));
        let mut image = vec![0; shape.derived().image as usize];
        draws.fill(&mut image);
        let mut text = vec![1; text_length(&shape) as usize];
        assert_eq!(write_text(&shape, &image, &mut text), 0);
        (shape, image, text)
    }

    /// What the reader says to a text that it must refuse.
    fn wrong_line(shape: &Layout, text: &[u8]) -> u64 {
        let mut image = vec![7; shape.derived().image as usize];
        let (refusal, line) = read_text(shape, text, &mut image);
        assert_eq!(refusal, 12);
        assert!(image.iter().all(|byte| *byte == 0));
        line
    }

    #[test]
    fn the_text_is_the_hex_lines_one_after_the_other() {
        let mut draws = Draws::new(5);
        for _ in 0..40 {
            let (shape, image, text) = drawn(&mut draws);
            let mut line = vec![1; 11 + 2 * shape.u as usize];
            let mut lines = Vec::new();
            for (target, frame) in frames_in_order(&shape) {
                assert_eq!(hex_line(&shape, &image, target, frame, &mut line), 0);
                lines.extend_from_slice(&line);
            }
            assert_eq!(text, lines);
        }
    }

    #[test]
    fn reading_what_was_written_gives_the_image_back() {
        let mut draws = Draws::new(6);
        for _ in 0..40 {
            let (shape, image, text) = drawn(&mut draws);
            let mut back = vec![7; image.len()];
            assert_eq!(read_text(&shape, &text, &mut back), (0, 0));
            assert_eq!(back, image);
        }
    }

    #[test]
    fn any_other_byte_is_another_image_or_wrong_in_its_line() {
        let shape = three();
        for at in 0..LINES.len() {
            for byte in 0..=255 {
                let mut text = LINES.to_vec();
                text[at] = byte;
                let is_digit = at % 15 >= 10 && at % 15 < 14;
                if text == LINES || (is_digit && b"0123456789abcdef".contains(&byte)) {
                    let (mut image, mut again) = ([7; 6], [1; 45]);
                    assert_eq!(read_text(&shape, &text, &mut image), (0, 0));
                    assert_eq!(write_text(&shape, &image, &mut again), 0);
                    assert_eq!(again, text[..]);
                } else {
                    assert_eq!(wrong_line(&shape, &text), at as u64 / 15 + 1);
                }
            }
        }
    }

    #[test]
    fn a_text_that_ends_early_is_wrong_where_it_ends() {
        for end in 0..LINES.len() {
            assert_eq!(wrong_line(&three(), &LINES[..end]), end as u64 / 15 + 1);
        }
    }

    #[test]
    fn anything_after_the_last_line_is_the_line_after_it() {
        for more in [&b"\n"[..], b"\0", b"\xff", b"03 000000 4142\n", LINES] {
            assert_eq!(wrong_line(&three(), &[LINES, more].concat()), 4);
        }
    }

    #[test]
    fn the_first_wrong_line_is_told() {
        let wrong = |text: &str| wrong_line(&three(), text.as_bytes());
        assert_eq!(
            wrong("\n00 000000 0000\n01 000000 4142\n02 000000 4142\n"),
            1
        );
        assert_eq!(wrong("01 000000 4142\n00 000000 0000\n02 000000 4142\n"), 1);
        assert_eq!(wrong("00 000000 0000\n00 000000 0000\n02 000000 4142\n"), 2);
        assert_eq!(wrong("00 000000 0000\n02 000000 4142\n"), 2);
        assert_eq!(
            wrong("00 000000 0000\n01 000000 4142\r\n02 000000 4142\r\n"),
            2
        );
        assert_eq!(
            wrong("00 000000 0000\n01  000000 4142\n02 000000 4142\n"),
            2
        );
        assert_eq!(wrong("00 000000 0000\n01 000000 414\n02 000000 41422\n"), 2);
        assert_eq!(wrong("00 000000 0000\n01 000000 +1+2\n02 000000 4142\n"), 2);
        assert_eq!(wrong("00 000000 0000\n01 000000 4142\n02 000001 4142\n"), 3);
        assert_eq!(wrong("00 000000 0000\n01 000000 4142\n02 000000 414A\n"), 3);
        assert_eq!(
            wrong("00 000000 0000\n01 000000 4142\n02 000000 414243\n"),
            3
        );
    }

    #[test]
    fn the_lowest_refusal_is_given_and_leaves_zeros() {
        let refused = layout(1, 1, 3, 0, 1, 0);
        let writes = |shape: &Layout, image: &[u8], length| {
            let mut text = vec![7; length];
            let refusal = write_text(shape, image, &mut text);
            assert!(text.iter().all(|byte| *byte == 0));
            refusal
        };
        assert_eq!(writes(&refused, &IMAGE[1..], 44), 1);
        assert_eq!(writes(&three(), &IMAGE[1..], 44), 2);
        assert_eq!(writes(&three(), &IMAGE, 44), 5);
        assert_eq!(writes(&three(), &IMAGE, 46), 5);
        assert_eq!(writes(&three(), &IMAGE, 0), 5);
        let reads = |shape: &Layout, length| {
            let mut image = vec![7; length];
            let answer = read_text(shape, &LINES[1..], &mut image);
            assert!(image.iter().all(|byte| *byte == 0));
            answer
        };
        assert_eq!(reads(&refused, 5), (1, 0));
        assert_eq!(reads(&three(), 5), (2, 0));
        assert_eq!(reads(&three(), 7), (2, 0));
        assert_eq!(reads(&three(), 6), (12, 1));
    }
}

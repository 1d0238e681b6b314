//! A row's settings as text, with versions.
//!
//! Document 02, order 11: "Each row keeps its layout numbers as hex lines, one
//! record a line, the newest last. A line is the version (2 digits), N, K, P (2
//! each), U (4), T (6), cookie (16), and in version 2 the edition (2), lower
//! case, single spaces between, newline: 41 or 44 bytes. Adding a record appends
//! a line after the used length of a lent buffer, or is refused: 1 for bad
//! numbers, a version not 1 or 2, or edition 2 in version 1, 5 for a used length
//! above the buffer, 10 if too little room is left. The reader gives the newest
//! record, 5 likewise, or 11 if there is none. Another version, or numbers
//! outside the bounds, make a line malformed. A version-1 reader that meets
//! version 2 with edition 1 as the newest shows the same layout; with edition 2
//! it refuses with number 17, never a wrong layout. Version 1 read by the new
//! reader is edition 1. A malformed line anywhere is 12 with its number."

use crate::layout::{layout, Layout};
use crate::replay::{line_of_layout, numbers_of};

/// "5 for a used length above the buffer".
const ABOVE_THE_BUFFER: u64 = 5;
/// "10 if too little room is left".
const NO_ROOM: u64 = 10;
/// "11 if there is none".
const NO_RECORD: u64 = 11;
/// "A malformed line anywhere is 12 with its number."
const MALFORMED: u64 = 12;
/// "with edition 2 it refuses with number 17".
pub const UNKNOWN_EDITION: u64 = 17;

/// What a reader says: refused, the layout is all zeros, and the line is that of
/// a 12, else 0.
#[derive(Clone, Copy, Debug, Default, PartialEq, Eq)]
pub struct Settings {
    pub refusal: u64,
    pub line: u64,
    pub layout: Layout,
}

/// Whether a line of this version may tell this layout: its numbers are within
/// the bounds, and version 1 has edition 1 alone.
fn is_record(version: u64, y: &Layout) -> bool {
    let has_edition = match version {
        1 => y.edition == 1,
        2 => true,
        _ => false,
    };
    has_edition && y.refusal() == 0
}

/// The line of a record. Every number must have room in its digits; version 1
/// has none for the edition.
pub fn line_of(version: u64, y: &Layout) -> String {
    let six = line_of_layout(y);
    match version {
        1 => format!("{version:02x} {six}"),
        _ => format!("{version:02x} {} {:02x}\n", six.trim_end(), y.edition),
    }
}

/// The layout that a line tells, `None` where it is malformed: whether it has its
/// form is seen by writing what it seems to tell as a line again.
fn record_of(line: &[u8]) -> Option<Layout> {
    let (version, y) = match numbers_of(line)?[..] {
        [1, n, k, p, u, t, cookie] => (1, layout(n, k, p, u, t, cookie)),
        [2, n, k, p, u, t, cookie, edition] => {
            (2, layout(n, k, p, u, t, cookie).in_edition(edition))
        }
        _ => return None,
    };
    let is_right = is_record(version, &y) && line_of(version, &y).as_bytes() == line;
    is_right.then_some(y)
}

/// Public call: appends a record to the first `used` bytes; the refusal (1, 5,
/// 10) and the used length afterwards, which comes back as it was where refused,
/// and then no byte changes.
pub fn add(version: u64, y: &Layout, buffer: &mut [u8], used: usize) -> (u64, usize) {
    if !is_record(version, y) {
        return (1, used);
    }
    let line = line_of(version, y).into_bytes();
    let Some(rest) = buffer.get_mut(used..) else {
        return (ABOVE_THE_BUFFER, used);
    };
    let Some(room) = rest.get_mut(..line.len()) else {
        return (NO_ROOM, used);
    };
    room.copy_from_slice(&line);
    (0, used + line.len())
}

/// The layouts of all records, the oldest first, or the refusal and the line that
/// earns it. A line reaches up to its newline; one that is cut by the end of the
/// text has none, and is malformed.
fn records(buffer: &[u8], used: usize) -> Result<Vec<Layout>, (u64, u64)> {
    let text = buffer.get(..used).ok_or((ABOVE_THE_BUFFER, 0))?;
    let lines = text.split_inclusive(|byte| *byte == b'\n');
    let told = (1..).zip(lines);
    told.map(|(number, line)| record_of(line).ok_or((MALFORMED, number)))
        .collect()
}

/// The newest record of a text, or why there is none.
fn newest_record(buffer: &[u8], used: usize) -> Result<Layout, (u64, u64)> {
    let records = records(buffer, used)?;
    records.last().copied().ok_or((NO_RECORD, 0))
}

fn shown(record: Result<Layout, (u64, u64)>) -> Settings {
    match record {
        Ok(layout) => Settings {
            layout,
            ..Settings::default()
        },
        Err((refusal, line)) => Settings {
            refusal,
            line,
            ..Settings::default()
        },
    }
}

/// Public call: the newest record of the first `used` bytes; refusals 5, 11, 12.
pub fn newest(buffer: &[u8], used: usize) -> Settings {
    shown(newest_record(buffer, used))
}

/// Public call: the same by a reader of version 1, which knows edition 1 alone;
/// refusals 5, 11, 12, 17.
pub fn newest_old(buffer: &[u8], used: usize) -> Settings {
    let known = |y: Layout| match y.edition {
        1 => Ok(y),
        _ => Err((UNKNOWN_EDITION, 0)),
    };
    shown(newest_record(buffer, used).and_then(known))
}

#[cfg(test)]
mod tests {
    use super::*;
    use crate::draws::Draws;

    const FIRST: &[u8] = b"01 02 01 05 0008 000001 0000000000000007\n";
    const SECOND: &[u8] = b"02 10 03 40 1000 010000 0123456789abcdef 02\n";

    fn small() -> Layout {
        layout(2, 1, 5, 8, 1, 7)
    }

    fn large() -> Layout {
        layout(16, 3, 64, 4096, 65_536, 0x0123_4567_89ab_cdef).in_edition(2)
    }

    fn refused(refusal: u64, line: u64) -> Settings {
        Settings {
            refusal,
            line,
            layout: layout(0, 0, 0, 0, 0, 0).in_edition(0),
        }
    }

    fn told(layout: Layout) -> Settings {
        Settings {
            refusal: 0,
            line: 0,
            layout,
        }
    }

    /// What both readers say of a whole buffer, where it is the same.
    fn both(text: &[u8]) -> Settings {
        let settings = newest(text, text.len());
        assert_eq!(newest_old(text, text.len()), settings, "{text:?}");
        settings
    }

    fn drawn(draws: &mut Draws) -> (u64, Layout) {
        let (n, k) = (1 + draws.draw(16), draws.draw(4));
        let p = n + 2 * k + draws.draw(65 - n - 2 * k);
        let (u, t) = (1 + draws.draw(4096), 1 + draws.wide() % 65_536);
        let y = layout(n, k, p, u, t, draws.high());
        match draws.draw(3) {
            0 => (1, y),
            edition => (2, y.in_edition(edition)),
        }
    }

    #[test]
    fn a_line_has_41_bytes_or_44() {
        assert_eq!(line_of(1, &small()).as_bytes(), FIRST);
        assert_eq!(line_of(2, &large()).as_bytes(), SECOND);
        assert_eq!((FIRST.len(), SECOND.len()), (41, 44));
    }

    #[test]
    fn a_text_grows_line_by_line_and_keeps_what_lies_after_it() {
        let mut draws = Draws::new(11);
        for _ in 0..60 {
            let mut buffer = vec![0; draws.draw(400) as usize];
            draws.fill(&mut buffer);
            let (mut used, mut newest_y) = (0, None);
            for _ in 0..10 {
                let (version, y) = drawn(&mut draws);
                let before = buffer.clone();
                let length = if version == 1 { 41 } else { 44 };
                let (refusal, grown) = add(version, &y, &mut buffer, used);
                if before.len() - used < length {
                    assert_eq!((refusal, grown, &buffer), (10, used, &before));
                    continue;
                }
                assert_eq!((refusal, grown), (0, used + length));
                assert_eq!(buffer[..used], before[..used]);
                assert_eq!(buffer[used..grown], *line_of(version, &y).as_bytes());
                assert_eq!(buffer[grown..], before[grown..]);
                (used, newest_y) = (grown, Some(y));
            }
            let wanted = newest_y.map_or(refused(11, 0), told);
            assert_eq!(newest(&buffer, used), wanted);
            let is_known = wanted.layout.edition < 2;
            let old = if is_known { wanted } else { refused(17, 0) };
            assert_eq!(newest_old(&buffer, used), old);
        }
    }

    /// Another byte in a line of a text of three: another record, or malformed
    /// with the number of its line.
    #[test]
    fn any_other_byte_is_another_record_or_malformed() {
        let text = [FIRST, SECOND, FIRST].concat();
        for at in 0..text.len() {
            let number = 1 + u64::from(at >= 41) + u64::from(at >= 85);
            for byte in 0..=255 {
                let mut other = text.clone();
                other[at] = byte;
                let answer = both(&other);
                if answer.refusal != 0 {
                    assert_eq!(answer, refused(12, number), "{byte} at {at}");
                } else if number < 3 {
                    assert_eq!(answer, told(small()));
                } else {
                    assert_eq!(line_of(1, &answer.layout).as_bytes(), &other[85..]);
                }
            }
        }
    }

    /// One digit is another number: within the bounds it is told, else the line
    /// is malformed.
    #[test]
    fn a_number_outside_its_bounds_is_malformed() {
        let reads = |line: &str| both(line.as_bytes()).refusal;
        for line in [
            "01 01 00 01 0001 000001 0000000000000000\n",
            "01 10 03 16 0001 000001 0000000000000000\n",
            "01 01 00 40 1000 010000 ffffffffffffffff\n",
            "02 01 00 01 0001 000001 0000000000000000 01\n",
        ] {
            assert_eq!(reads(line), 0, "{line}");
        }
        for line in [
            "01 00 00 01 0001 000001 0000000000000000\n",
            "01 11 00 40 0001 000001 0000000000000000\n",
            "01 01 04 40 0001 000001 0000000000000000\n",
            "01 10 03 15 0001 000001 0000000000000000\n",
            "01 01 00 00 0001 000001 0000000000000000\n",
            "01 01 00 41 0001 000001 0000000000000000\n",
            "01 01 00 01 0000 000001 0000000000000000\n",
            "01 01 00 01 1001 000001 0000000000000000\n",
            "01 01 00 01 0001 000000 0000000000000000\n",
            "01 01 00 01 0001 010001 0000000000000000\n",
            "02 01 00 01 0001 000001 0000000000000000 00\n",
            "02 01 00 01 0001 000001 0000000000000000 03\n",
            "02 01 00 01 0001 000001 0000000000000000 ff\n",
        ] {
            assert_eq!(reads(line), 12, "{line}");
        }
    }

    #[test]
    fn a_line_has_the_form_of_its_version() {
        let six = "01 00 01 0001 000001 0000000000000000";
        for line in [
            format!("00 {six}\n"),
            format!("03 {six}\n"),
            format!("03 {six} 01\n"),
            format!("ff {six} 01\n"),
            format!("01 {six} 01\n"),
            format!("02 {six}\n"),
            format!("02 {six} 1\n"),
            format!("02 {six} 001\n"),
            format!("01  {six}\n"),
            format!(" 01 {six}\n"),
            format!("01 {six} \n"),
            format!("01 {six}\r\n"),
            format!("01 {six}"),
            format!("1 {six}\n"),
            format!("+1 {six}\n"),
            format!("01 {}\n", &six[1..]),
            "\n".to_string(),
            "01\n".to_string(),
        ] {
            assert_eq!(both(line.as_bytes()), refused(12, 1), "{line:?}");
        }
        let upper = String::from_utf8_lossy(SECOND).to_uppercase();
        assert_eq!(both(upper.as_bytes()), refused(12, 1));
    }

    #[test]
    fn the_first_malformed_line_is_told() {
        for number in 1..=4 {
            let mut lines = vec![FIRST; 4];
            lines[number - 1] = b"\n";
            assert_eq!(both(&lines.concat()), refused(12, number as u64));
            lines[3] = b"\n";
            assert_eq!(both(&lines.concat()), refused(12, number as u64));
        }
    }

    /// A text is cut by its used length wherever that ends: behind a line it is
    /// the text of the lines before, elsewhere its last line is malformed.
    #[test]
    fn only_the_used_part_is_read() {
        let text = [FIRST, SECOND, FIRST].concat();
        for used in 0..=text.len() {
            let (new, old) = (newest(&text, used), newest_old(&text, used));
            match used {
                0 => assert_eq!((new, old), (refused(11, 0), refused(11, 0))),
                85 => assert_eq!((new, old), (told(large()), refused(17, 0))),
                41 | 126 => assert_eq!((new, old), (told(small()), told(small()))),
                _ => {
                    let number = 1 + u64::from(used > 41) + u64::from(used > 85);
                    assert_eq!((new, old), (refused(12, number), refused(12, number)));
                }
            }
            let mut spoilt = text.clone();
            spoilt[used..].fill(b'\n');
            assert_eq!(
                (newest(&spoilt, used), newest_old(&spoilt, used)),
                (new, old)
            );
        }
        for used in [127, usize::MAX] {
            assert_eq!(newest(&text, used), refused(5, 0));
            assert_eq!(newest_old(&text, used), refused(5, 0));
        }
    }

    #[test]
    fn the_lowest_refusal_is_given_and_nothing_changes() {
        let refuses = |version, y: &Layout, length, used| {
            let mut buffer = vec![7; length];
            let (refusal, after) = add(version, y, &mut buffer, used);
            assert_eq!((after, buffer), (used, vec![7; length]));
            refusal
        };
        let max = usize::MAX;
        for version in [0, 3, 0x101, 1 << 32 | 1, u64::MAX] {
            assert_eq!(refuses(version, &small(), 10, 11), 1);
            assert_eq!(refuses(version, &small(), 100, 0), 1);
        }
        assert_eq!(refuses(1, &large(), 10, 11), 1);
        assert_eq!(refuses(2, &small().in_edition(0), 100, 0), 1);
        assert_eq!(refuses(2, &small().in_edition(3), 100, 0), 1);
        assert_eq!(refuses(2, &layout(2, 1, 3, 8, 1, 7), 100, 0), 1);
        assert_eq!(refuses(1, &small(), 10, 11), 5);
        assert_eq!(refuses(1, &small(), 0, max), 5);
        assert_eq!(refuses(1, &small(), 10, 10), 10);
        assert_eq!(refuses(1, &small(), 50, 10), 10);
        assert_eq!(refuses(2, &small(), 43, 0), 10);
        assert_eq!(add(1, &small(), &mut [7; 51], 10), (0, 51));
        assert_eq!(add(2, &small(), &mut [7; 44], 0), (0, 44));
    }
}

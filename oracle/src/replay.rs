//! A kiosk's day replayed from its lines.
//!
//! Document 02, order 4: "Lines of hex, one event a line: write (offset,
//! bytes), fail (target), repair, read (offset, length). The first line holds
//! the six layout numbers; where it is malformed, or the pool exceeds 32,768
//! bytes, 13 is printed and the run ends, and where the numbers are refused, 1
//! is. The program runs the events from a zero pool and prints each answer. A
//! malformed line prints number 13 and the run goes on with the next line.
//! Lines have at most 8,300 bytes before the newline; a longer one is malformed
//! up to its newline." And order 8: "Document 01's examples and the replay stay
//! edition 1."

use crate::layout::{layout, range_refusal, Layout};
use crate::pool::{fail, pool_refusal, read, repair, write, Record};

/// "Lines have at most 8,300 bytes before the newline".
pub const LONGEST_LINE: usize = 8_300;
/// "or the pool exceeds 32,768 bytes".
pub const LARGEST_IMAGE: u64 = 32_768;
/// A malformed line, or a pool too large for a replay.
pub const MALFORMED: u64 = 13;
/// The six digits of the tiles can tell no more.
const MOST_TILES: u64 = 0xff_ffff;

/// What the first line says: refused, the layout is all zeros and the image 0.
#[derive(Clone, Copy, Debug, PartialEq, Eq)]
pub struct First {
    pub refusal: u64,
    pub layout: Layout,
    /// The bytes of the pool's image.
    pub image: u64,
}

/// What a line's event answers, with its newline, and the record afterwards.
#[derive(Clone, Debug, PartialEq, Eq)]
pub struct Played {
    pub refusal: u64,
    pub answer: Vec<u8>,
    pub record: Record,
}

/// What a line after the first may tell.
#[derive(Clone, Debug, PartialEq, Eq)]
pub enum Event {
    Write { offset: u64, bytes: Vec<u8> },
    Fail { target: u8 },
    Repair,
    Read { offset: u64, length: u64 },
}

impl Event {
    /// The line that tells this event, with its newline.
    pub fn line(&self) -> String {
        match self {
            Event::Write { offset, bytes } => format!("01 {offset:016x} {}\n", hex(bytes)),
            Event::Fail { target } => format!("02 {target:02x}\n"),
            Event::Repair => "03\n".to_string(),
            Event::Read { offset, length } => format!("04 {offset:016x} {length:016x}\n"),
        }
    }
}

/// The first line that tells this layout. Every number must have room in its
/// digits; the edition, which has none, is not told.
pub fn line_of_layout(y: &Layout) -> String {
    let Layout {
        n,
        k,
        p,
        u,
        t,
        cookie,
        edition: _,
    } = y;
    format!("{n:02x} {k:02x} {p:02x} {u:04x} {t:06x} {cookie:016x}\n")
}

fn hex(bytes: &[u8]) -> String {
    bytes.iter().map(|byte| format!("{byte:02x}")).collect()
}

/// The words of a line, however badly it is written: whether it has its form is
/// seen by writing what it seems to tell as a line again.
fn words_of(line: &[u8]) -> Option<Vec<&str>> {
    let line = std::str::from_utf8(line).ok()?;
    Some(line.trim_end_matches('\n').split(' ').collect())
}

fn number(word: &str) -> Option<u64> {
    u64::from_str_radix(word, 16).ok()
}

/// The numbers that the words of a line tell, however badly it is written.
pub(crate) fn numbers_of(line: &[u8]) -> Option<Vec<u64>> {
    words_of(line)?.into_iter().map(number).collect()
}

fn byte(pair: &[u8]) -> Option<u8> {
    u8::from_str_radix(std::str::from_utf8(pair).ok()?, 16).ok()
}

/// The event that a line tells, `None` where it is malformed.
fn event_of(line: &[u8]) -> Option<Event> {
    let event = match words_of(line)?[..] {
        ["01", offset, digits] => Event::Write {
            offset: number(offset)?,
            bytes: digits
                .as_bytes()
                .chunks(2)
                .map(byte)
                .collect::<Option<_>>()?,
        },
        ["02", target] => Event::Fail {
            target: byte(target.as_bytes())?,
        },
        ["03"] => Event::Repair,
        ["04", offset, length] => Event::Read {
            offset: number(offset)?,
            length: number(length)?,
        },
        _ => return None,
    };
    let is_form = event.line().as_bytes() == line && line.len() <= LONGEST_LINE + 1;
    is_form.then_some(event)
}

/// The layout that a first line tells, of edition 1, `None` where it is
/// malformed.
fn layout_of(line: &[u8]) -> Option<Layout> {
    let [n, k, p, u, t, cookie] = numbers_of(line)?[..] else {
        return None;
    };
    let has_room = n <= 0xff && k <= 0xff && p <= 0xff && u <= 0xffff && t <= MOST_TILES;
    let y = layout(n, k, p, u, t, cookie);
    (has_room && line_of_layout(&y).as_bytes() == line).then_some(y)
}

/// Public call: what a first line, with its newline, says; refusals 13 and 1.
/// The numbers are tested before the size.
pub fn first_line(line: &[u8]) -> First {
    let refused = |refusal| First {
        refusal,
        layout: Layout::default(),
        image: 0,
    };
    let Some(y) = layout_of(line) else {
        return refused(MALFORMED);
    };
    match y.numbers() {
        (0, numbers) if numbers.image <= LARGEST_IMAGE => First {
            refusal: 0,
            layout: y,
            image: numbers.image,
        },
        (0, _) => refused(MALFORMED),
        (refusal, _) => refused(refusal),
    }
}

/// Public call: plays one line, with its newline. Refusal 5 where the answer's
/// buffer has less than 24 + 2·(bytes of the image) bytes; nothing is played
/// then.
pub fn play_line(y: &Layout, r: &Record, image: &mut [u8], line: &[u8], room: usize) -> Played {
    if (room as u128) < 24 + 2 * image.len() as u128 {
        return Played {
            refusal: 5,
            answer: Vec::new(),
            record: *r,
        };
    }
    let (words, record) = match event_of(line) {
        Some(event) => answer_to(y, r, image, &event),
        None => (MALFORMED.to_string(), *r),
    };
    Played {
        refusal: 0,
        answer: format!("{words}\n").into_bytes(),
        record,
    }
}

/// The answer without its newline, and the record after the event.
fn answer_to(y: &Layout, r: &Record, image: &mut [u8], event: &Event) -> (String, Record) {
    match event {
        Event::Write { offset, bytes } => (write(y, r, image, *offset, bytes).to_string(), *r),
        Event::Fail { target } => {
            let (refusal, record) = fail(y, r, image, u64::from(*target));
            (refusal.to_string(), record)
        }
        Event::Repair => match repair(y, r, image) {
            (0, record, missing) => (format!("0 {missing}"), record),
            (refusal, record, _) => (refusal.to_string(), record),
        },
        Event::Read { offset, length } => (answer_to_read(y, r, image, *offset, *length), *r),
    }
}

/// A read's length is any 64-bit number, and no buffer may have it: what is
/// refused is told from the numbers, and a buffer is made for the rest alone.
fn answer_to_read(y: &Layout, r: &Record, image: &[u8], offset: u64, length: u64) -> String {
    let refusal = match pool_refusal(y, r, image) {
        0 => range_refusal(y, offset, length),
        refusal => refusal,
    };
    if refusal != 0 {
        return refusal.to_string();
    }
    let mut bytes = vec![0; length as usize];
    let refusal = read(y, r, image, offset, &mut bytes);
    assert_eq!(refusal, 0, "the pool and the range are good");
    format!("0 {}", hex(&bytes))
}

/// The whole program: what it prints for this standard input.
pub fn replay(input: &[u8]) -> Vec<u8> {
    let mut lines = input.split_inclusive(|byte| *byte == b'\n');
    // An empty input has no first line, which is as good as a malformed one.
    let first = first_line(lines.next().unwrap_or_default());
    if first.refusal != 0 {
        return format!("{}\n", first.refusal).into_bytes();
    }
    let mut image = vec![0; first.image as usize];
    let room = 24 + 2 * image.len();
    let mut record = Record::default();
    let mut output = Vec::new();
    for line in lines {
        let played = play_line(&first.layout, &record, &mut image, line, room);
        assert_eq!(played.refusal, 0, "the answer has room");
        output.extend(played.answer);
        record = played.record;
    }
    output
}

#[cfg(test)]
mod tests {
    use super::*;
    use crate::draws::Draws;

    const FIRST: &str = "01 01 04 0004 000001 0000000000000000\n";
    const MAX: u64 = u64::MAX;

    /// Document 01's row of four targets: a file of 16 bytes, an image of 48.
    fn four() -> Layout {
        layout(1, 1, 4, 4, 1, 0)
    }

    /// What is printed for these lines after the first line of the row.
    fn printed(lines: &str) -> String {
        let input = format!("{FIRST}{lines}");
        String::from_utf8(replay(input.as_bytes())).expect("answers are ASCII")
    }

    /// What one line answers on a row of zeros.
    fn answered(line: &[u8]) -> Vec<u8> {
        let mut image = [0; 48];
        let played = play_line(&four(), &Record::default(), &mut image, line, 120);
        assert_eq!(played.refusal, 0);
        played.answer
    }

    fn write_line(offset: u64, length: usize) -> Vec<u8> {
        let bytes = vec![0x5a; length];
        Event::Write { offset, bytes }.line().into_bytes()
    }

    #[test]
    fn a_day_by_hand() {
        let lines = "04 0000000000000000 0000000000000004\n\
                     01 0000000000000001 4142\n\
                     04 0000000000000000 0000000000000004\n\
                     03\n02 03\n02 03\n02 00\n02 04\n\
                     04 0000000000000000 0000000000000010\n\
                     03\n03\n\
                     04 0000000000000001 0000000000000002\n";
        let answers = "0 00000000\n0\n0 00414200\n0 0\n0\n6\n7\n4\n\
                       0 00414200000000000000000000000000\n0 2\n0 0\n0 4142\n";
        assert_eq!(printed(lines), answers);
    }

    #[test]
    fn nothing_is_written_and_read_with_a_space() {
        assert_eq!(answered(b"01 0000000000000010 \n"), b"0\n");
        assert_eq!(answered(b"01 0000000000000010\n"), b"13\n");
        assert_eq!(answered(b"01 0000000000000011 \n"), b"4\n");
        let nothing = b"04 0000000000000010 0000000000000000\n";
        assert_eq!(answered(nothing), b"0 \n");
    }

    #[test]
    fn a_read_is_refused_from_its_numbers() {
        for (offset, length) in [(0, 17), (16, 1), (17, 0), (0, MAX), (1, MAX), (MAX, 0)] {
            let line = Event::Read { offset, length }.line();
            assert_eq!(answered(line.as_bytes()), b"4\n");
        }
        for (offset, length) in [(MAX, 1), (MAX, MAX), (1 << 63, 1 << 63), (16, MAX - 15)] {
            let line = Event::Read { offset, length }.line();
            assert_eq!(answered(line.as_bytes()), b"4\n");
        }
    }

    #[test]
    fn any_other_byte_is_another_argument_or_malformed() {
        let lines = [
            "01 0000000000000010 4142\n",
            "02 04\n",
            "03\n",
            "04 0000000000000000 0000000000000011\n",
        ];
        for good in lines {
            assert_ne!(answered(good.as_bytes()), b"13\n");
            for at in 0..good.len() {
                for byte in 0..=255 {
                    let mut line = good.as_bytes().to_vec();
                    line[at] = byte;
                    let is_digit = at >= 3 && good.as_bytes()[at].is_ascii_hexdigit();
                    // A read's line is also a write of its length's eight bytes.
                    let is_write = good.len() == 37 && line.starts_with(b"01");
                    let is_form = line == good.as_bytes()
                        || is_write
                        || (is_digit && b"0123456789abcdef".contains(&byte));
                    assert_eq!(answered(&line) != b"13\n", is_form, "{line:?}");
                }
            }
        }
    }

    #[test]
    fn a_byte_too_few_or_too_many_is_malformed() {
        for good in [
            &b"02 04\n"[..],
            b"03\n",
            &Event::Read {
                offset: 0,
                length: 1,
            }
            .line()
            .into_bytes(),
        ] {
            for at in 0..good.len() {
                let without = [&good[..at], &good[at + 1..]].concat();
                assert_eq!(answered(&without), b"13\n");
                for more in *b" 0a\n\r" {
                    let with = [&good[..at], &[more], &good[at..]].concat();
                    assert_eq!(answered(&with), b"13\n");
                }
            }
            assert_eq!(answered(&[good, good].concat()), b"13\n");
            assert_eq!(answered(&[good, b"\n"].concat()), b"13\n");
        }
        for line in [
            "",
            "\n",
            "00\n",
            "05\n",
            "01 +000000000000000 \n",
            "02 100\n",
            "02 +1\n",
            FIRST,
        ] {
            assert_eq!(answered(line.as_bytes()), b"13\n");
        }
    }

    #[test]
    fn a_line_has_at_most_8300_bytes() {
        let shape = "01 00 01 1000 000002 0000000000000000\n";
        let first = first_line(shape.as_bytes());
        assert_eq!((first.refusal, first.image), (0, 8192));
        let played = |line: &[u8]| {
            let mut image = vec![0; 8192];
            let room = 24 + 2 * 8192;
            play_line(&first.layout, &Record::default(), &mut image, line, room).answer
        };
        assert_eq!(write_line(0, 4140).len(), LONGEST_LINE + 1);
        assert_eq!(played(&write_line(0, 4140)), b"0\n");
        assert_eq!(played(&write_line(0, 4141)), b"13\n");
        let long = [shape.as_bytes(), &vec![b'0'; 20_000], b"\n03\n"].concat();
        assert_eq!(replay(&long), b"13\n0 0\n");
    }

    #[test]
    fn the_first_line_ends_the_run_where_it_is_refused() {
        let alone = |input: &[u8]| String::from_utf8(replay(input)).expect("ASCII");
        assert_eq!(alone(b""), "13\n");
        assert_eq!(alone(b"\n03\n"), "13\n");
        assert_eq!(alone(FIRST.as_bytes()), "");
        assert_eq!(alone(FIRST.trim_end().as_bytes()), "13\n");
        assert_eq!(alone(format!("{FIRST}03").as_bytes()), "13\n");
        assert_eq!(alone(format!("{FIRST}\n03\n").as_bytes()), "13\n0 0\n");
        let refused = FIRST.replace("04 0004", "02 0004");
        assert_eq!(alone(format!("{refused}03\n").as_bytes()), "1\n");
        // Numbers outside the bounds are told before a size above them.
        assert_eq!(alone(b"01 00 01 ffff ffffff 0000000000000000\n03\n"), "1\n");
        assert_eq!(
            alone(b"01 00 01 1000 000008 0000000000000000\n03\n"),
            "0 0\n"
        );
        assert_eq!(
            alone(b"01 00 01 1000 000009 0000000000000000\n03\n"),
            "13\n"
        );
        assert_eq!(
            alone(b"01 00 01 0001 008000 ffffffffffffffff\n03\n"),
            "0 0\n"
        );
        assert_eq!(
            alone(b"01 00 01 0001 008001 ffffffffffffffff\n03\n"),
            "13\n"
        );
    }

    #[test]
    fn a_refused_first_line_tells_zeros() {
        let zeros = Layout::default();
        for line in [
            &FIRST[..37],
            " \n",
            "00 00 00 0000 000000 0000000000000000\n",
        ] {
            let first = first_line(line.as_bytes());
            assert!(first.refusal != 0 && first.layout == zeros && first.image == 0);
        }
        for wide in [
            "101 01 04 0004 000001",
            "01 01 04 10004 000001",
            "01 01 04 0004 1000001",
        ] {
            let line = format!("{wide} 0000000000000000\n");
            assert_eq!(first_line(line.as_bytes()).refusal, 13);
        }
        assert_eq!(first_line(FIRST.as_bytes()).layout, four());
        assert_eq!(first_line(FIRST.as_bytes()).image, 48);
    }

    #[test]
    fn an_answer_without_room_is_5_and_nothing_is_played() {
        let line = write_line(0, 16);
        let (mut image, empty) = ([7; 48], Record::default());
        for room in [0, 119] {
            let played = play_line(&four(), &empty, &mut image, &line, room);
            assert_eq!((played.refusal, played.answer.len()), (5, 0));
            assert_eq!((image, played.record), ([7; 48], empty));
        }
        let played = play_line(&four(), &empty, &mut image, &line, 120);
        assert_eq!((played.refusal, &played.answer[..]), (0, &b"0\n"[..]));
        assert_eq!(play_line(&four(), &empty, &mut [], b"03\n", 23).refusal, 5);
    }

    #[test]
    fn a_bad_pool_is_the_answer_of_each_event() {
        let bad = Record {
            q: 1,
            ..Record::default()
        };
        let wrong = layout(1, 1, 2, 4, 1, 0);
        let big = layout(16, 3, 64, 4096, 65_536, 0);
        let lines = [
            "01 0000000000000000 41\n",
            "02 00\n",
            "03\n",
            "04 0000000000000000 00000000ffffffff\n",
        ];
        for line in lines {
            let answer = |y: &Layout, length: usize| {
                let mut image = vec![7; length];
                let played = play_line(y, &bad, &mut image, line.as_bytes(), 1000);
                assert_eq!((played.refusal, played.record), (0, bad));
                assert!(image.iter().all(|byte| *byte == 7));
                played.answer
            };
            assert_eq!(answer(&wrong, 47), b"1\n");
            assert_eq!(answer(&big, 48), b"2\n");
            assert_eq!(answer(&four(), 47), b"2\n");
            assert_eq!(answer(&four(), 48), b"3\n");
        }
    }

    #[test]
    fn the_lines_keep_the_count_of_missing_units() {
        let mut image = [0; 48];
        let mut record = Record::default();
        let mut lines = |line: &str| {
            let played = play_line(&four(), &record, &mut image, line.as_bytes(), 120);
            record = played.record;
            (played.answer, record.waiting)
        };
        assert_eq!(lines("02 03\n"), (b"0\n".to_vec(), 2));
        assert_eq!(lines("02 03\n"), (b"6\n".to_vec(), 2));
        assert_eq!(lines("02 00\n"), (b"7\n".to_vec(), 2));
        assert_eq!(lines("01 0000000000000000 41\n"), (b"0\n".to_vec(), 2));
        assert_eq!(lines("02 3\n"), (b"13\n".to_vec(), 2));
        assert_eq!(lines("03\n"), (b"0 2\n".to_vec(), 0));
        // T·C·(N+K) is 8: a fail would raise this count above it.
        let full = Record {
            waiting: 7,
            ..Record::default()
        };
        let played = play_line(&four(), &full, &mut image, b"02 03\n", 120);
        assert_eq!((&played.answer[..], played.record), (&b"3\n"[..], full));
    }

    /// An event of which one argument in some is outside.
    fn drawn(draws: &mut Draws, y: &Layout) -> Event {
        let capacity = y.derived().capacity;
        let offset = draws.draw(capacity + 1);
        let length = draws.draw(capacity - offset + 1) + u64::from(draws.draw(6) == 0);
        match draws.draw(8) {
            0 => Event::Repair,
            1 => Event::Fail {
                target: draws.draw(y.p + 1) as u8,
            },
            2..=4 => Event::Read { offset, length },
            _ => {
                let mut bytes = vec![0; length as usize];
                draws.fill(&mut bytes);
                Event::Write { offset, bytes }
            }
        }
    }

    #[test]
    fn the_lines_are_the_calls_made_directly() {
        let mut draws = Draws::new(9);
        let y = layout(2, 2, 7, 3, 2, 11);
        let (mut image, mut record) = (vec![0; y.derived().image as usize], Record::default());
        let (mut input, mut answers) = (line_of_layout(&y), String::new());
        for _ in 0..300 {
            let event = drawn(&mut draws, &y);
            input += &event.line();
            let (words, after) = match event {
                Event::Write { offset, bytes } => {
                    let refusal = write(&y, &record, &mut image, offset, &bytes);
                    (refusal.to_string(), record)
                }
                Event::Fail { target } => {
                    let (refusal, after) = fail(&y, &record, &image, u64::from(target));
                    (refusal.to_string(), after)
                }
                Event::Repair => {
                    let (_, after, missing) = repair(&y, &record, &mut image);
                    (format!("0 {missing}"), after)
                }
                Event::Read { offset, length } => {
                    let mut bytes = vec![0; length as usize];
                    match read(&y, &record, &image, offset, &mut bytes) {
                        0 => (format!("0 {}", hex(&bytes)), record),
                        refusal => (refusal.to_string(), record),
                    }
                }
            };
            answers += &format!("{words}\n");
            record = after;
        }
        assert_eq!(record.k, 2);
        assert_eq!(replay(input.as_bytes()), answers.as_bytes());
    }
}

//! What can happen to a pool's text on its way: each kind of damage by its name.

use crate::draws::Draws;
use crate::layouts;
use oracle::hexline::line_of;
use oracle::layout::Layout;
use oracle::pool_text::{text_length, write_text};
use std::ops::Range;

/// Changes a text of the layout. Some damage may leave a right text: what is right, the model says.
type Harm = fn(&mut Draws, &Layout, &mut Vec<u8>);

/// Texts of other layouts are of images up to these many bytes, usually and at most: the model takes its time.
const OTHER_IMAGE: u64 = 400;
const LONGEST_OTHER_IMAGE: u64 = 1 << 13;
pub const DIGITS: &[u8] = b"0123456789abcdef";
/// Bytes that are easily taken for a digit: those beside the digits, and those that other readers of numbers take.
pub const NEARLY_DIGITS: &[u8] = b"/:`g@GAFx+";
/// Likewise for a space, and for a newline.
pub const NEARLY_SPACES: &[u8] = b"\t_\r\n\x1f!";
pub const NEARLY_NEWLINES: &[u8] = b"\r\t\x0b\x0c ;";

pub const DAMAGES: [(&str, Harm); 21] = [
    ("upper case", upper_case),
    ("carriage returns", carriage_returns),
    ("no last newline", no_last_newline),
    ("two spaces", two_spaces),
    ("lines exchanged", lines_exchanged),
    ("a line doubled", line_doubled),
    ("a line dropped", line_dropped),
    ("another target or frame", renumbered),
    ("a line too short", line_too_short),
    ("a line too long", line_too_long),
    ("another digit", another_digit),
    ("nearly right byte", nearly_right_byte),
    ("byte 0", byte_zero),
    ("byte above 127", byte_above_127),
    ("something before", something_before),
    ("something after", something_after),
    ("a newline after", newline_after),
    ("cut", cut),
    ("empty", empty),
    ("another layout", another_layout),
    ("random bytes", random_bytes),
];

/// Damages the text in one way or more; `count` is told the number of each that changed it.
pub fn damage(draws: &mut Draws, y: &Layout, text: &mut Vec<u8>, mut count: impl FnMut(usize)) {
    loop {
        let kind = draws.below(DAMAGES.len() as u64) as usize;
        let before = text.clone();
        DAMAGES[kind].1(draws, y, text);
        if *text != before {
            count(kind);
        }
        if !draws.one_in(4) {
            return;
        }
    }
}

/// Where one of the lines lies, the first and the last one more often; none where the text has no whole line.
fn some_line(draws: &mut Draws, y: &Layout, text: &[u8]) -> Option<Range<usize>> {
    let width = 11 + 2 * y.u as usize;
    let last = (text.len() / width).checked_sub(1)?;
    let any = draws.between(0, last as u64) as usize;
    let line = draws.pick(&[0, last, any, any, any]);
    Some(line * width..(line + 1) * width)
}

/// One of the bytes of one of the lines.
fn some_byte(draws: &mut Draws, y: &Layout, text: &[u8]) -> Option<usize> {
    let line = some_line(draws, y, text)?;
    Some(draws.between(line.start as u64, line.end as u64 - 1) as usize)
}

fn upper_case(draws: &mut Draws, y: &Layout, text: &mut Vec<u8>) {
    if draws.one_in(4) {
        text.make_ascii_uppercase();
        return;
    }
    let from = some_byte(draws, y, text).unwrap_or(0);
    if let Some(letter) = text[from..].iter_mut().find(|byte| byte.is_ascii_lowercase()) {
        letter.make_ascii_uppercase();
    }
}

fn carriage_returns(draws: &mut Draws, y: &Layout, text: &mut Vec<u8>) {
    let Some(line) = some_line(draws, y, text) else { return };
    match draws.below(3) {
        0 => text.insert(line.end - 1, b'\r'),
        1 => text[line.end - 1] = b'\r',
        _ => {
            let lines = text.split_inclusive(|byte| *byte == b'\n');
            *text = lines.flat_map(|line| [&line[..line.len() - 1], b"\r\n"].concat()).collect();
        }
    }
}

fn no_last_newline(_: &mut Draws, _: &Layout, text: &mut Vec<u8>) {
    text.pop();
}

fn two_spaces(draws: &mut Draws, y: &Layout, text: &mut Vec<u8>) {
    let Some(line) = some_line(draws, y, text) else { return };
    let at = line.start + draws.pick(&[0, 2, 9, 10, line.len() - 1]);
    text.insert(at, b' ');
    if draws.one_in(2) {
        // The line keeps its length: a digit is lost.
        text.remove(at + 1);
    }
}

fn lines_exchanged(draws: &mut Draws, y: &Layout, text: &mut Vec<u8>) {
    let (one, other) = (some_line(draws, y, text), some_line(draws, y, text));
    if let (Some(one), Some(other)) = (one, other) {
        for (i, j) in one.zip(other) {
            text.swap(i, j);
        }
    }
}

fn line_doubled(draws: &mut Draws, y: &Layout, text: &mut Vec<u8>) {
    let (one, other) = (some_line(draws, y, text), some_line(draws, y, text));
    if let (Some(one), Some(other)) = (one, other) {
        let again = text[one.clone()].to_vec();
        let at = draws.pick(&[one.end, one.end, other.start]);
        text.splice(at..at, again);
    }
}

fn line_dropped(draws: &mut Draws, y: &Layout, text: &mut Vec<u8>) {
    if let Some(line) = some_line(draws, y, text) {
        text.drain(line);
    }
}

/// The line keeps its unit, but tells another target, another frame or both.
fn renumbered(draws: &mut Draws, y: &Layout, text: &mut Vec<u8>) {
    let Some(line) = some_line(draws, y, text) else { return };
    let (number, frames) = ((line.start / line.len()) as u64, y.derived().frames.max(1));
    let (target, frame) = (number / frames, number % frames);
    let bit = 1 << draws.below(24);
    let (target, frame) = match draws.below(6) {
        0 => (target + 1, frame),
        1 => (target, frame + 1),
        2 => (target.wrapping_sub(1) & 0xff, frame),
        3 => (target, frame.wrapping_sub(1) & 0xff_ffff),
        4 => (target ^ (bit & 0xff), frame),
        _ => (target, frame ^ bit),
    };
    let told = line_of(target, frame, &[]);
    text[line.start..line.start + 10].copy_from_slice(&told.as_bytes()[..10]);
}

fn line_too_short(draws: &mut Draws, y: &Layout, text: &mut Vec<u8>) {
    if let Some(at) = some_byte(draws, y, text) {
        text.remove(at);
    }
}

fn line_too_long(draws: &mut Draws, y: &Layout, text: &mut Vec<u8>) {
    if let Some(at) = some_byte(draws, y, text) {
        let digit = draws.pick(DIGITS);
        text.insert(at, draws.pick(&[text[at], b' ', b'\n', digit]));
    }
}

/// The text of another image, where the digit is one of a unit.
fn another_digit(draws: &mut Draws, y: &Layout, text: &mut Vec<u8>) {
    if let Some(at) = some_byte(draws, y, text).filter(|at| text[*at].is_ascii_hexdigit()) {
        text[at] = draws.pick(DIGITS);
    }
}

fn nearly_right_byte(draws: &mut Draws, y: &Layout, text: &mut Vec<u8>) {
    let Some(line) = some_line(draws, y, text) else { return };
    let any = draws.between(0, line.len() as u64 - 1) as usize;
    let at = line.start + draws.pick(&[any, any, any, any, 2, 9, line.len() - 1]);
    let near = match text[at] {
        b' ' => draws.pick(NEARLY_SPACES),
        b'\n' => draws.pick(NEARLY_NEWLINES),
        _ => draws.pick(NEARLY_DIGITS),
    };
    let bit = 1 << draws.below(7);
    text[at] = draws.pick(&[near, near, text[at] ^ bit]);
}

fn byte_zero(draws: &mut Draws, y: &Layout, text: &mut Vec<u8>) {
    if let Some(at) = some_byte(draws, y, text) {
        text[at] = 0;
    }
}

/// Often the right byte but for its highest bit.
fn byte_above_127(draws: &mut Draws, y: &Layout, text: &mut Vec<u8>) {
    if let Some(at) = some_byte(draws, y, text) {
        let any = draws.word() as u8;
        text[at] = 128 | draws.pick(&[text[at], any]);
    }
}

fn something_before(draws: &mut Draws, _: &Layout, text: &mut Vec<u8>) {
    let before: [&[u8]; 6] = [b"\n", b" ", b"\0", b"\xef\xbb\xbf", b"00 000000 ", b"#\n"];
    text.splice(..0, draws.pick(&before).iter().copied());
}

fn something_after(draws: &mut Draws, y: &Layout, text: &mut Vec<u8>) {
    let unit = draws.bytes(y.u as usize);
    let (next, any) = (line_of(y.p, 0, &unit).into_bytes(), draws.bytes(3));
    match draws.below(6) {
        0 => text.push(0),
        1 => text.push(b' '),
        2 => text.extend(any),
        3 => text.extend(next),
        4 => text.extend(b"\r\n"),
        _ => text.extend_from_within(..),
    }
}

fn newline_after(_: &mut Draws, _: &Layout, text: &mut Vec<u8>) {
    text.push(b'\n');
}

/// Anywhere, often behind a whole line or beside that.
fn cut(draws: &mut Draws, y: &Layout, text: &mut Vec<u8>) {
    let any = draws.between(0, text.len() as u64) as usize;
    let end = some_line(draws, y, text).map_or(0, |line| line.start);
    text.truncate(draws.pick(&[any, any, end, end + 1, end.saturating_sub(1)]));
}

fn empty(_: &mut Draws, _: &Layout, text: &mut Vec<u8>) {
    text.clear();
}

/// A right text, but of a layout that differs in one number, or of any.
fn another_layout(draws: &mut Draws, y: &Layout, text: &mut Vec<u8>) {
    let near = |number: u64, draws: &mut Draws| draws.pick(&[number + 1, number.max(2) - 1]);
    let other = match draws.below(7) {
        0 => Layout { u: near(y.u, draws), ..*y },
        1 => Layout { t: near(y.t, draws), ..*y },
        2 => Layout { p: near(y.p, draws), ..*y },
        3 => Layout { n: near(y.n, draws), ..*y },
        4 => Layout { cookie: draws.word(), ..*y },
        5 => Layout { edition: layouts::edition(draws), ..*y },
        _ => layouts::fitting(draws, OTHER_IMAGE),
    };
    let image = other.derived().image;
    if (1..=LONGEST_OTHER_IMAGE).contains(&image) {
        let image = draws.bytes(image as usize);
        *text = vec![0; text_length(&other) as usize];
        write_text(&other, &image, text);
    }
}

/// Any bytes, or any of those that a text is made of.
fn random_bytes(draws: &mut Draws, _: &Layout, text: &mut Vec<u8>) {
    draws.fill(text);
    if draws.one_in(2) {
        for byte in text {
            *byte = b"0123456789abcdef \n"[*byte as usize % 18];
        }
    }
}

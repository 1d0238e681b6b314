//! What can happen to a text of settings: each kind of damage by its name.

use crate::damages::{DIGITS, NEARLY_DIGITS, NEARLY_SPACES};
use crate::draws::Draws;
use crate::line_damages::{
    another_character, byte_above_127, byte_zero, carriage_return, character_less, character_more,
    cut, damage_by, empty, nearly_right_byte, newline_more, no_newline, random_bytes, two_spaces,
    upper_case, Harm,
};
use crate::setting_kinds::lines_of;

/// In one line, unless they are of all.
pub const SETTING_DAMAGES: [(&str, Harm); 29] = [
    ("any byte", |draws, text| in_a_line(draws, text, any_byte)),
    ("another character", |draws, text| in_a_line(draws, text, another_character)),
    ("another digit", |draws, text| in_a_line(draws, text, another_digit)),
    ("nearly right byte", |draws, text| in_a_line(draws, text, nearly_right_byte)),
    ("upper case", |draws, text| in_a_line(draws, text, upper_case)),
    ("byte 0", |draws, text| in_a_line(draws, text, byte_zero)),
    ("byte 0 between", |draws, text| in_a_line(draws, text, zero_more)),
    ("byte above 127", |draws, text| in_a_line(draws, text, byte_above_127)),
    ("a character more", |draws, text| in_a_line(draws, text, character_more)),
    ("a character less", |draws, text| in_a_line(draws, text, character_less)),
    ("two spaces", |draws, text| in_a_line(draws, text, two_spaces)),
    ("nearly a space", |draws, text| in_a_line(draws, text, nearly_a_space)),
    ("nearly a digit", |draws, text| in_a_line(draws, text, nearly_a_digit)),
    ("another version", |draws, text| in_a_line(draws, text, another_version)),
    ("another form", |draws, text| in_a_line(draws, text, another_form)),
    ("a number at a bound", |draws, text| in_a_line(draws, text, at_a_bound)),
    ("no newline", |draws, text| in_a_line(draws, text, no_newline)),
    ("a newline more", |draws, text| in_a_line(draws, text, newline_more)),
    ("carriage return", |draws, text| in_a_line(draws, text, carriage_return)),
    ("a line cut", |draws, text| in_a_line(draws, text, cut)),
    ("a line empty", |draws, text| in_a_line(draws, text, empty)),
    ("random bytes", |draws, text| in_a_line(draws, text, random_bytes)),
    ("lines exchanged", lines_exchanged),
    ("a line doubled", line_doubled),
    ("a line dropped", line_dropped),
    ("something before", something_before),
    ("something after", something_after),
    ("all in upper case", |_, text| text.make_ascii_uppercase()),
    ("all with carriage returns", carriage_returns),
];

/// The versions that a line is given: the two, those beside them, and such as differ from them in one digit or bit.
const VERSIONS: [&[u8]; 9] = [b"00", b"01", b"02", b"03", b"ff", b"10", b"11", b"12", b"81"];
/// Where each number stands in a line, and digits for it on both sides of its bounds.
const AT_BOUNDS: [(usize, &[&[u8]]); 6] = [
    (3, &[b"00", b"01", b"10", b"11", b"ff"]),
    (6, &[b"00", b"03", b"04", b"ff"]),
    (9, &[b"00", b"40", b"41", b"ff"]),
    (12, &[b"0000", b"0001", b"1000", b"1001", b"ffff"]),
    (17, &[b"000000", b"000001", b"010000", b"010001", b"ffffff"]),
    (41, &[b"00", b"01", b"02", b"03", b"ff"]),
];

/// Damages the text in one way or more; `count` is told the number of each that changed it.
pub fn damage(draws: &mut Draws, text: &mut Vec<u8>, count: impl FnMut(usize)) {
    damage_by(&SETTING_DAMAGES, draws, text, count);
}

fn lines(text: &[u8]) -> Vec<Vec<u8>> {
    lines_of(text).map(<[u8]>::to_vec).collect()
}

/// The place of one of the lines, the first and the last one more often; none of an empty text.
fn some_place(draws: &mut Draws, lines: &[Vec<u8>]) -> Option<usize> {
    let last = lines.len().checked_sub(1)?;
    let any = draws.place(lines.len());
    Some(draws.pick(&[0, last, last, any, any]))
}

/// Damages one of the lines.
fn in_a_line(draws: &mut Draws, text: &mut Vec<u8>, harm: Harm) {
    change(draws, text, |draws, lines, at| harm(draws, &mut lines[at]));
}

/// Changes the lines, of which one is chosen.
fn change(
    draws: &mut Draws,
    text: &mut Vec<u8>,
    harm: impl Fn(&mut Draws, &mut Vec<Vec<u8>>, usize),
) {
    let mut lines = lines(text);
    if let Some(at) = some_place(draws, &lines) {
        harm(draws, &mut lines, at);
        *text = lines.concat();
    }
}

fn any_byte(draws: &mut Draws, line: &mut Vec<u8>) {
    let at = draws.place(line.len());
    line[at] = draws.word() as u8;
}

fn zero_more(draws: &mut Draws, line: &mut Vec<u8>) {
    line.insert(draws.place(line.len()), 0);
}

/// Puts one of these in the place of a byte that passes a test.
fn put_for(draws: &mut Draws, line: &mut [u8], near: &[u8], is_such: fn(u8) -> bool) {
    let places: Vec<usize> = (0..line.len()).filter(|at| is_such(line[*at])).collect();
    if !places.is_empty() {
        line[draws.pick(&places)] = draws.pick(near);
    }
}

fn nearly_a_space(draws: &mut Draws, line: &mut Vec<u8>) {
    put_for(draws, line, NEARLY_SPACES, |byte| byte == b' ');
}

fn nearly_a_digit(draws: &mut Draws, line: &mut Vec<u8>) {
    put_for(draws, line, NEARLY_DIGITS, |byte| DIGITS.contains(&byte));
}

/// Another right line, where the number stays within its bounds.
fn another_digit(draws: &mut Draws, line: &mut Vec<u8>) {
    put_for(draws, line, DIGITS, |byte| DIGITS.contains(&byte));
}

fn another_version(draws: &mut Draws, line: &mut Vec<u8>) {
    if line.len() >= 2 {
        line[..2].copy_from_slice(draws.pick(&VERSIONS));
    }
}

/// The edition left out or put in, with the version kept.
fn another_form(draws: &mut Draws, line: &mut Vec<u8>) {
    match line.len() {
        41 => drop(line.splice(40..40, draws.pick(&[*b" 01", *b" 02"]))),
        44 => drop(line.drain(40..43)),
        _ => {}
    }
}

/// One of the numbers at its bound, or one beyond: P also beside the units of a group.
fn at_a_bound(draws: &mut Draws, line: &mut Vec<u8>) {
    if draws.one_in(6) {
        return at_the_width(draws, line);
    }
    let (from, numbers) = draws.pick(&AT_BOUNDS);
    let digits = draws.pick(numbers);
    if from + digits.len() < line.len() {
        line[from..from + digits.len()].copy_from_slice(digits);
    }
}

/// As many targets as units in a group, or one less.
fn at_the_width(draws: &mut Draws, line: &mut [u8]) {
    let number = |from: usize| {
        let digits = std::str::from_utf8(line.get(from..from + 2)?).ok()?;
        u64::from_str_radix(digits, 16).ok()
    };
    let Some((n, k)) = number(3).zip(number(6)) else { return };
    let p = (n + 2 * k).saturating_sub(draws.below(2)) & 0xff;
    if line.len() > 11 {
        line[9..11].copy_from_slice(format!("{p:02x}").as_bytes());
    }
}

fn lines_exchanged(draws: &mut Draws, text: &mut Vec<u8>) {
    change(draws, text, |draws, lines, at| {
        let other = draws.place(lines.len());
        lines.swap(at, other);
    });
}

fn line_doubled(draws: &mut Draws, text: &mut Vec<u8>) {
    change(draws, text, |draws, lines, at| {
        let to = draws.place(lines.len() + 1);
        lines.insert(to, lines[at].clone());
    });
}

fn line_dropped(draws: &mut Draws, text: &mut Vec<u8>) {
    change(draws, text, |_, lines, at| drop(lines.remove(at)));
}

fn something_before(draws: &mut Draws, text: &mut Vec<u8>) {
    let before: [&[u8]; 6] = [b"\n", b" ", b"\0", b"\xef\xbb\xbf", b"01 ", b"#\n"];
    text.splice(..0, draws.pick(&before).iter().copied());
}

fn something_after(draws: &mut Draws, text: &mut Vec<u8>) {
    let after: [&[u8]; 6] = [b"\n", b" ", b"\0", b"\r\n", b"01", b"#\n"];
    text.extend(draws.pick(&after));
}

fn carriage_returns(_: &mut Draws, text: &mut Vec<u8>) {
    *text = text
        .iter()
        .flat_map(|byte| if *byte == b'\n' { vec![b'\r', b'\n'] } else { vec![*byte] })
        .collect();
}

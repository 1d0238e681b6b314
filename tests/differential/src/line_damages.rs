//! What can happen to one line of a recorded day, or of other lines of hex: each kind of damage by its name.

use crate::damages::{DIGITS, NEARLY_DIGITS, NEARLY_NEWLINES, NEARLY_SPACES};
use crate::draws::Draws;
use oracle::replay::{Event, LONGEST_LINE};

/// Changes a line. Some damage may leave a right line: what is right, the model says.
pub type Harm = fn(&mut Draws, &mut Vec<u8>);

pub const LINE_DAMAGES: [(&str, Harm); 19] = [
    ("another character", another_character),
    ("nearly right byte", nearly_right_byte),
    ("upper case", upper_case),
    ("byte 0", byte_zero),
    ("byte above 127", byte_above_127),
    ("a character more", character_more),
    ("a character less", character_less),
    ("two spaces", two_spaces),
    ("another event's number", another_event),
    ("an argument more", argument_more),
    ("an argument less", argument_less),
    ("no newline", no_newline),
    ("a newline more", newline_more),
    ("carriage return", carriage_return),
    ("cut", cut),
    ("empty", empty),
    ("too long", too_long),
    ("about the longest", about_the_longest),
    ("random bytes", random_bytes),
];

/// Damages the line in one way or more; `count` is told the number of each that changed it.
pub fn damage(draws: &mut Draws, line: &mut Vec<u8>, count: impl FnMut(usize)) {
    damage_by(&LINE_DAMAGES, draws, line, count);
}

/// Damages a line, or some, in one of these ways or more; `count` is told the number of each that changed something.
pub fn damage_by(
    kinds: &[(&str, Harm)],
    draws: &mut Draws,
    line: &mut Vec<u8>,
    mut count: impl FnMut(usize),
) {
    loop {
        let kind = draws.place(kinds.len());
        let before = line.clone();
        kinds[kind].1(draws, line);
        if *line != before {
            count(kind);
        }
        if !draws.one_in(5) {
            return;
        }
    }
}

/// The place of one of the bytes, those at the beginning and the last ones more often; none of an empty line.
fn some_place(draws: &mut Draws, line: &[u8]) -> Option<usize> {
    let last = line.len().checked_sub(1)?;
    let any = draws.between(0, last as u64) as usize;
    let early = draws.below(22) as usize;
    Some(draws.pick(&[any, any, early.min(last), last, last.saturating_sub(1)]))
}

pub fn another_character(draws: &mut Draws, line: &mut Vec<u8>) {
    if let Some(at) = some_place(draws, line) {
        let digit = draws.pick(DIGITS);
        line[at] = draws.pick(&[digit, digit, digit, b' ', b'\n']);
    }
}

pub fn nearly_right_byte(draws: &mut Draws, line: &mut Vec<u8>) {
    let Some(at) = some_place(draws, line) else { return };
    let near = match line[at] {
        b' ' => draws.pick(NEARLY_SPACES),
        b'\n' => draws.pick(NEARLY_NEWLINES),
        _ => draws.pick(NEARLY_DIGITS),
    };
    let bit = 1 << draws.below(7);
    line[at] = draws.pick(&[near, near, line[at] ^ bit]);
}

pub fn upper_case(draws: &mut Draws, line: &mut Vec<u8>) {
    let from = some_place(draws, line).filter(|_| draws.one_in(2)).unwrap_or(0);
    if let Some(letter) = line[from..].iter_mut().find(|byte| byte.is_ascii_lowercase()) {
        letter.make_ascii_uppercase();
    }
}

pub fn byte_zero(draws: &mut Draws, line: &mut Vec<u8>) {
    if let Some(at) = some_place(draws, line) {
        line[at] = 0;
    }
}

/// Often the right byte but for its highest bit.
pub fn byte_above_127(draws: &mut Draws, line: &mut Vec<u8>) {
    if let Some(at) = some_place(draws, line) {
        let any = draws.word() as u8;
        line[at] = 128 | draws.pick(&[line[at], any]);
    }
}

pub fn character_more(draws: &mut Draws, line: &mut Vec<u8>) {
    if let Some(at) = some_place(draws, line) {
        let digit = draws.pick(DIGITS);
        line.insert(at, draws.pick(&[digit, digit, line[at], b' ', b'\n']));
    }
}

pub fn character_less(draws: &mut Draws, line: &mut Vec<u8>) {
    if let Some(at) = some_place(draws, line) {
        line.remove(at);
    }
}

pub fn two_spaces(draws: &mut Draws, line: &mut Vec<u8>) {
    let spaces: Vec<usize> = (0..line.len()).filter(|i| line[*i] == b' ').collect();
    let at = if spaces.is_empty() { 0 } else { draws.pick(&spaces) };
    line.insert(at, b' ');
    if draws.one_in(2) && at + 2 < line.len() {
        // The line keeps its length: a digit is lost.
        line.remove(at + 2);
    }
}

fn another_event(draws: &mut Draws, line: &mut Vec<u8>) {
    let names: [&[u8]; 10] = [b"00", b"01", b"02", b"03", b"04", b"05", b"10", b"11", b"80", b"ff"];
    if line.len() >= 2 {
        line[..2].copy_from_slice(draws.pick(&names));
    }
}

/// Behind the line's own arguments: one of some digits, or none of any.
fn argument_more(draws: &mut Draws, line: &mut Vec<u8>) {
    let digits = draws.pick(&[0, 2, 16]);
    let at = line.len().saturating_sub(1);
    line.splice(at..at, [b" ", &vec![b'0'; digits][..]].concat());
}

/// The last argument, with the space before it or without.
fn argument_less(draws: &mut Draws, line: &mut Vec<u8>) {
    if let Some(space) = line.iter().rposition(|byte| *byte == b' ') {
        let from = space + draws.below(2) as usize;
        let end = line.len().saturating_sub(1).max(from);
        line.drain(from..end);
    }
}

/// A line that was cut must not be taken for a shorter one.
pub fn no_newline(_: &mut Draws, line: &mut Vec<u8>) {
    line.pop();
}

pub fn newline_more(draws: &mut Draws, line: &mut Vec<u8>) {
    let before = draws.one_in(3);
    line.insert(if before { 0 } else { line.len() }, b'\n');
}

pub fn carriage_return(draws: &mut Draws, line: &mut Vec<u8>) {
    let last = line.len().saturating_sub(1);
    if draws.one_in(2) || line.is_empty() {
        line.insert(last, b'\r');
    } else {
        line[last] = b'\r';
    }
}

pub fn cut(draws: &mut Draws, line: &mut Vec<u8>) {
    let kept = draws.between(0, line.len() as u64) as usize;
    line.truncate(kept);
    if draws.one_in(2) {
        line.push(b'\n');
    }
}

pub fn empty(draws: &mut Draws, line: &mut Vec<u8>) {
    line.clear();
    if draws.one_in(2) {
        line.push(b'\n');
    }
}

/// Right but for its length, by one byte to be written or by some.
fn too_long(draws: &mut Draws, line: &mut Vec<u8>) {
    let more = if draws.one_in(2) { 1 } else { draws.size(4000) };
    let bytes = draws.bytes((LONGEST_LINE - 20) / 2 + more as usize);
    *line = Event::Write { offset: draws.below(4), bytes }.line().into_bytes();
}

/// The beginning of the line, and then digits up to a length about the bound, with a newline or without.
fn about_the_longest(draws: &mut Draws, line: &mut Vec<u8>) {
    let length = LONGEST_LINE - 1 + draws.below(4) as usize;
    line.pop();
    line.resize(length, draws.pick(DIGITS));
    if !draws.one_in(4) {
        line.push(b'\n');
    }
}

/// Any bytes, or any of those that a line is made of.
pub fn random_bytes(draws: &mut Draws, line: &mut Vec<u8>) {
    draws.fill(line);
    if draws.one_in(2) {
        for byte in line {
            *byte = b"0123456789abcdef \n"[*byte as usize % 18];
        }
    }
}

//! A row's settings as lines: one appended, and the newest told, with everything tested that must be refused.

use crate::layout::Layout;
use crate::text::{digit, value};

#[repr(C)]
pub struct Added {
    refusal: u64,
    used: usize,
}

#[repr(C)]
pub struct Settings {
    refusal: u64,
    line: u64,
    layout: Layout,
}

/// The digits of each number of a line: the version, the six numbers, and in version 2 the edition. A space stands
/// behind each, but a newline behind the last.
const DIGITS: [usize; 8] = [2, 2, 2, 2, 4, 6, 16, 2];
const LONGEST: usize = 44;

fn digits_of(version: u64) -> Option<&'static [usize]> {
    match version {
        1 => Some(&DIGITS[..7]),
        2 => Some(&DIGITS),
        _ => None,
    }
}

fn line_length(digits: &[usize]) -> usize {
    digits.iter().map(|count| count + 1).sum()
}

fn is_good(y: &Layout) -> bool {
    (1..=16).contains(&y.n)
        && y.k <= 3
        && (y.n + 2 * y.k..=64).contains(&y.p)
        && (1..=4096).contains(&y.u)
        && (1..=65536).contains(&y.t)
        && (1..=2).contains(&y.edition)
}

fn write_line(numbers: [u64; 8], digits: &[usize], line: &mut [u8]) {
    let mut at = 0;
    for (number, &count) in numbers.iter().zip(digits) {
        for (place, c) in line[at..at + count].iter_mut().rev().enumerate() {
            *c = digit((number >> (4 * place) & 15) as u8);
        }
        line[at + count] = b' ';
        at += count + 1;
    }
    line[at - 1] = b'\n';
}

/// The used length with the line, or the refusal number.
fn append(version: u64, y: Layout, buffer: &mut [u8], used: usize) -> Result<usize, u64> {
    let digits = digits_of(version).filter(|_| is_good(&y) && y.edition <= version).ok_or(1u64)?;
    let length = line_length(digits);
    let line = buffer.get_mut(used..).ok_or(5u64)?.get_mut(..length).ok_or(10u64)?;
    write_line([version, y.n, y.k, y.p, y.u, y.t, y.cookie, y.edition], digits, line);
    Ok(used + length)
}

pub fn add(version: u64, y: Layout, buffer: &mut [u8], used: usize) -> Added {
    match append(version, y, buffer, used) {
        Ok(used) => Added { refusal: 0, used },
        Err(refusal) => Added { refusal, used },
    }
}

/// The numbers of a line; none where its form is another. The edition is 1 where it is not told. What every character
/// is worth as a digit is had first, in a loop with no way out, which the compiler turns into vectors: number by number
/// it took 1.4 times as long and more.
fn read_line(digits: &[usize], line: &[u8]) -> Option<[u64; 8]> {
    let mut values = [0; LONGEST];
    for (worth, &c) in values.iter_mut().zip(line) {
        *worth = value(c);
    }
    let mut numbers = [1; 8];
    let (mut all, mut at) = (0, 0);
    for (number, &count) in numbers.iter_mut().zip(digits) {
        *number = values[at..at + count].iter().fold(0, |higher, &worth| {
            all |= worth;
            higher << 4 | u64::from(worth & 15)
        });
        at += count + 1;
        let behind = if at == line.len() { b'\n' } else { b' ' };
        if line[at - 1] != behind {
            return None;
        }
    }
    (all < 16).then_some(numbers)
}

/// The layout of the first line of a text, and the lines behind it; none where it is malformed. The version says where
/// the line must end.
fn first_line(text: &[u8]) -> Option<(Layout, &[u8])> {
    let digits = match text.get(..2)? {
        b"01" => digits_of(1)?,
        b"02" => digits_of(2)?,
        _ => return None,
    };
    let (line, behind) = text.split_at_checked(line_length(digits))?;
    let [_, n, k, p, u, t, cookie, edition] = read_line(digits, line)?;
    let layout = Layout { n, k, p, u, t, cookie, edition };
    is_good(&layout).then_some((layout, behind))
}

/// The newest layout, or the refusal number with the line.
fn told(buffer: &[u8], used: usize) -> Result<Layout, (u64, u64)> {
    let mut rest = buffer.get(..used).ok_or((5, 0))?;
    let (mut newest, mut line) = (None, 0);
    while !rest.is_empty() {
        line += 1;
        let (layout, behind) = first_line(rest).ok_or((12, line))?;
        newest = Some(layout);
        rest = behind;
    }
    newest.ok_or((11, 0))
}

pub fn newest(buffer: &[u8], used: usize) -> Settings {
    match told(buffer, used) {
        Ok(layout) => Settings { refusal: 0, line: 0, layout },
        Err((refusal, line)) => Settings { refusal, line, layout: Layout::default() },
    }
}

pub fn newest_old(buffer: &[u8], used: usize) -> Settings {
    let told = newest(buffer, used);
    if told.layout.edition == 2 {
        return Settings { refusal: 17, line: 0, layout: Layout::default() };
    }
    told
}

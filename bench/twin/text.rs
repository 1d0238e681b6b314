//! A pool as text: written, and read back with everything tested that a reader must refuse.
//!
//! Digits are had by arithmetic, in loops with no way out, which the compiler turns into vectors. Tables were tried in
//! their place (256 pairs of digits to write; 256 values to read, with a way out at the first that is no digit and
//! without): they ran at a quarter of this speed in writing, and at a fifth in reading.

use crate::layout::{Layout, Shape};

/// Lengths of a line, and of what stands before its digits.
const HEAD: usize = 10;
const AROUND: usize = HEAD + 1;

pub fn digit(x: u8) -> u8 {
    if x < 10 {
        b'0' + x
    } else {
        b'a' - 10 + x
    }
}

/// The value of a lower-case digit, 255 for anything else.
pub fn value(c: u8) -> u8 {
    let (from_0, from_a) = (c.wrapping_sub(b'0'), c.wrapping_sub(b'a'));
    if from_0 < 10 {
        from_0
    } else if from_a < 6 {
        from_a + 10
    } else {
        255
    }
}

fn write_digits(unit: &[u8], digits: &mut [u8]) {
    for (pair, &byte) in digits.chunks_exact_mut(2).zip(unit) {
        pair[0] = digit(byte >> 4);
        pair[1] = digit(byte & 15);
    }
}

/// Whether all are digits.
fn read_digits(digits: &[u8], unit: &mut [u8]) -> bool {
    let mut all = 0;
    for (pair, byte) in digits.chunks_exact(2).zip(unit) {
        let (high, low) = (value(pair[0]), value(pair[1]));
        all |= high | low;
        *byte = high << 4 | low & 15;
    }
    all < 16
}

/// Target, space, frame, space.
fn head(target: u64, frame: u64) -> [u8; HEAD] {
    let mut head = [b' '; HEAD];
    let nibble = |x: u64, place: usize| digit((x >> (4 * place) & 15) as u8);
    (0..2).for_each(|j| head[j] = nibble(target, 1 - j));
    (0..6).for_each(|j| head[3 + j] = nibble(frame, 5 - j));
    head
}

pub fn write(y: Layout, image: &[u8], text: &mut [u8]) {
    let (u, frames) = (y.u as usize, Shape::of(y).frames());
    let line = AROUND + 2 * u;
    let drives = text.chunks_exact_mut(frames * line).zip(image.chunks_exact(frames * u));
    for (target, (lines, units)) in drives.enumerate() {
        let lines = lines.chunks_exact_mut(line).zip(units.chunks_exact(u));
        for (frame, (line, unit)) in lines.enumerate() {
            line[..HEAD].copy_from_slice(&head(target as u64, frame as u64));
            write_digits(unit, &mut line[HEAD..HEAD + 2 * u]);
            line[HEAD + 2 * u] = b'\n';
        }
    }
}

fn read_line(line: &[u8], head: [u8; HEAD], unit: &mut [u8]) -> bool {
    let digits = HEAD + 2 * unit.len();
    line.len() == digits + 1
        && line[..HEAD] == head
        && line[digits] == b'\n'
        && read_digits(&line[HEAD..digits], unit)
}

/// The number of the first wrong line, counted from 1; 0 where there is none.
fn first_wrong(y: Layout, text: &[u8], image: &mut [u8]) -> u64 {
    let (u, frames) = (y.u as usize, Shape::of(y).frames());
    let mut lines = text.chunks(AROUND + 2 * u);
    let mut number = 1;
    for (target, units) in image.chunks_exact_mut(frames * u).enumerate() {
        for (frame, unit) in units.chunks_exact_mut(u).enumerate() {
            match lines.next() {
                Some(line) if read_line(line, head(target as u64, frame as u64), unit) => {
                    number += 1
                }
                _ => return number,
            }
        }
    }
    match lines.next() {
        None => 0,
        Some(_) => number,
    }
}

/// The same, and where there is one the image is zeros.
pub fn read(y: Layout, text: &[u8], image: &mut [u8]) -> u64 {
    let wrong = first_wrong(y, text, image);
    if wrong != 0 {
        image.fill(0);
    }
    wrong
}

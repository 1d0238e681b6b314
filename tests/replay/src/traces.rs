//! Drawn traces: a first line and events with good and bad arguments, damaged afterwards.

use crate::damages::{self, DAMAGES};
use crate::draws::Draws;
use crate::shapes;
use oracle::layout::Layout;
use oracle::replay::{line_of_layout, Event};

/// A whole standard input, and which damages were done to it.
pub struct Trace {
    pub input: Vec<u8>,
    pub damages: Vec<usize>,
}

/// The trace of this number.
pub fn trace(seed: u64, number: u64) -> Trace {
    let draws = &mut Draws::new(seed, number);
    if draws.one_in(100) {
        return Trace { input: Vec::new(), damages: Vec::new() };
    }
    let shape = shapes::drawn(draws);
    let mut input = line_of_layout(&shape).into_bytes();
    for _ in 0..count(draws, &shape) {
        input.extend(line(draws, &shape));
    }
    let damages: Vec<usize> =
        (0..damage_count(draws)).map(|_| draws.place(DAMAGES.len())).collect();
    for damage in &damages {
        damages::damage(draws, *damage, &mut input);
    }
    Trace { input, damages }
}

/// How many lines: fewer for a pool on which the model is slow.
fn count(draws: &mut Draws, shape: &Layout) -> u64 {
    let image = shape.derived().image;
    match draws.below(80) {
        0 if image <= 400 => draws.between(1000, 5000),
        0..=4 => draws.below(3),
        _ if image <= 400 => draws.below(201),
        _ if image <= 2048 => draws.below(80),
        _ => draws.below(25),
    }
}

fn damage_count(draws: &mut Draws) -> u64 {
    match draws.below(4) {
        0 => 0,
        1 => 1,
        2 => draws.between(1, 4),
        _ => draws.between(1, 20),
    }
}

/// A line with its newline.
fn line(draws: &mut Draws, shape: &Layout) -> Vec<u8> {
    let event = match draws.below(40) {
        0..=15 => write(draws, shape),
        16..=26 => read(draws, shape),
        27..=30 => Event::Fail { target: target(draws, shape) },
        31 | 32 => Event::Repair,
        33 => Event::Read { offset: 0, length: shape.derived().capacity },
        34 => far_read(draws, shape),
        35 => Event::Write { offset: draws.edge(), bytes: some_bytes(draws, 20) },
        36 if draws.one_in(4) => long_write(draws, shape),
        36 | 37 => {
            Event::Write { offset: draws.below(shape.derived().capacity + 1), bytes: Vec::new() }
        }
        _ => return wrong(draws),
    };
    event.line().into_bytes()
}

fn some_bytes(draws: &mut Draws, limit: u64) -> Vec<u8> {
    let length = draws.below(limit);
    draws.bytes(length as usize)
}

/// Mostly inside the file; one in ten may end past it.
fn range(draws: &mut Draws, capacity: u64) -> (u64, u64) {
    let offset = match draws.below(12) {
        0 => capacity,
        1 => capacity + 1,
        2 => 0,
        _ => draws.below(capacity + 1),
    };
    let left = capacity.saturating_sub(offset);
    let length = match draws.below(8) {
        0 => draws.below(2),
        1 => left.min(1000),
        2 => (left + 1).min(1000),
        _ => draws.size(capacity.clamp(1, 100)),
    };
    (offset, if draws.one_in(10) { length } else { length.min(left) })
}

fn write(draws: &mut Draws, shape: &Layout) -> Event {
    let (offset, length) = range(draws, shape.derived().capacity);
    Event::Write { offset, bytes: draws.bytes(length as usize) }
}

fn read(draws: &mut Draws, shape: &Layout) -> Event {
    let (offset, length) = range(draws, shape.derived().capacity);
    Event::Read { offset, length }
}

/// A write about as long as a line may be, where the file has room for it, inside that.
fn long_write(draws: &mut Draws, shape: &Layout) -> Event {
    let length = draws.between(4137, 4143);
    let offset = draws.below(shape.derived().capacity.saturating_sub(length) + 1);
    Event::Write { offset, bytes: draws.bytes(length as usize) }
}

/// Offset and length that no file has, also such that their sum wraps to a small number.
fn far_read(draws: &mut Draws, shape: &Layout) -> Event {
    let capacity = shape.derived().capacity;
    let offset = if draws.one_in(2) { draws.below(capacity + 2) } else { draws.edge() };
    let length = match draws.below(4) {
        0 => offset.wrapping_neg().wrapping_add(draws.below(capacity + 1)),
        1 => capacity + draws.below(3),
        2 => draws.below(3),
        _ => draws.edge(),
    };
    Event::Read { offset, length }
}

fn target(draws: &mut Draws, shape: &Layout) -> u8 {
    match draws.below(8) {
        0 => shape.p as u8,
        1 => draws.pick(&[0, 63, 64, 127, 128, 255]),
        _ => draws.below(shape.p.max(1)) as u8,
    }
}

/// A line that is malformed, or nearly so.
fn wrong(draws: &mut Draws) -> Vec<u8> {
    let mut line: Vec<u8> = match draws.below(3) {
        0 => draws.pick(&WRONG).to_vec(),
        1 => (0..draws.below(45)).map(|_| draws.pick(b"0001234abcdef  \r\tAF")).collect(),
        _ => some_bytes(draws, 45),
    };
    line.push(b'\n');
    line
}

const WRONG: [&[u8]; 18] = [
    b"",
    b" ",
    b"00",
    b"05",
    b"ff",
    b"01",
    b"01 ",
    b"01 0000000000000000",
    b"01 0000000000000000 0",
    b"01 0000000000000000 0A",
    b"02",
    b"02 0",
    b"02 000",
    b"03 ",
    b"03 00",
    b"04 0000000000000000",
    b"04 0000000000000000 ",
    b"04 0000000000000000 0000000000000000 ",
];

//! `codes`: encodings and rebuilds of seeded groups, then rebuilds of every
//! list of K units.

use super::{line, spaced};
use crate::draws::{checksum, Draws};
use crate::group::{encode, rebuild};
use crate::layout::{layout, Layout};

const GROUPS: u64 = 320;
const LONGEST: u64 = 65_535;

/// The whole output.
pub fn output() -> String {
    let mut out = String::new();
    let mut draws = Draws::new(30_260_303);
    let mut buffer = vec![0; LONGEST as usize + 1];
    for index in 0..GROUPS {
        let shape = drawn_layout(&mut draws);
        line!(out, "group {} {} {} {}", index, shape.n, shape.k, shape.u);
        let length = (shape.contents() * shape.u) as usize;
        agreeing(&mut out, &mut draws, &shape, &mut buffer[..length]);
        disagreeing(&mut out, &mut draws, &shape, &mut buffer[..length]);
        refused(&mut out, &shape, index % 10, &mut buffer);
    }
    for n in 1..=16 {
        for k in 1..=3 {
            every_list(&mut out, &small_layout(n, k, 1));
        }
    }
    out
}

/// Rebuilds a made-up buffer for every list of K units, in any order and with
/// repetitions, and prints one checksum over all the buffers.
fn every_list(out: &mut String, shape: &Layout) {
    let contents = shape.contents();
    let lists = contents.pow(shape.k as u32);
    let mut results = Vec::new();
    for x in 0..lists {
        let names = [
            x % contents,
            x / contents % contents,
            x / contents / contents,
        ];
        let mut buffer: Vec<u8> = (0..contents)
            .map(|i| (((x + 1) * (i + 3) * 29 + x) % 251) as u8)
            .collect();
        let refusal = rebuild(shape, &mut buffer, &names[..shape.k as usize]);
        results.push(refusal as u8);
        results.extend(buffer);
    }
    line!(
        out,
        "every {} {} {} {}",
        shape.n,
        shape.k,
        lists,
        checksum(&results)
    );
}

fn drawn_layout(draws: &mut Draws) -> Layout {
    let n = 1 + draws.draw(16);
    let k = draws.draw(4);
    let u = match draws.draw(16) {
        0..=11 => 1 + draws.draw(16),
        12 | 13 => 1 + draws.draw(256),
        14 => 1 + draws.draw(4096),
        _ => 4096,
    };
    small_layout(n, k, u.min(LONGEST / (n + k)))
}

/// One tile on as few targets as hold a group, in edition 1 where N is even.
fn small_layout(n: u64, k: u64, u: u64) -> Layout {
    layout(n, k, n + 2 * k, u, 1, 0).in_edition(1 + n % 2)
}

fn drawn_missing(draws: &mut Draws, shape: &Layout) -> Vec<u64> {
    let count = match draws.draw(2) {
        0 => draws.draw(shape.k + 1),
        _ => shape.k,
    };
    let mut missing: Vec<u64> = (0..count).map(|_| draws.draw(shape.contents())).collect();
    if draws.draw(4) == 0 && count > 0 {
        missing.push(missing[0]);
    }
    missing
}

fn agreeing(out: &mut String, draws: &mut Draws, shape: &Layout, buffer: &mut [u8]) {
    draws.fill(buffer);
    let refusal = encode(shape, buffer);
    line!(out, "encode {} {}", refusal, checksum(buffer));
    let missing = drawn_missing(draws, shape);
    for unit in &missing {
        let at = (unit * shape.u) as usize;
        draws.fill(&mut buffer[at..at + shape.u as usize]);
    }
    rebuild_line(out, "agreeing", shape, buffer, &missing);
}

fn disagreeing(out: &mut String, draws: &mut Draws, shape: &Layout, buffer: &mut [u8]) {
    draws.fill(buffer);
    let missing = drawn_missing(draws, shape);
    rebuild_line(out, "disagreeing", shape, buffer, &missing);
}

fn rebuild_line(out: &mut String, label: &str, shape: &Layout, buffer: &mut [u8], missing: &[u64]) {
    let refusal = rebuild(shape, buffer, missing);
    let mut fields = vec![missing.len() as u64];
    fields.extend(missing);
    fields.extend([refusal, checksum(buffer)]);
    line!(out, "{} {}", label, spaced(&fields));
}

/// A rebuild and an encoding with arguments of one kind that is refused by at
/// least one of the two.
fn refused(out: &mut String, shape: &Layout, kind: u64, buffer: &mut [u8]) {
    let contents = shape.contents();
    let exact = (contents * shape.u) as usize;
    let too_many: Vec<u64> = (0..=shape.k).collect();
    let no_unit = Layout { u: 0, ..*shape };
    let (given, length, missing) = match kind {
        0 => (*shape, exact, vec![0, contents]),
        1 => (*shape, exact, vec![u64::MAX]),
        2 => (*shape, exact, too_many),
        3 => (*shape, exact - 1, vec![0]),
        4 => (*shape, exact + 1, vec![]),
        5 => (no_unit, exact, vec![contents]),
        6 => (*shape, exact + 1, vec![0, 0, 0, contents]),
        7 => (*shape, 0, too_many),
        8 => (shape.in_edition(0), exact, vec![]),
        _ => (shape.in_edition(3), exact, too_many),
    };
    let label = format!("refused {kind}");
    rebuild_line(out, &label, &given, &mut buffer[..length], &missing);
    let refusal = encode(&given, &mut buffer[..length]);
    line!(out, "encode {} {}", refusal, checksum(&buffer[..length]));
}

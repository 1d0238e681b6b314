//! What has been met so far, and what must have been.

use crate::damages::DAMAGES;
use oracle::layout::range_refusal;
use oracle::replay::{first_line, LONGEST_LINE};
use std::collections::BTreeMap;

/// First lines, then answers, then inputs.
const KINDS: [&str; 29] = [
    "first: accepted",
    "first: 1",
    "first: 13, malformed",
    "first: 13, longer than 8,300",
    "first: 13, no newline",
    "first: 13, too large",
    "first: 13, empty input",
    "write: 0",
    "write: 0, of no bytes",
    "write: 0, a line of 8,300",
    "write: 4",
    "fail: 0",
    "fail: 4",
    "fail: 6",
    "fail: 7",
    "repair: 0, none missing",
    "repair: 0, some missing",
    "read: 0",
    "read: 0, of no bytes",
    "read: 0, between failure and repair",
    "read: 4",
    "read: 4, longer than the file",
    "13, malformed",
    "13, longer than 8,300",
    "13, longer than 65,536",
    "13, no newline",
    "image of 32,768",
    "input longer than 65,536",
    "input longer than 131,072",
];

#[derive(Default)]
pub struct Tally {
    kinds: BTreeMap<&'static str, u64>,
    damages: [u64; DAMAGES.len()],
    /// Answers compared.
    pub answers: u64,
}

/// Why a line that is answered 13 is malformed.
fn fault(line: &[u8]) -> &'static str {
    if !line.ends_with(b"\n") {
        "13, no newline"
    } else if line.len() > 65_537 {
        "13, longer than 65,536"
    } else if line.len() > LONGEST_LINE + 1 {
        "13, longer than 8,300"
    } else {
        "13, malformed"
    }
}

/// What a first line that is refused with 13 is.
fn first_fault(line: &[u8]) -> &'static str {
    if line.is_empty() {
        return "first: 13, empty input";
    }
    match fault(line) {
        "13, no newline" => "first: 13, no newline",
        // The only good form that is refused is that of a pool too large.
        "13, malformed" if line.len() == 38 && is_form(line) => "first: 13, too large",
        "13, malformed" => "first: 13, malformed",
        _ => "first: 13, longer than 8,300",
    }
}

/// With one tile, which makes every image small or refused, the line is not malformed.
fn is_form(line: &[u8]) -> bool {
    let one_tile = [&line[..9], b"0001 000001", &line[20..]].concat();
    line[9..20].iter().all(|byte| b"0123456789abcdef ".contains(byte))
        && first_line(&one_tile).refusal != 13
}

impl Tally {
    fn count(&mut self, kind: &'static str) {
        assert!(KINDS.contains(&kind), "{kind} is no kind");
        *self.kinds.entry(kind).or_default() += 1;
    }

    /// An input, what was done to it, and what the model answers.
    pub fn meet(&mut self, input: &[u8], damages: &[usize], output: &[u8]) {
        for damage in damages {
            self.damages[*damage] += 1;
        }
        let mut lines = input.split_inclusive(|byte| *byte == b'\n');
        let mut answers = output.split_inclusive(|byte| *byte == b'\n');
        self.answers += answers.clone().count() as u64;
        let line = lines.next().unwrap_or_default();
        let first = first_line(line);
        match first.refusal {
            0 => self.count("first: accepted"),
            1 => return self.count("first: 1"),
            _ => return self.count(first_fault(line)),
        }
        for (length, kind) in
            [(65_536, "input longer than 65,536"), (131_072, "input longer than 131,072")]
        {
            if input.len() > length {
                self.count(kind);
            }
        }
        if first.image == 32_768 {
            self.count("image of 32,768");
        }
        let mut is_missing = false;
        for line in lines {
            let answer = answers.next().unwrap_or_default();
            self.answer(&first.layout, line, answer, &mut is_missing);
        }
    }

    /// One line after an accepted first one. `is_missing`: a target has failed since the last repair.
    fn answer(
        &mut self,
        shape: &oracle::layout::Layout,
        line: &[u8],
        answer: &[u8],
        is_missing: &mut bool,
    ) {
        let kind = match (line.get(..2), answer) {
            (_, b"13\n") => fault(line),
            (Some(b"01"), b"0\n") if line.len() == 21 => "write: 0, of no bytes",
            (Some(b"01"), b"0\n") if line.len() == LONGEST_LINE + 1 => "write: 0, a line of 8,300",
            (Some(b"01"), b"0\n") => "write: 0",
            (Some(b"01"), _) => "write: 4",
            (Some(b"02"), b"4\n") => "fail: 4",
            (Some(b"02"), b"6\n") => "fail: 6",
            (Some(b"02"), b"7\n") => "fail: 7",
            (Some(b"02"), _) => "fail: 0",
            (Some(b"03"), b"0 0\n") => "repair: 0, none missing",
            (Some(b"03"), _) => "repair: 0, some missing",
            (_, b"0 \n") => "read: 0, of no bytes",
            (_, b"4\n") if is_too_long(shape, line) => "read: 4, longer than the file",
            (_, b"4\n") => "read: 4",
            _ if *is_missing => "read: 0, between failure and repair",
            _ => "read: 0",
        };
        *is_missing = kind == "fail: 0" || (*is_missing && !kind.starts_with("repair"));
        self.count(kind);
    }

    /// What should have been met and was not.
    pub fn never_met(&self) -> Vec<&'static str> {
        let kinds = KINDS.into_iter().filter(|kind| !self.kinds.contains_key(kind));
        let damages = DAMAGES.iter().zip(self.damages).filter(|(_, count)| *count == 0);
        kinds.chain(damages.map(|((name, _), _)| *name)).collect()
    }

    pub fn print(&self) {
        let kinds = KINDS.map(|kind| (kind, self.kinds.get(kind).copied().unwrap_or(0)));
        let damages = DAMAGES.iter().zip(self.damages).map(|((name, _), count)| (*name, count));
        for (name, count) in kinds.into_iter().chain(damages) {
            println!("{count:9}  {name}");
        }
    }
}

/// A read that no buffer of the file's size could hold, whatever its offset.
fn is_too_long(shape: &oracle::layout::Layout, line: &[u8]) -> bool {
    let digits = std::str::from_utf8(&line[20..36]).expect("the line is a read");
    let length = u64::from_str_radix(digits, 16).expect("the line is a read");
    range_refusal(shape, 0, length) != 0
}

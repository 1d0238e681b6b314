//! `replay`: a kiosk's day as lines on standard input, and its answers.

use crate::draws::Draws;
use crate::layout::{layout, Layout};
use crate::replay::{line_of_layout, replay, Event, LONGEST_LINE};

const ONES: u64 = u64::MAX;
const HALF: u64 = 1 << 63;
const FAR: u64 = 1 << 32;
const SEED: u64 = 60_260_704;
/// Drawn events in a stage.
const EVENTS: u64 = 28;

/// A file of 5,184 bytes, so that the longest write has room; an image of
/// 10,368.
fn shape() -> Layout {
    layout(4, 2, 9, 16, 9, 0x0123_4567_89ab_cdef)
}

/// The lines of a day, as far as it is told.
struct Day {
    lines: Vec<u8>,
    draws: Draws,
    capacity: u64,
}

/// The whole standard input.
pub fn input() -> Vec<u8> {
    let shape = shape();
    let mut day = Day {
        lines: line_of_layout(&shape).into_bytes(),
        draws: Draws::new(SEED),
        capacity: shape.derived().capacity,
    };
    day.at_the_bounds();
    day.malformed();
    day.stages();
    // Cut short in its bytes: played, it would be a shorter write.
    day.raw(b"01 0000000000000000 41");
    day.lines
}

/// The whole output.
pub fn output() -> String {
    String::from_utf8(replay(&input())).expect("answers are ASCII")
}

impl Day {
    fn raw(&mut self, bytes: &[u8]) {
        self.lines.extend_from_slice(bytes);
    }

    fn line(&mut self, before_newline: &[u8]) {
        self.raw(before_newline);
        self.raw(b"\n");
    }

    fn event(&mut self, event: Event) {
        self.raw(event.line().as_bytes());
    }

    /// The line of a write of drawn bytes, with its newline.
    fn drawn_write(&mut self, offset: u64, length: u64) -> Vec<u8> {
        let mut bytes = vec![0; length as usize];
        self.draws.fill(&mut bytes);
        Event::Write { offset, bytes }.line().into_bytes()
    }

    fn write(&mut self, offset: u64, length: u64) {
        let line = self.drawn_write(offset, length);
        self.raw(&line);
    }

    fn read(&mut self, offset: u64, length: u64) {
        self.event(Event::Read { offset, length });
    }

    fn read_all(&mut self) {
        self.read(0, self.capacity);
    }

    fn fail(&mut self, targets: &[u8]) {
        for target in targets {
            self.event(Event::Fail { target: *target });
        }
    }

    fn repair(&mut self) {
        self.event(Event::Repair);
    }

    fn at_the_bounds(&mut self) {
        let end = self.capacity;
        let ends = [(0, 0), (end, 0), (end + 1, 0), (ONES, 0), (0, 1), (end, 1)];
        let last = [
            (end - 1, 1),
            (end - 1, 2),
            (ONES, 1),
            (ONES, 2),
            (FAR, 0),
            (FAR, 1),
        ];
        self.read_all();
        for (offset, length) in ends.into_iter().chain(last) {
            self.write(offset, length);
        }
        for (offset, length) in ends.into_iter().chain(last) {
            self.read(offset, length);
        }
        for length in [end + 1, 10_368, 10_369, 32_768, FAR, HALF - 1, HALF, ONES] {
            self.read(0, length);
        }
        for (offset, length) in [
            (1, end),
            (1, ONES),
            (2, ONES - 1),
            (HALF, HALF),
            (ONES, ONES),
        ] {
            self.read(offset, length);
        }
        // The ends of these wrap to 0 in 64 bits.
        for offset in [end - 1, end, end + 1] {
            self.read(offset, ONES - offset + 1);
        }
        self.repair();
        self.read_all();
    }

    fn malformed(&mut self) {
        for line in BY_HAND {
            self.line(line);
        }
        self.line(line_of_layout(&shape()).trim_end().as_bytes());
        let mut wrong = WRONG_BYTES.iter().cycle();
        for line in GOOD {
            for at in 0..line.len() {
                let (before, after) = (&line[..at], &line[at + 1..]);
                self.line(&[before, after].concat());
                self.line(&[before, &line[at..=at], &line[at..]].concat());
                let byte = *wrong.next().expect("the bytes come again and again");
                self.line(&[before, &[byte], after].concat());
            }
        }
        self.read_all();
    }

    /// From no failure to both drives repaired.
    fn stages(&mut self) {
        self.stage();
        self.fail(&[9, 64, 128, 255, 3]);
        self.stage();
        self.fail(&[3, 9]);
        self.repair();
        self.stage();
        self.repair();
        self.fail(&[5]);
        self.stage();
        self.fail(&[3, 5, 0, 9]);
        self.repair();
        self.stage();
        self.repair();
        self.fail(&[0]);
        self.longest();
        self.read_all();
    }

    /// Drawn events, then lines about as long as may be, each with a good one
    /// behind it.
    fn stage(&mut self) {
        for _ in 0..EVENTS {
            self.drawn();
        }
        let longest = (LONGEST_LINE as u64 - 20) / 2;
        let mut odd = self.drawn_write(0, longest);
        odd.pop();
        self.raw(&odd);
        self.line(b"0");
        self.read(0, 16);
        self.write(0, longest + 1);
        self.read(0, 16);
        let offset = self.draws.draw(self.capacity - longest + 1);
        self.write(offset, longest);
        self.read_all();
    }

    /// Lines that have the length of a good one, and more; two end like an
    /// event, as if that were a line of its own.
    fn longest(&mut self) {
        self.line(&[b'0'; LONGEST_LINE]);
        self.read(0, 1);
        for zeros in [LONGEST_LINE, LONGEST_LINE + 1] {
            self.line(&[&vec![b'0'; zeros][..], b"03"].concat());
            self.read(1, 1);
        }
        self.write(0, 9_990);
        self.read(2, 1);
    }

    fn drawn(&mut self) {
        let kind = self.draws.draw(8);
        let (offset, length) = self.drawn_range();
        match kind {
            0..=3 => self.write(offset, length),
            4..=6 => self.read(offset, length),
            _ => {
                let mut line = self.drawn_write(offset, length);
                let at = self.draws.draw(line.len() as u64) as usize;
                line[at] = self.draws.byte();
                self.raw(&line);
            }
        }
    }

    fn drawn_range(&mut self) -> (u64, u64) {
        let length = match self.draws.draw(4) {
            0 => self.draws.draw(3),
            1 => 1 + self.draws.draw(16),
            2 => 1 + self.draws.draw(128),
            _ => 1 + self.draws.draw(1024),
        };
        let offset = match self.draws.draw(8) {
            0 => self.draws.draw(self.capacity + 1),
            _ => self.draws.draw(self.capacity - length + 1),
        };
        (offset, length)
    }
}

/// Lines of every form, each of which is edited at every place.
const GOOD: [&[u8]; 4] = [
    b"01 0000000000000000 4142",
    b"02 00",
    b"03",
    b"04 0000000000000000 0000000000000002",
];

/// Bytes that no form has: controls, what lies beside the digits and letters,
/// upper case, above 127.
const WRONG_BYTES: [u8; 16] = *b"\x00\t\r\x1f+/:@AFG`g\x7f\xb0\xff";

/// Malformed lines, without their newlines.
const BY_HAND: [&[u8]; 59] = [
    b"",
    b" ",
    b"\r",
    b"\x00",
    b"\xff",
    b"0",
    b"3",
    b"00",
    b"05",
    b"13",
    b"30",
    b"ff",
    b"00 00",
    b"05 00",
    b"00 0000000000000000 41",
    b"05 0000000000000000 41",
    b"ff 0000000000000000 41",
    b"00 0000000000000000 0000000000000001",
    b"05 0000000000000000 0000000000000001",
    b"01",
    b"01 ",
    b"01  ",
    b"01 41",
    b"01 0000000000000000",
    b"01 000000000000000 41",
    b"01 00000000000000000 41",
    b"01 0000000000000000 4",
    b"01 0000000000000000 414",
    b"01 0000000000000000 4A",
    b"01 000000000000000A 41",
    b"01 0000000000000000  41",
    b"01 0000000000000000 41 ",
    b"01 0000000000000000 41 42",
    b"01 0000000000000000 41\r",
    b"01 0000000000000000 \r",
    b"01\t0000000000000000\t41",
    b" 01 0000000000000000 41",
    b"02",
    b"02 ",
    b"02 0",
    b"02 000",
    b"02 100",
    b"02 +1",
    b"02 1 ",
    b"02 00 00",
    b"02 00\r",
    b"03 ",
    b"03 00",
    b"03\r",
    b"03\x00",
    b"\xef\xbb\xbf03",
    b"0x03",
    b"04",
    b"04 0000000000000000",
    b"04 0000000000000000 ",
    b"04 0000000000000000 1",
    b"04 0000000000000000 000000000000000A",
    b"04 0000000000000000 00000000000000001",
    b"04 0000000000000000 0000000000000001 00",
];

#[cfg(test)]
mod tests {
    use super::*;

    /// How often the output has an answer that begins with this number.
    fn answers(number: &str) -> usize {
        output()
            .lines()
            .filter(|line| line.split(' ').next() == Some(number))
            .count()
    }

    #[test]
    fn lines_cross_the_ends_of_all_pieces() {
        let input = input();
        assert!(input.chunks_exact(4_096).all(|piece| piece[4_095] != b'\n'));
        assert_ne!(input.last(), Some(&b'\n'));
        // Those of the program's own pieces are crossed by lines that count.
        let output = output();
        let answers: Vec<&str> = output.lines().collect();
        for end in [65_536, 131_072] {
            let crosses = input[..end].iter().filter(|byte| **byte == b'\n').count();
            let answer = answers[crosses - 1];
            assert!(answer.starts_with('0'), "line {crosses} at {end}");
        }
    }

    #[test]
    fn every_answer_comes() {
        for number in ["0", "4", "6", "7", "13"] {
            assert_ne!(answers(number), 0, "{number}");
        }
        assert_eq!(answers("1"), 0);
        // Repairs with nothing missing and with something, and a read of no
        // bytes.
        let output = output();
        assert!(output.contains("\n0 0\n") && output.contains("\n0 \n"));
        assert!(output.lines().any(|line| line.len() == 4));
    }

    #[test]
    fn what_is_called_malformed_is() {
        let mut day = Day {
            lines: Vec::new(),
            draws: Draws::new(SEED),
            capacity: shape().derived().capacity,
        };
        day.malformed();
        let lines = day.lines.split(|byte| *byte == b'\n').count() - 2;
        assert_eq!(lines, BY_HAND.len() + 1 + 3 * GOOD.concat().len());
        let all = [line_of_layout(&shape()).as_bytes(), &day.lines].concat();
        let answered = String::from_utf8(replay(&all)).expect("ASCII");
        assert!(answered.starts_with(&"13\n".repeat(lines)));
        assert!(answered[3 * lines..].starts_with("0 00"));
    }
}

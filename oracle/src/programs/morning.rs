//! `morning`: a kiosk's morning, and the afternoon in which its dead drive is
//! swapped, in words and hex lines.

use super::row::{fill_drive, wipe, with_count, Row};
use super::{answered, line};
use crate::hexline::hex_line;
use crate::pool::{read, write};
use crate::pool_swap::swap;

/// The whole output.
pub fn output() -> String {
    let mut row = Row::new();
    row.before_the_rush();
    row.in_the_rush();
    row.after_the_rush();
    row.in_the_afternoon();
    row.in_the_evening();
    row.out
}

/// Letters of the alphabet from the given one on.
fn photograph(length: usize, first: usize) -> Vec<u8> {
    (0..length)
        .map(|i| b'a' + ((i + first) % 26) as u8)
        .collect()
}

fn words(bytes: &[u8]) -> String {
    String::from_utf8_lossy(bytes).into_owned()
}

impl Row {
    fn before_the_rush(&mut self) {
        self.store(&photograph(24, 0), 0);
        self.store(&photograph(20, 7), 24);
        self.drives("The drives before the rush:");
        self.inspect();
    }

    fn in_the_rush(&mut self) {
        self.lose(2);
        wipe(&mut self.image, 2);
        self.inspect();
        self.show(24, 0);
        self.store(&photograph(30, 13), 40);
        self.lose(2);
        self.lose(4);
        self.take_back(2);
        self.take_back(4);
        self.inspect();
    }

    fn after_the_rush(&mut self) {
        self.mend();
        self.inspect();
        self.drives("The drives after the repair:");
        self.show(70, 0);
        self.show(12, 70);
        self.mend();
        self.misread(1);
        self.misread(15);
        self.misread(16);
    }

    /// The dead drive's place has a new drive, which held something else.
    fn in_the_afternoon(&mut self) {
        self.put_in(2);
        self.take_back(5);
        self.take_back(4);
        self.take_back(2);
        self.inspect();
        self.drives("The drives after the swap:");
        self.show(70, 0);
        self.take_back(2);
    }

    /// Another drive dies, and is swapped in its turn.
    fn in_the_evening(&mut self) {
        self.lose(4);
        wipe(&mut self.image, 4);
        self.inspect();
        self.show(70, 0);
        self.store(&photograph(10, 3), 70);
        self.mend();
        self.put_in(4);
        self.take_back(4);
        self.inspect();
        self.drives("The drives in the evening:");
        self.show(80, 0);
    }

    /// A new drive in the place of a dead one.
    fn put_in(&mut self, target: usize) {
        line!(
            self.out,
            "A new drive {target} is put in, every byte of it 55"
        );
        fill_drive(&mut self.image, target, 0x55);
    }

    fn take_back(&mut self, target: u64) {
        let (refusal, record) = swap(&self.layout, &self.record, &mut self.image, target);
        self.record = record;
        line!(self.out, "Drive {target} is swapped: {}", answered(refusal));
    }

    fn store(&mut self, bytes: &[u8], offset: u64) {
        let refusal = write(&self.layout, &self.record, &mut self.image, offset, bytes);
        let photo = words(bytes);
        line!(
            self.out,
            "A kiosk stores the photograph {photo} at {offset}: {}",
            answered(refusal)
        );
    }

    fn show(&mut self, length: usize, offset: u64) {
        let mut bytes = vec![42; length];
        let refusal = read(&self.layout, &self.record, &self.image, offset, &mut bytes);
        let shown = if refusal == 0 {
            format!("{}, ", words(&bytes))
        } else {
            String::new()
        };
        line!(
            self.out,
            "The claims desk reads {length} bytes at {offset}: {shown}{}",
            answered(refusal)
        );
    }

    /// The record comes back from its keeper with another count.
    fn misread(&mut self, waiting: u64) {
        line!(
            self.out,
            "The record is read as one with {waiting} missing:"
        );
        let right = self.record;
        self.record = with_count(right, waiting);
        self.inspect();
        self.record = right;
    }

    fn drives(&mut self, title: &str) {
        line!(self.out, "{title}");
        for target in 0..5 {
            for frame in 0..4 {
                let mut bytes = vec![0; 27];
                hex_line(&self.layout, &self.image, target, frame, &mut bytes);
                self.out.push_str(&words(&bytes));
            }
        }
    }
}

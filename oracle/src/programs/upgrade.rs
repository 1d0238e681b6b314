//! `upgrade`: a row moved to edition 2 and back, also with drives dead, repaired
//! or not, and what other moves are refused with.

use super::row::{row, with_count, Pool};
use super::{answered, line};
use crate::draws::checksum;
use crate::layout::{layout, Layout};
use crate::place::place;
use crate::pool::{read, repair, write, Record};
use crate::pool_move::{move_edition, other_edition};
use crate::pool_text::{text_length, write_text};

/// The whole output.
pub fn output() -> String {
    let mut out = String::new();
    line!(out, "A row of edition 1 is upgraded, and goes back");
    let first = photographed(&mut out);
    first.show(&mut out);
    first.drives(&mut out);
    let second = first.moved(&mut out);
    second.show(&mut out);
    second.drives(&mut out);
    let back = second.moved(&mut out);
    back.beside(&mut out, "the row before", &first);
    line!(out, "Drive 2 is dead, then repaired");
    with_a_drive_dead(&mut out, &first, &second);
    line!(out, "A byte of parity and a byte of a spare are changed");
    with_other_bytes(&mut out, &first, &second);
    line!(out, "The row goes on in edition 2");
    on_in_edition_2(&mut out, second);
    line!(out, "A row of eight drives and two tiles");
    on_eight_drives(&mut out);
    line!(out, "Moves that are refused");
    wrong_layouts(&mut out);
    wrong_lengths(&mut out);
    wrong_records(&mut out);
    several_wrong(&mut out);
    out
}

impl Pool {
    fn store(&mut self, out: &mut String, offset: u64, bytes: &str) {
        let stored = bytes.as_bytes();
        let refusal = write(&self.layout, &self.record, &mut self.image, offset, stored);
        line!(
            out,
            "A kiosk stores {bytes} at {offset}: {}",
            answered(refusal)
        );
    }

    fn mend(&mut self, out: &mut String) {
        let (refusal, record, count) = repair(&self.layout, &self.record, &mut self.image);
        self.record = record;
        line!(
            out,
            "The row is repaired: {count} units were missing, {}",
            answered(refusal)
        );
    }

    fn show(&self, out: &mut String) {
        let mut file = vec![0; self.layout.derived().capacity as usize];
        let refusal = read(&self.layout, &self.record, &self.image, 0, &mut file);
        line!(
            out,
            "The file is read in edition {}: {}, {}",
            self.layout.edition,
            answered(refusal),
            String::from_utf8_lossy(&file)
        );
    }

    fn drives(&self, out: &mut String) {
        let mut text = vec![0; text_length(&self.layout) as usize];
        assert_eq!(write_text(&self.layout, &self.image, &mut text), 0);
        line!(out, "The drives in edition {}:", self.layout.edition);
        out.push_str(&String::from_utf8_lossy(&text));
    }

    /// The pool that a move leaves, in an image that held aa.
    fn moved(&self, out: &mut String) -> Pool {
        let mut new = Pool {
            layout: other_edition(&self.layout),
            record: Record::default(),
            image: vec![170; self.image.len()],
        };
        let refusal = move_edition(&self.layout, &self.record, &self.image, &mut new.image);
        line!(
            out,
            "The row is moved to edition {}: {}, checksum of the new image {}",
            new.layout.edition,
            answered(refusal),
            checksum(&new.image)
        );
        new
    }

    fn beside(&self, out: &mut String, what: &str, other: &Pool) {
        line!(out, "Beside {what}: {}", same(self.image == other.image));
    }
}

fn same(is_same: bool) -> &'static str {
    if is_same {
        "the same image"
    } else {
        "ANOTHER image"
    }
}

/// The row of `morning` with its three photographs in a file of dots.
fn photographed(out: &mut String) -> Pool {
    let mut pool = Pool::of(row(8, 1), &[b'.'; 80]);
    pool.store(out, 0, "abcdefghijklmnopqrstuvwx");
    pool.store(out, 24, "hijklmnopqrstuvwxyza");
    pool.store(out, 40, "nopqrstuvwxyzabcdefghijklmnopq");
    pool
}

fn with_a_drive_dead(out: &mut String, first: &Pool, second: &Pool) {
    let mut pool = first.clone();
    pool.lose(out, 2);
    pool.moved(out).beside(out, "the first move", second);
    pool.mend(out);
    let new = pool.moved(out);
    new.beside(out, "the first move", second);
    new.moved(out).beside(out, "the row before it died", first);
}

/// Where a unit of group 0 begins, another byte stands.
fn with_other_bytes(out: &mut String, first: &Pool, second: &Pool) {
    let mut pool = first.clone();
    for unit in [2, 3] {
        let begins = place(&pool.layout, 0, unit).1.begins as usize;
        pool.image[begins] = 170;
    }
    line!(out, "Checksum of the image {}", checksum(&pool.image));
    let new = pool.moved(out);
    new.beside(out, "the first move", second);
    new.moved(out).beside(out, "the row before", first);
}

fn on_in_edition_2(out: &mut String, mut pool: Pool) {
    pool.store(out, 50, "a brown bag with one strap");
    pool.lose(out, 1);
    pool.store(out, 9, "23.4 kg");
    pool.show(out);
    pool.moved(out).show(out);
    pool.mend(out);
    pool.show(out);
    pool.moved(out).show(out);
}

/// Two parity units and two spares a group: one drive is dead and repaired, then
/// another is dead.
fn on_eight_drives(out: &mut String) {
    let file = [
        "a brown bag with one strap, 23.4 kg, tag 0042, row eight, desk 3",
        "a red case, its label torn, 17.9 kg, tag 0043, row eight, desk 1",
    ];
    let first = Pool::of(layout(2, 2, 8, 8, 2, 16), file.concat().as_bytes());
    let mut pool = first.clone();
    pool.lose(out, 2);
    pool.mend(out);
    pool.lose(out, 5);
    let new = pool.moved(out);
    new.show(out);
    new.moved(out)
        .beside(out, "the row before they died", &first);
}

/// A move that must be refused: the images have these lengths, and all bytes of
/// both are aa before.
fn refused(out: &mut String, what: &str, layout: &Layout, record: &Record, lengths: [usize; 2]) {
    let [old, mut new] = lengths.map(|length| vec![170; length]);
    let refusal = move_edition(layout, record, &old, &mut new);
    let zeros = if new.iter().all(|byte| *byte == 0) {
        "is zeros"
    } else {
        "is NOT zeros"
    };
    line!(
        out,
        "{what}: {}, the new image {zeros}, the old one is {}",
        answered(refusal),
        same(old.iter().all(|byte| *byte == 170))
    );
}

/// `first` is the failed drive, of which there are k.
fn dead(first: u64, k: u64) -> Record {
    Record {
        failed: [first, 0, 0],
        k,
        ..Record::default()
    }
}

fn wrong_layouts(out: &mut String) {
    for (what, shape) in [
        ("Units of 0 bytes", row(0, 1)),
        ("Edition 0", row(8, 1).in_edition(0)),
        ("Edition 3", row(8, 1).in_edition(3)),
    ] {
        refused(out, what, &shape, &Record::default(), [160, 160]);
    }
}

fn wrong_lengths(out: &mut String) {
    for (what, lengths) in [
        ("An old image too short", [159, 160]),
        ("An old image too long", [161, 160]),
        ("A new image too short", [160, 159]),
        ("A new image too long", [160, 161]),
        ("A new image of no bytes", [160, 0]),
        ("A new image as long as the file", [160, 80]),
        ("Both too long", [161, 161]),
    ] {
        refused(out, what, &row(8, 1), &Record::default(), lengths);
    }
}

fn wrong_records(out: &mut String) {
    for (what, record) in [
        ("Two drives dead", dead(2, 2)),
        ("Drive 5 dead", dead(5, 1)),
        ("16 units missing", with_count(dead(2, 1), 16)),
    ] {
        refused(out, what, &row(8, 1), &record, [160, 160]);
    }
}

fn several_wrong(out: &mut String) {
    let (good, bad, two) = (row(8, 1), row(0, 1), dead(2, 2));
    for (what, shape, lengths) in [
        (
            "Units of 0 bytes, both lengths wrong, two dead",
            bad,
            [159, 161],
        ),
        ("An old image too long, two dead", good, [161, 160]),
        ("A new image too short, two dead", good, [160, 159]),
    ] {
        refused(out, what, &shape, &two, lengths);
    }
}

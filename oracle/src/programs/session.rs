//! `session`: the end of a kiosk's session stored by one list of writes, beside
//! the same writes one after the other, and lists that are refused.

use super::row::{row, wipe, with_count, Row};
use super::{answered, line};
use crate::draws::checksum;
use crate::layout::Layout;
use crate::pool::{read, write, Record};
use crate::pool_list::write_list;

const ONES: u64 = u64::MAX;

/// A row beside an image of it that single writes fill.
struct Session {
    row: Row,
    other: Vec<u8>,
}

/// The whole output.
pub fn output() -> String {
    let mut session = Session::of_dots();
    line!(
        session.row.out,
        "Photograph, weight and tag by a list, beside three writes"
    );
    session.store([0, 40, 60]);
    line!(session.row.out, "One over the other");
    session.store([20, 30, 33]);
    session.row.lose(2);
    wipe(&mut session.row.image, 2);
    wipe(&mut session.other, 2);
    session.store([50, 8, 30]);
    session.row.mend();
    session.show();
    let mut out = session.row.out;
    at_the_bounds(&mut out);
    in_wrong_pools(&mut out);
    out
}

impl Session {
    /// Both files are full of dots.
    fn of_dots() -> Session {
        let mut row = Row::new();
        let dots = vec![b'.'; row.layout.derived().capacity as usize];
        assert_eq!(write(&row.layout, &row.record, &mut row.image, 0, &dots), 0);
        let other = row.image.clone();
        Session { row, other }
    }

    /// Photograph, weight and tag at these offsets.
    fn store(&mut self, offsets: [u64; 3]) {
        let things: [&[u8]; 3] = [b"a brown bag with one strap", b"23.4 kg", b"tag 0042"];
        let ranges: Vec<(u64, u64)> = offsets
            .iter()
            .zip(things)
            .map(|(offset, thing)| (*offset, thing.len() as u64))
            .collect();
        self.list(&ranges, &things.concat());
        self.show();
    }

    /// A list in the row's image, and in the other image each range by itself.
    fn list(&mut self, ranges: &[(u64, u64)], bytes: &[u8]) {
        let Row {
            layout,
            record,
            image,
            out,
        } = &mut self.row;
        let answer = write_list(layout, record, image, ranges, bytes);
        let mut from = 0;
        for (offset, length) in ranges {
            let to = from + *length as usize;
            let refusal = write(layout, record, &mut self.other, *offset, &bytes[from..to]);
            assert_eq!(refusal, 0);
            from = to;
        }
        told(out, ranges, bytes.len(), answer, *image == self.other);
    }

    fn show(&mut self) {
        let row = &mut self.row;
        let mut file = vec![0; row.layout.derived().capacity as usize];
        let refusal = read(&row.layout, &row.record, &row.image, 0, &mut file);
        line!(
            row.out,
            "The file is read: {}, {}, checksum of the image {}",
            answered(refusal),
            String::from_utf8_lossy(&file),
            checksum(&row.image)
        );
    }
}

fn told(out: &mut String, ranges: &[(u64, u64)], length: usize, answer: (u64, u64), same: bool) {
    let mut list = format!("{} ranges", ranges.len());
    if ranges.len() <= 3 {
        for (offset, length) in ranges {
            list += &format!(" {offset}+{length}");
        }
    }
    let (refusal, range) = answer;
    let which = if same { "the same" } else { "ANOTHER" };
    line!(
        out,
        "{length} bytes to {list}: {}, range {range}, {which} image",
        answered(refusal)
    );
}

/// A list tried on an image full of the byte 170, which must stay as it was.
fn unchanged(
    out: &mut String,
    pool: &(Layout, Record, usize),
    ranges: &[(u64, u64)],
    length: usize,
) {
    let (shape, record, image_length) = pool;
    let before = vec![170; *image_length];
    let mut image = before.clone();
    let answer = write_list(shape, record, &mut image, ranges, &vec![b'*'; length]);
    told(out, ranges, length, answer, image == before);
}

/// 64 ranges of one byte, the last of which counts, beside a write of that.
fn most_ranges(out: &mut String) {
    let (shape, empty) = (row(8, 1), Record::default());
    let mut image = vec![170; 160];
    let mut other = image.clone();
    let bytes: Vec<u8> = (1..=64).map(|i| if i < 64 { b'.' } else { b'*' }).collect();
    let answer = write_list(&shape, &empty, &mut image, &[(79, 1); 64], &bytes);
    assert_eq!(write(&shape, &empty, &mut other, 79, b"*"), 0);
    told(out, &[(79, 1); 64], bytes.len(), answer, image == other);
}

/// Lists for the sound row, each with the length of its buffer.
type Lists<'a> = [(&'a [(u64, u64)], usize)];

fn on_the_row(out: &mut String, lists: &Lists) {
    let sound = (row(8, 1), Record::default(), 160);
    for (ranges, length) in lists {
        unchanged(out, &sound, ranges, *length);
    }
}

fn at_the_bounds(out: &mut String) {
    line!(out, "Nothing to write");
    on_the_row(out, &[(&[], 0), (&[(0, 0), (8, 0), (80, 0)], 0)]);
    line!(out, "As many ranges as may be, and one more");
    most_ranges(out);
    on_the_row(out, &[(&[(79, 1); 65], 65), (&[(81, 1); 65], 0)]);
    line!(out, "Ranges outside");
    let mut last_outside = [(79, 1); 64];
    last_outside[63] = (80, 1);
    on_the_row(
        out,
        &[
            (&[(0, 4), (80, 1), (81, 0)], 5),
            (&[(80, 0), (0, 0), (81, 0)], 0),
            (&[(73, 8), (0, 4), (0, 4)], 16),
            (&[(0, 4), (81, 0), (8, 3)], 6),
            (&last_outside, 64),
        ],
    );
    line!(out, "Numbers near 2 to the 64");
    on_the_row(
        out,
        &[
            (&[(0, 0), (1, ONES), (0, 0)], 0),
            (&[(0, 4), (0, ONES), (0, 5)], 8),
            (&[(ONES, 2), (0, 0), (0, 0)], 2),
            (&[(0, 0), (0, 0), (ONES, ONES)], 0),
        ],
    );
    line!(out, "Buffers of another length");
    let seven = [(0, 4), (8, 3), (80, 0)];
    on_the_row(out, &[(&seven, 6), (&seven, 8), (&seven, 0), (&[], 2)]);
}

/// Layout, record and length of the image, of which one is wrong; the ranges
/// are outside, and the buffer is too long.
fn in_wrong_pools(out: &mut String) {
    let record = |first, k| Record {
        failed: [first, 0, 0],
        k,
        ..Record::default()
    };
    line!(
        out,
        "Units of 0 bytes, an image too short and too long, two drives dead, drive 5 dead, 16 units missing"
    );
    for pool in [
        (row(0, 1), record(0, 0), 160),
        (row(8, 1), record(0, 0), 159),
        (row(8, 1), record(0, 0), 161),
        (row(8, 1), record(2, 2), 160),
        (row(8, 1), record(5, 1), 160),
        (row(8, 1), with_count(record(0, 0), 16), 160),
    ] {
        unchanged(out, &pool, &[(81, 2); 3], 7);
    }
}

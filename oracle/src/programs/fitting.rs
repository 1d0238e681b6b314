//! `fitting`: a row's settings through the years, what damaged texts are refused
//! with, and lines that are not added.

use super::row::row;
use super::{answered, line};
use crate::layout::{layout, Layout};
use crate::settings::{add, newest, newest_old, Settings};

const ONES: u64 = u64::MAX;
/// The row's line in version 1, and in version 2 in each edition.
const OLD: &str = "01 02 01 05 0008 000001 0000000000000007\n";
const NEW: &str = "02 02 01 05 0008 000001 0000000000000007 01\n";
const SECOND: &str = "02 02 01 05 0008 000001 0000000000000007 02\n";

/// The whole output.
pub fn output() -> String {
    let mut out = String::new();
    line!(out, "A row's settings through the years");
    through_the_years(&mut out);
    line!(out, "Rows of the least numbers and of the largest");
    at_the_bounds(&mut out);
    line!(out, "Texts of two lines, one of them damaged");
    damaged_lines(&mut out);
    lines_before_and_after(&mut out);
    line!(out, "Lines of other forms");
    lines_of_other_forms(&mut out);
    line!(out, "Lines of bad numbers");
    numbers_out_of_bounds(&mut out);
    line!(out, "Right lines that tell another row");
    other_right_lines(&mut out);
    line!(out, "Used lengths of a buffer of 89 bytes with two lines");
    used_lengths(&mut out);
    line!(out, "Lines that are added, or not, to a buffer of dots");
    wrong_versions(&mut out);
    wrong_numbers(&mut out);
    rooms(&mut out);
    out
}

/// What a reader says.
fn said(read: &Settings) -> String {
    let Layout {
        n,
        k,
        p,
        u,
        t,
        cookie,
        edition,
    } = read.layout;
    let numbers = format!("N {n} K {k} P {p} U {u} T {t} cookie {cookie} edition {edition}");
    let answer = answered(read.refusal);
    if read.refusal == 0 {
        let capacity = read.layout.derived().capacity;
        return format!("{answer}, {numbers}, a file of {capacity} bytes");
    }
    let told = match read.layout == Layout::default() {
        true => String::new(),
        false => format!(", NOT zeros, {numbers}"),
    };
    format!("{answer}, line {}{told}", read.line)
}

/// The first bytes of the buffer, as many as are used, by both readers.
fn read_by_both(out: &mut String, what: &str, buffer: &[u8], used: usize) {
    let (new, old) = (newest(buffer, used), newest_old(buffer, used));
    let old = match old == new {
        true => " says the same".to_string(),
        false => format!(": {}", said(&old)),
    };
    line!(out, "{what}: {}; the old reader{old}", said(&new));
}

/// A text that grows in a buffer of dots.
struct Text {
    buffer: Vec<u8>,
    used: usize,
}

impl Text {
    fn of_dots(length: usize) -> Text {
        Text {
            buffer: vec![b'.'; length],
            used: 0,
        }
    }

    /// A line is added, and the row read.
    fn fitted(&mut self, out: &mut String, what: &str, version: u64, y: &Layout) {
        let (refusal, used) = add(version, y, &mut self.buffer, self.used);
        self.used = used;
        line!(out, "{what}: {}, used {used}", answered(refusal));
        read_by_both(out, "The row is read", &self.buffer, used);
    }

    fn show(&self, out: &mut String) {
        line!(out, "The text, and what lies behind it:");
        line!(out, "{}", String::from_utf8_lossy(&self.buffer));
    }
}

fn through_the_years(out: &mut String) {
    let (first, second) = (row(8, 1), row(8, 1).in_edition(2));
    let mut text = Text::of_dots(200);
    read_by_both(out, "Nothing is added yet", &text.buffer, 0);
    text.fitted(out, "The fitter's line in version 1", 1, &first);
    text.fitted(out, "The same in version 2", 2, &first);
    text.fitted(out, "Moved to edition 2", 2, &second);
    text.fitted(out, "Moved back to edition 1", 2, &first);
    text.show(out);
}

/// The row with other units in a group or over other drives.
fn grouped(n: u64, k: u64, p: u64) -> Layout {
    Layout {
        n,
        k,
        p,
        ..row(8, 1)
    }
}

fn at_the_bounds(out: &mut String) {
    let largest = layout(16, 3, 64, 4096, 65_536, ONES).in_edition(2);
    let mut text = Text::of_dots(90);
    text.fitted(out, "The least group", 1, &grouped(1, 0, 1));
    text.fitted(out, "The largest numbers", 2, &largest);
    text.show(out);
}

fn read_whole(out: &mut String, what: &str, lines: &[&str]) {
    let text = lines.concat();
    read_by_both(out, what, text.as_bytes(), text.len());
}

/// The row's line in version 1 and that in version 2, in which a word is
/// another.
fn damaged_lines(out: &mut String) {
    let mut case = |what: &str, first: (&str, &str), second: (&str, &str)| {
        let lines = [
            OLD.replace(first.0, first.1),
            NEW.replace(second.0, second.1),
        ];
        read_whole(out, what, &[&lines[0], &lines[1]]);
    };
    let same = ("", "");
    case("A digit in upper case", same, (" 0008 ", " 000A "));
    case("A letter past f", ("7\n", "g\n"), same);
    case("Two spaces", same, (" 0008", "  0008"));
    case("A tab for a space", ("01 02", "01\t02"), same);
    case("A digit missing", same, ("000001", "00001"));
    case("A byte 0", ("7\n", "\0\n"), same);
    case("A carriage return", ("\n", "\r\n"), same);
    case("A space before a newline", same, ("\n", " \n"));
    case("A newline missing between", ("\n", ""), same);
    case("The last newline missing", same, ("\n", ""));
}

fn lines_before_and_after(out: &mut String) {
    read_whole(out, "A title before", &["row 5\n", OLD]);
    read_whole(out, "An empty line between", &[OLD, "\n", NEW]);
    read_whole(out, "An empty line after", &[OLD, "\n"]);
    read_whole(out, "A word after", &[OLD, "end"]);
    read_whole(out, "A newline alone", &["\n"]);
    read_whole(out, "Two empty lines", &[OLD, "\n", "\n"]);
    read_whole(out, "An empty line before edition 2", &["\n", SECOND]);
}

fn lines_of_other_forms(out: &mut String) {
    for (what, line) in [
        ("44 bytes in version 1", NEW.replacen("02", "01", 1)),
        ("41 bytes in version 2", OLD.replacen("01", "02", 1)),
        ("Version 0", OLD.replacen("01", "00", 1)),
        ("Version 3", NEW.replacen("02", "03", 1)),
        ("The numbers alone", OLD.replacen("01 ", "", 1)),
    ] {
        read_whole(out, what, &[&line]);
    }
}

fn numbers_out_of_bounds(out: &mut String) {
    for (what, line) in [
        ("17 data units", OLD.replace("02 01 05", "11 01 20")),
        ("4 parity units", OLD.replace("02 01 05", "02 04 20")),
        ("3 drives", OLD.replace("05", "03")),
        ("65 drives", OLD.replace("05", "41")),
        ("Units of 4097 bytes", OLD.replace("0008", "1001")),
        ("65537 tiles", OLD.replace("000001", "010001")),
        ("Edition 3", SECOND.replace("02\n", "03\n")),
    ] {
        read_whole(out, what, &[&line]);
    }
}

fn other_right_lines(out: &mut String) {
    let (units, cookie) = (
        OLD.replace("0008", "0009"),
        OLD.replace(" 00000000", " f0000000"),
    );
    read_whole(out, "Units of 9 bytes", &[&units]);
    read_whole(out, "Another cookie", &[&cookie]);
    read_whole(out, "Edition 2 for 1", &[SECOND]);
    read_whole(out, "Two lines exchanged", &[SECOND, OLD]);
}

fn used_lengths(out: &mut String) {
    let buffer = [OLD, SECOND, "...."].concat();
    for used in [0, 1, 40, 41, 42, 84, 85, 86, 89, 90] {
        read_by_both(out, &format!("Used {used}"), buffer.as_bytes(), used);
    }
    read_by_both(out, "Used 2 to the 64 - 1", buffer.as_bytes(), usize::MAX);
}

/// A line for a buffer of so many dots.
fn tried(out: &mut String, what: &str, version: u64, y: &Layout, size: usize, used: usize) {
    let mut buffer = vec![b'.'; size];
    let (refusal, after) = add(version, y, &mut buffer, used);
    let is_same = buffer.iter().all(|byte| *byte == b'.');
    line!(
        out,
        "{what}: {}, used {after}, the buffer {}",
        answered(refusal),
        if is_same {
            "is as before"
        } else {
            "has changed"
        }
    );
}

fn wrong_versions(out: &mut String) {
    let first = row(8, 1);
    for (what, version, edition) in [
        ("Version 0", 0, 1),
        ("Version 3", 3, 1),
        ("Version 257", 257, 1),
        ("Version 2 to the 64 - 1", ONES, 1),
        ("Edition 2 in version 1", 1, 2),
        ("Edition 0", 2, 0),
        ("Edition 3", 2, 3),
        ("Edition 258", 2, 258),
    ] {
        tried(out, what, version, &first.in_edition(edition), 100, 5);
    }
}

fn wrong_numbers(out: &mut String) {
    for (what, y) in [
        ("No data unit", grouped(0, 1, 5)),
        ("17 data units", grouped(17, 1, 32)),
        ("4 parity units", grouped(2, 4, 32)),
        ("3 drives", grouped(2, 1, 3)),
        ("65 drives", grouped(2, 1, 65)),
        ("Units of 0 bytes", row(0, 1)),
        ("Units of 4097 bytes", row(4097, 1)),
        ("No tile", row(8, 0)),
        ("65537 tiles", row(8, 65_537)),
    ] {
        tried(out, what, 1, &y, 100, 5);
    }
}

fn rooms(out: &mut String) {
    let (good, bad) = (row(8, 1), row(0, 1));
    for (what, version, y, size, used) in [
        ("Used 101 of 100", 1, good, 100, 101),
        ("Used 2 to the 64 - 1", 1, good, 100, usize::MAX),
        ("40 bytes left for 41", 1, good, 100, 60),
        ("43 bytes left for 44", 2, good, 100, 57),
        ("All used", 1, good, 100, 100),
        ("No buffer", 2, good, 0, 0),
        ("41 bytes left for 41", 1, good, 100, 59),
        ("44 bytes left for 44", 2, good, 100, 56),
        ("41 bytes left for 44", 2, good, 41, 0),
        ("Version 3, used 101 of 100", 3, good, 100, 101),
        ("Units of 0 bytes, all used", 2, bad, 100, 100),
        ("Used 1 of none", 1, good, 0, 1),
    ] {
        tried(out, what, version, &y, size, used);
    }
}

//! `mail`: a row's pool as text, read back, and damaged on its way.

use super::row::row;
use super::{answered, line};
use crate::layout::Layout;
use crate::pool::{write, Record};
use crate::pool_text::{read_text, text_length, write_text};

/// The whole output.
pub fn output() -> String {
    let mut out = String::new();
    let image = stored(&row(8, 1));
    let letter = text_of(&row(8, 1), &image);
    let mut back = vec![0xAA; image.len()];
    let (refusal, _) = read_text(&row(8, 1), &letter, &mut back);
    line!(out, "The row is written as text: done");
    out.push_str(&String::from_utf8_lossy(&letter));
    let same = if back == image { "the same" } else { "ANOTHER" };
    line!(out, "It is read back: {}, {same} image", answered(refusal));
    let lines: Vec<String> = String::from_utf8_lossy(&letter)
        .split_inclusive('\n')
        .map(String::from)
        .collect();
    damaged_characters(&mut out, &lines);
    damaged_lines(&mut out, &lines);
    letters_of_others(&mut out);
    refused_otherwise(&mut out, &letter, &image);
    out
}

fn stored(shape: &Layout) -> Vec<u8> {
    let mut image = vec![0; shape.derived().image as usize];
    let mut offset = 0;
    for thing in [
        "a brown bag with one strap",
        "23.4 kg",
        "a red case, its label torn",
    ] {
        assert_eq!(
            write(
                shape,
                &Record::default(),
                &mut image,
                offset,
                thing.as_bytes()
            ),
            0
        );
        offset += thing.len() as u64;
    }
    image
}

fn text_of(shape: &Layout, image: &[u8]) -> Vec<u8> {
    let mut text = vec![0xAA; text_length(shape) as usize];
    assert_eq!(write_text(shape, image, &mut text), 0);
    text
}

fn zeros(bytes: &[u8]) -> &'static str {
    match bytes.iter().all(|byte| *byte == 0) {
        true => "is zeros",
        false => "is NOT zeros",
    }
}

fn refused(out: &mut String, what: &str, shape: &Layout, letter: &[u8], length: usize) {
    let mut image = vec![0xAA; length];
    let (refusal, number) = read_text(shape, letter, &mut image);
    line!(
        out,
        "{what}: {}, line {number}; the image {}",
        answered(refusal),
        zeros(&image)
    );
}

fn unwritten(out: &mut String, what: &str, shape: &Layout, image: &[u8], length: usize) {
    let mut text = vec![0xAA; length];
    let refusal = write_text(shape, image, &mut text);
    line!(
        out,
        "{what}: {}; the text {}",
        answered(refusal),
        zeros(&text)
    );
}

/// One line, counted from 1, with its characters from one column on replaced,
/// columns counted from 0.
fn damaged_characters(out: &mut String, lines: &[String]) {
    let cases: [(&str, usize, usize, usize, &[u8]); 10] = [
        ("A digit of line 2 in upper case", 2, 13, 1, b"F"),
        ("A carriage return at the end of line 3", 3, 26, 0, b"\r"),
        ("Two spaces in line 4", 4, 2, 1, b"  "),
        ("A digit missing in line 9", 9, 16, 1, b""),
        ("A digit too many in line 10", 10, 17, 0, b"0"),
        ("A byte 0 in line 11", 11, 15, 1, &[0]),
        ("A byte 200 in line 12", 12, 13, 1, &[200]),
        ("Another frame's number in line 13", 13, 8, 1, b"4"),
        ("A letter past f in line 14", 14, 11, 1, b"g"),
        ("A space for the newline of line 15", 15, 26, 1, b" "),
    ];
    for (what, number, column, gone, put) in cases {
        let mut letter = Vec::new();
        for (i, text) in lines.iter().enumerate() {
            let mut text = text.clone().into_bytes();
            if i + 1 == number {
                text.splice(column..column + gone, put.iter().copied());
            }
            letter.extend(text);
        }
        refused(out, what, &row(8, 1), &letter, 160);
    }
}

/// Whole lines moved, repeated, left out and put in, counted from 1.
fn damaged_lines(out: &mut String, lines: &[String]) {
    let mut case = |what: &str, change: &dyn Fn(&mut Vec<String>)| {
        let mut letter = lines.to_vec();
        change(&mut letter);
        refused(out, what, &row(8, 1), letter.concat().as_bytes(), 160);
    };
    case("Lines 5 and 6 exchanged", &|letter| letter.swap(4, 5));
    case("Line 6 repeated", &|letter| {
        letter.insert(6, letter[5].clone())
    });
    case("Line 7 left out", &|letter| drop(letter.remove(6)));
    case("An empty line after line 8", &|letter| {
        letter.insert(8, "\n".to_string())
    });
    case("A greeting before line 1", &|letter| {
        letter.insert(0, "Hello\n".to_string())
    });
    case("The last newline missing", &|letter| {
        letter[19].truncate(26)
    });
    case("The last line missing", &|letter| drop(letter.pop()));
    case("A newline after the end", &|letter| {
        letter.push("\n".to_string())
    });
    case("A line after the end", &|letter| {
        letter.push(letter[19].clone())
    });
    case("An empty text", &|letter| letter.clear());
}

fn letters_of_others(out: &mut String) {
    for (what, u, t) in [
        ("The text of a row with units of 4 bytes", 4, 1),
        ("The text of a row with two tiles", 8, 2),
    ] {
        let other = row(u, t);
        let image = vec![17; other.derived().image as usize];
        refused(out, what, &row(8, 1), &text_of(&other, &image), 160);
    }
}

fn refused_otherwise(out: &mut String, letter: &[u8], image: &[u8]) {
    let (shape, bad) = (row(8, 1), row(0, 1));
    refused(out, "An image one byte too short", &shape, letter, 159);
    refused(out, "An image one byte too long", &shape, letter, 161);
    refused(
        out,
        "An image of no bytes and an empty text",
        &shape,
        b"",
        0,
    );
    refused(out, "A row with units of 0 bytes", &bad, letter, 160);
    unwritten(
        out,
        "Written in a text one character too short",
        &shape,
        image,
        539,
    );
    unwritten(
        out,
        "Written in a text one character too long",
        &shape,
        image,
        541,
    );
    unwritten(out, "Written from an image of 3 bytes", &shape, b"abc", 540);
    unwritten(
        out,
        "Written for a row with units of 0 bytes",
        &bad,
        image,
        540,
    );
}

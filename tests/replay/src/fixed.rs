//! Inputs that are tried in every run.

use oracle::layout::{layout, Layout};
use oracle::replay::{line_of_layout, Event};

/// A name and an input.
pub type Fixed = (String, Vec<u8>);

/// A row with a file of 16 bytes.
const FIRST: &str = "01 01 04 0004 000001 0000000000000000\n";
/// Something of each kind, with an answer that shows what went before.
const EVENTS: &str = "01 0000000000000003 4142434445\n\
                      04 0000000000000000 0000000000000010\n\
                      02 01\n\
                      04 0000000000000002 0000000000000007\n\
                      03\n\
                      04 0000000000000000 0000000000000010\n";

pub fn inputs() -> Vec<Fixed> {
    let mut all = Vec::new();
    first_lines(&mut all);
    sizes(&mut all);
    long_lines(&mut all);
    prefixes(&mut all);
    ends_of_pieces(&mut all);
    let day = oracle::programs::replay::input();
    all.push(("the day with a last newline".into(), [&day[..], b"\n"].concat()));
    all.push(("the day".into(), day));
    all
}

fn add(all: &mut Vec<Fixed>, name: &str, parts: &[&[u8]]) {
    all.push((name.to_string(), parts.concat()));
}

fn first_lines(all: &mut Vec<Fixed>) {
    let (first, events) = (FIRST.as_bytes(), EVENTS.as_bytes());
    let cut = &first[..first.len() - 1];
    add(all, "empty", &[]);
    add(all, "a newline", &[b"\n"]);
    add(all, "no first line before events", &[events]);
    add(all, "an empty line before the first", &[b"\n", first, events]);
    add(all, "the first line alone", &[first]);
    add(all, "the first line without its newline", &[cut]);
    add(all, "the first line with CR", &[cut, b"\r\n", events]);
    add(all, "the first line with a space", &[cut, b" \n", events]);
    add(all, "the first line in upper case", &[b"01 01 04 0004 000001 000000000000000A\n", events]);
    add(all, "the first line twice", &[first, first, events]);
    add(all, "events", &[first, events]);
    add(all, "empty lines", &[first, b"\n\n\n", events]);
    // A first line has no place for an edition.
    for edition in ["01", "02", "0000000000000001"] {
        let name = format!("the first line with {edition} for an edition");
        add(all, &name, &[cut, b" ", edition.as_bytes(), b"\n", events]);
    }
    for refused in ["00 01 04 0004 000001", "01 04 20 0004 000001", "01 01 02 0004 000001"] {
        add(all, refused, &[refused.as_bytes(), b" 0000000000000000\n", events]);
    }
    for refused in ["01 01 41 0004 000001", "01 01 04 0000 000001", "01 01 04 1001 000001"] {
        add(all, refused, &[refused.as_bytes(), b" 0000000000000000\n", events]);
    }
    // Refused, and too large if it were not.
    for refused in ["01 01 04 0004 000000", "01 01 04 0004 010001", "ff ff ff ffff ffffff"] {
        add(all, refused, &[refused.as_bytes(), b" ffffffffffffffff\n", events]);
    }
    for length in [8_299, 8_300, 8_301, 8_302, 20_000, 65_536, 200_000] {
        let name = format!("a first line of {length} bytes");
        add(all, &name, &[cut, &vec![b'0'; length - cut.len()], b"\n", events]);
        add(all, &(name + " without its newline"), &[&vec![b'0'; length]]);
    }
}

/// Images of exactly 32,768 bytes, read and written whole and to their ends, and the next size above.
fn sizes(all: &mut Vec<Fixed>) {
    let shapes = [
        layout(1, 0, 1, 1, 32_768, 7),
        layout(1, 0, 1, 4096, 8, 7),
        layout(16, 0, 16, 128, 16, 7),
        layout(4, 2, 8, 16, 256, 7),
        layout(2, 3, 8, 512, 8, u64::MAX),
        layout(16, 0, 64, 512, 1, 7),
    ];
    for shape in shapes {
        assert_eq!(shape.derived().image, 32_768);
        add(all, &format!("32,768 bytes: {shape}"), &[&whole(&shape)]);
        let above = Layout { t: shape.t + 1, ..shape };
        add(all, &format!("too large: {above}"), &[&whole(&above)]);
    }
}

fn whole(shape: &Layout) -> Vec<u8> {
    let capacity = shape.derived().capacity;
    let write = |offset, length| Event::Write { offset, bytes: vec![0xa7; length] };
    let read = |offset, length| Event::Read { offset, length };
    let events = [
        write(0, 4140),
        write(capacity - 4140, 4140),
        write(capacity - 4139, 4140),
        write(capacity - 1, 1),
        read(0, capacity),
        read(0, capacity + 1),
        Event::Fail { target: 0 },
        read(0, capacity),
        Event::Repair,
        read(1, capacity - 1),
        read(1, capacity),
    ];
    let lines: String = events.iter().map(Event::line).collect();
    (line_of_layout(shape) + &lines).into_bytes()
}

/// Lines about as long as may be and far longer; the line behind each is not lost.
fn long_lines(all: &mut Vec<Fixed>) {
    let shape = line_of_layout(&layout(2, 1, 4, 512, 8, 7));
    let (first, events) = (shape.as_bytes(), EVENTS.as_bytes());
    for digits in [8_278, 8_279, 8_280, 8_281, 8_282, 8_284, 65_516, 70_000, 200_000] {
        let long = [b"01 0000000000000000 ", &vec![b'9'; digits][..]].concat();
        let name = format!("a line of {} bytes", long.len());
        add(all, &name, &[first, &long, b"\n", events]);
        add(all, &(name.clone() + " twice"), &[first, &long, b"\n", &long, b"\n", events]);
        add(all, &(name + " without its newline"), &[first, events, &long]);
    }
    // The end of a long line is no line of its own.
    for length in [8_300, 8_301, 8_302, 16_600, 16_602, 65_498, 65_499, 65_536, 131_072] {
        let name = format!("{length} digits before what looks like an event");
        add(all, &name, &[first, &vec![b'0'; length], b"03\n", events]);
    }
    for length in [8_299, 8_300, 8_301] {
        add(all, &format!("{length} spaces"), &[first, &vec![b' '; length], b"\n", events]);
        add(
            all,
            &format!("{length} spaces after an event"),
            &[first, b"03", &vec![b' '; length - 2], b"\n", events],
        );
    }
}

/// A recording cut at every place.
fn prefixes(all: &mut Vec<Fixed>) {
    let whole = [FIRST, EVENTS].concat();
    for length in 0..whole.len() {
        all.push((format!("the first {length} bytes"), whole.as_bytes()[..length].to_vec()));
    }
}

/// The end of the first piece of 65,536 bytes at every place of some lines.
fn ends_of_pieces(all: &mut Vec<Fixed>) {
    let before = 65_536 - FIRST.len();
    for shift in 0..80 {
        let mut filling = vec![b'f'; before - shift];
        // Lines of 1,000 bytes, and one newline at the very end.
        filling.iter_mut().skip(999).step_by(1_000).for_each(|byte| *byte = b'\n');
        *filling.last_mut().expect("it is not empty") = b'\n';
        let name = format!("65,536 bytes end at byte {shift} of the events");
        add(all, &name, &[FIRST.as_bytes(), &filling, EVENTS.as_bytes()]);
    }
}

//! What happens to a trace on its way.

use crate::draws::Draws;

type Damage = fn(&mut Draws, &mut Vec<u8>);

/// Each kind with its name.
pub const DAMAGES: [(&str, Damage); 22] = [
    ("any byte changed", changed),
    ("another digit", digit),
    ("nearly a digit", nearly),
    ("a highest bit set", highest_bit),
    ("a byte inserted", inserted),
    ("a digit inserted", digit_inserted),
    ("a byte removed", removed),
    ("upper case", upper),
    ("upper case in a line", upper_line),
    ("CR in a line", carriage_return),
    ("CR in all lines", carriage_returns),
    ("two spaces", two_spaces),
    ("a space at an end", space_at_an_end),
    ("tab for a space", tab),
    ("lines joined", joined),
    ("a line cut in two", parted),
    ("a line doubled", doubled),
    ("a line dropped", dropped),
    ("lines exchanged", exchanged),
    ("a line near 8,300", near_the_longest),
    ("a line far above 8,300", far_above_the_longest),
    ("cut anywhere", cut),
];

/// Does one to the input. An empty one stays as it is.
pub fn damage(draws: &mut Draws, kind: usize, input: &mut Vec<u8>) {
    if !input.is_empty() {
        DAMAGES[kind].1(draws, input);
    }
}

fn changed(draws: &mut Draws, input: &mut Vec<u8>) {
    let at = draws.place(input.len());
    input[at] = draws.word() as u8;
}

fn digit(draws: &mut Draws, input: &mut Vec<u8>) {
    let at = draws.place(input.len());
    input[at] = draws.pick(b"0123456789abcdef");
}

fn nearly(draws: &mut Draws, input: &mut Vec<u8>) {
    let at = draws.place(input.len());
    input[at] = draws.pick(b"/:@G`g\0\x0b\x1f!+-\x7f\x80\xb0\xff");
}

fn highest_bit(draws: &mut Draws, input: &mut Vec<u8>) {
    let at = draws.place(input.len());
    input[at] |= 0x80;
}

fn inserted(draws: &mut Draws, input: &mut Vec<u8>) {
    let byte = draws.word() as u8;
    input.insert(draws.place(input.len() + 1), byte);
}

fn digit_inserted(draws: &mut Draws, input: &mut Vec<u8>) {
    let byte = draws.pick(b"0123456789abcdef");
    input.insert(draws.place(input.len() + 1), byte);
}

fn removed(draws: &mut Draws, input: &mut Vec<u8>) {
    input.remove(draws.place(input.len()));
}

/// The next letter from some place on.
fn upper(draws: &mut Draws, input: &mut Vec<u8>) {
    let from = draws.place(input.len());
    if let Some(letter) = input[from..].iter_mut().find(|byte| byte.is_ascii_lowercase()) {
        letter.make_ascii_uppercase();
    }
}

fn upper_line(draws: &mut Draws, input: &mut Vec<u8>) {
    edit_lines(draws, input, |_, lines, at| lines[at].make_ascii_uppercase());
}

fn carriage_return(draws: &mut Draws, input: &mut Vec<u8>) {
    edit_lines(draws, input, |_, lines, at| put_before_the_newline(&mut lines[at], b"\r"));
}

fn carriage_returns(draws: &mut Draws, input: &mut Vec<u8>) {
    // Rare, since no line of the trace is good afterwards; else one place alone.
    if !draws.one_in(4) {
        return carriage_return(draws, input);
    }
    edit_lines(draws, input, |_, lines, _| {
        lines.iter_mut().for_each(|line| put_before_the_newline(line, b"\r"));
    });
}

fn two_spaces(draws: &mut Draws, input: &mut Vec<u8>) {
    let from = draws.place(input.len());
    if let Some(at) = input[from..].iter().position(|byte| *byte == b' ') {
        input.insert(from + at, b' ');
    }
}

fn space_at_an_end(draws: &mut Draws, input: &mut Vec<u8>) {
    edit_lines(draws, input, |draws, lines, at| match draws.below(2) {
        0 => lines[at].insert(0, b' '),
        _ => put_before_the_newline(&mut lines[at], b" "),
    });
}

fn tab(draws: &mut Draws, input: &mut Vec<u8>) {
    let from = draws.place(input.len());
    if let Some(space) = input[from..].iter_mut().find(|byte| **byte == b' ') {
        *space = b'\t';
    }
}

fn joined(draws: &mut Draws, input: &mut Vec<u8>) {
    edit_lines(draws, input, |_, lines, at| {
        lines[at].pop();
    });
}

fn parted(draws: &mut Draws, input: &mut Vec<u8>) {
    input.insert(draws.place(input.len() + 1), b'\n');
}

fn doubled(draws: &mut Draws, input: &mut Vec<u8>) {
    edit_lines(draws, input, |draws, lines, at| {
        let again = lines[at].clone();
        lines.insert(draws.place(lines.len() + 1), again);
    });
}

fn dropped(draws: &mut Draws, input: &mut Vec<u8>) {
    edit_lines(draws, input, |_, lines, at| {
        lines.remove(at);
    });
}

fn exchanged(draws: &mut Draws, input: &mut Vec<u8>) {
    edit_lines(draws, input, |draws, lines, at| {
        let other = draws.place(lines.len());
        lines.swap(at, other);
    });
}

/// Digits put in until the line has 8,297 to 8,304 bytes before its newline.
fn near_the_longest(draws: &mut Draws, input: &mut Vec<u8>) {
    let length = draws.between(8297, 8304) as usize;
    edit_lines(draws, input, |_, lines, at| lengthen(&mut lines[at], length));
}

fn far_above_the_longest(draws: &mut Draws, input: &mut Vec<u8>) {
    let length = 8300 + draws.size(100_000) as usize;
    edit_lines(draws, input, |_, lines, at| lengthen(&mut lines[at], length));
}

fn cut(draws: &mut Draws, input: &mut Vec<u8>) {
    input.truncate(draws.place(input.len()));
}

fn put_before_the_newline(line: &mut Vec<u8>, bytes: &[u8]) {
    let at = line.len() - usize::from(line.ends_with(b"\n"));
    line.splice(at..at, bytes.iter().copied());
}

fn lengthen(line: &mut Vec<u8>, length: usize) {
    let missing = (length + 1).saturating_sub(line.len());
    put_before_the_newline(line, &vec![b'7'; missing]);
}

/// Takes the input apart, lets the lines be changed at a drawn one, and joins them.
fn edit_lines(
    draws: &mut Draws,
    input: &mut Vec<u8>,
    edit: impl FnOnce(&mut Draws, &mut Vec<Vec<u8>>, usize),
) {
    let mut lines: Vec<Vec<u8>> =
        input.split_inclusive(|byte| *byte == b'\n').map(<[u8]>::to_vec).collect();
    let at = draws.place(lines.len());
    edit(draws, &mut lines, at);
    *input = lines.concat();
}

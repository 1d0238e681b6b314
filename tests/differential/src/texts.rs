//! Whole pools as text: written, damaged or not, and read back.

use crate::bench::{hex, quoted, Bench};
use crate::damages::damage;
use crate::draws::Draws;
use crate::layouts::{self, told};
use crate::pools::resized;
use crate::tally::Call;
use oracle::hexline::line_of;
use oracle::layout::Layout;
use oracle::pool_text::{self, text_length};
use splicebell::raw;

/// How long images may be: one in so many pools, up to so many bytes. A text is up to 13 times as long.
const SIZES: [(u64, u64); 2] = [(400, 1 << 16), (25, 1 << 12)];
const USUAL_IMAGE: u64 = 320;
/// One in so many rounds has frames from 65,536 on, which need five digits of their lines.
const HIGH: u64 = 400;
/// One in so many rounds reads of frames from 1,048,576 on, which need all six.
const TALL: u64 = 300;
/// One in so many rounds tries all bytes at one place of its text.
const EVERY_BYTE: u64 = 40;

/// What the writer is given.
#[derive(Clone)]
struct Held {
    layout: Layout,
    image: Vec<u8>,
}

impl Held {
    fn drawn(draws: &mut Draws) -> Held {
        let most =
            SIZES.iter().find(|(rare, _)| draws.one_in(*rare)).map_or(USUAL_IMAGE, |size| size.1);
        let layout =
            if draws.one_in(HIGH) { layouts::high(draws) } else { layouts::fitting(draws, most) };
        Held { layout, image: draws.bytes(layout.derived().image as usize) }
    }

    /// Often with an image of another length, with a layout that is refused, or with both.
    fn perhaps_damaged(&self, draws: &mut Draws) -> Held {
        let mut other = self.clone();
        if draws.one_in(2) {
            other.image = resized(draws, &self.image);
        }
        if draws.one_in(2) {
            other.layout = layouts::damaged(draws, &self.layout);
        }
        other
    }
}

/// Calls on one image and on its text.
pub fn round(bench: &mut Bench) {
    if bench.draws.one_in(TALL) {
        return read_first_target(bench);
    }
    let held = Held::drawn(&mut bench.draws);
    bench.tally.add_text(&held.layout);
    let mut text = vec![0; text_length(&held.layout) as usize];
    pool_text::write_text(&held.layout, &held.image, &mut text);
    if held.image.len() as u64 <= USUAL_IMAGE && bench.draws.one_in(EVERY_BYTE) {
        return read_every_byte(bench, &held, text);
    }
    let calls = if held.image.len() > 1 << 14 { 4 } else { bench.draws.between(5, 40) };
    for _ in 0..calls {
        call(bench, &held, &text);
    }
}

/// One call, or two that undo each other.
fn call(bench: &mut Bench, held: &Held, text: &[u8]) {
    let other = held.perhaps_damaged(&mut bench.draws);
    match bench.draws.below(10) {
        kind @ (0 | 1) => {
            let length = bench.draws.length(text.len());
            write(bench, if kind == 0 { held } else { &other }, length, None);
        }
        2 => there_and_back(bench, held),
        3 => back_and_there(bench, held, text),
        4 => {
            read(bench, &other.layout, other.image.len(), text, None);
        }
        kind => {
            let mut sent = text.to_vec();
            damage(&mut bench.draws, &held.layout, &mut sent, |harm| bench.tally.add_damage(harm));
            let held = if kind == 5 { &other } else { held };
            read(bench, &held.layout, held.image.len(), &sent, None);
        }
    }
}

/// "Writing then reading gives the image back": the library reads what the library wrote.
fn there_and_back(bench: &mut Bench, held: &Held) {
    let text = write(bench, held, text_length(&held.layout) as usize, None);
    read(bench, &held.layout, held.image.len(), &text, Some(&held.image));
}

/// "And the other way round": the library writes again what the library read, here a text with digits of its own.
fn back_and_there(bench: &mut Bench, held: &Held, text: &[u8]) {
    let mut sent = text.to_vec();
    let width = 11 + 2 * held.layout.u as usize;
    for line in sent.chunks_mut(width) {
        let digit = bench.draws.between(10, width as u64 - 2) as usize;
        line[digit] = bench.draws.pick(b"0123456789abcdef");
    }
    let image = read(bench, &held.layout, held.image.len(), &sent, None);
    write(bench, &Held { layout: held.layout, image }, sent.len(), Some(&sent));
}

/// Each of the 256 bytes in the place of one, mostly of a unit's digit.
fn read_every_byte(bench: &mut Bench, held: &Held, mut text: Vec<u8>) {
    let width = 11 + 2 * held.layout.u;
    let line = bench.draws.below(text.len() as u64 / width);
    let (any, digit) = (bench.draws.below(width), bench.draws.between(10, width - 2));
    let at = line * width + bench.draws.pick(&[any, digit]);
    for byte in 0..=255 {
        text[at as usize] = byte;
        read(bench, &held.layout, held.image.len(), &text, None);
    }
}

/// A text with the lines of target 0 alone: right up to where the next target's are missing. The whole of it would
/// take the model too long.
fn read_first_target(bench: &mut Bench) {
    let layout = layouts::tall(&mut bench.draws);
    bench.tally.add_text(&layout);
    let units = bench.draws.bytes(layout.derived().frames as usize);
    let lines = (0..).zip(&units).map(|(frame, unit)| line_of(0, frame, &[*unit]));
    let mut sent = lines.collect::<String>().into_bytes();
    if bench.draws.one_in(4) {
        damage(&mut bench.draws, &layout, &mut sent, |harm| bench.tally.add_damage(harm));
    }
    read(bench, &layout, layout.derived().image as usize, &sent, None);
}

/// Makes one call into a text of `length` bytes. `wanted` is what it must write, where that is known without the
/// model. Answers what the library wrote.
fn write(bench: &mut Bench, held: &Held, length: usize, wanted: Option<&[u8]>) -> Vec<u8> {
    let y = &held.layout;
    let before = bench.draws.bytes(length);
    let inputs = || format!("{} image {} text {}", told(y), hex(&held.image), hex(&before));
    let mut trial = bench.begin(Call::WriteText, &inputs);
    let (image, text) = (bench.lend(&held.image), bench.lend_mut(&before));
    let (lent, at, length) = (trial.layout(y), image.pointer(), image.len());
    // SAFETY: both pointers lead to that many bytes, and the buffers lie apart.
    let answer =
        unsafe { raw::splicebell_write_text(lent, at, length, text.pointer(), text.len()) };
    let mut expected = before.clone();
    let refusal = pool_text::write_text(y, &held.image, &mut expected);
    trial.number("refusal", answer, refusal);
    trial.buffer("image", &image, &held.image);
    trial.buffer("text", &text, &expected);
    if let Some(wanted) = wanted {
        trial.buffer("text, against the one that was read", &text, wanted);
    }
    let written = text.contents().to_vec();
    bench.end(trial, refusal);
    written
}

/// Makes one call on an image of `length` bytes, none of them 0. `wanted` is what it must become, where that is
/// known without the model. Answers what the library made of it.
fn read(
    bench: &mut Bench,
    y: &Layout,
    length: usize,
    sent: &[u8],
    wanted: Option<&[u8]>,
) -> Vec<u8> {
    let mut before = bench.draws.bytes(length);
    before.iter_mut().for_each(|byte| *byte = (*byte).max(1));
    let inputs = || format!("{} image {} text {}", told(y), hex(&before), quoted(sent));
    let mut trial = bench.begin(Call::ReadText, &inputs);
    let (text, image) = (bench.lend(sent), bench.lend_mut(&before));
    let (lent, at, length) = (trial.layout(y), text.pointer(), text.len());
    // SAFETY: both pointers lead to that many bytes, and the buffers lie apart.
    let answer =
        unsafe { raw::splicebell_read_text(lent, at, length, image.pointer(), image.len()) };
    let mut expected = before.clone();
    let (refusal, line) = pool_text::read_text(y, sent, &mut expected);
    trial.number("refusal", answer.refusal, refusal);
    trial.number("line", answer.line, line);
    trial.buffer("text", &text, sent);
    trial.buffer("image", &image, &expected);
    if let Some(wanted) = wanted {
        trial.buffer("image, against the one that was written", &image, wanted);
    }
    let filled = image.contents().to_vec();
    bench.end(trial, refusal);
    filled
}

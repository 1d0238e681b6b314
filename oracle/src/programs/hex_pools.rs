//! `hex_pools`: whole pools in hex lines, and refused lines.

use super::{hex, line};
use crate::draws::{checksum, Draws};
use crate::hexline::hex_line;
use crate::layout::{layout, Layout};

const ONES: u64 = u64::MAX;
const POOLS: u64 = 24;

/// The whole output.
pub fn output() -> String {
    let mut out = String::new();
    let three = layout(1, 1, 3, 2, 1, 0);
    pool(&mut out, &three, &[0, 0, 0x41, 0x42, 0x41, 0x42]);
    let mut draws = Draws::new(50_260_606);
    for _ in 0..POOLS {
        let shape = drawn_layout(&mut draws);
        let mut image = vec![0; shape.derived().image as usize];
        draws.fill(&mut image);
        pool(&mut out, &shape, &image);
    }
    far_frames(&mut out, &mut draws);
    long_unit(&mut out, &mut draws);
    refusals(&mut out, &three);
    out
}

fn drawn_layout(draws: &mut Draws) -> Layout {
    let n = 1 + draws.draw(6);
    let k = draws.draw(4);
    let p = n + 2 * k + draws.draw(6);
    let u = 1 + draws.draw(12);
    let t = 1 + draws.draw(2);
    let cookie = draws.high();
    layout(n, k, p, u, t, cookie).in_edition(1 + draws.draw(2))
}

fn pool(out: &mut String, shape: &Layout, image: &[u8]) {
    pool_line(out, shape);
    for target in 0..shape.p {
        for frame in 0..shape.derived().frames {
            frame_line(out, shape, image, target, frame);
        }
    }
}

fn pool_line(out: &mut String, shape: &Layout) {
    line!(out, "pool {}", shape);
}

/// The hex line itself, which brings its own newline.
fn frame_line(out: &mut String, shape: &Layout, image: &[u8], target: u64, frame: u64) {
    let mut bytes = vec![0xAA; 11 + 2 * shape.u as usize];
    hex_line(shape, image, target, frame, &mut bytes);
    out.push_str(std::str::from_utf8(&bytes).expect("hex lines are ASCII"));
}

/// Frame numbers of one to four hex digits, on an image of 65,536 bytes.
fn far_frames(out: &mut String, draws: &mut Draws) {
    let shape = layout(1, 0, 1, 1, 65_536, 0);
    let mut image = vec![0; 65_536];
    draws.fill(&mut image);
    pool_line(out, &shape);
    for frame in [0, 15, 16, 255, 256, 4095, 4096, 48_879, 65_534, 65_535] {
        frame_line(out, &shape, &image, 0, frame);
    }
}

/// The last target of 64, then lines of 8,203 bytes, by their checksums.
fn long_unit(out: &mut String, draws: &mut Draws) {
    for (p, u) in [(64, 16), (16, 4096)] {
        let shape = layout(1, 0, p, u, 1, 0);
        let mut image = vec![0; (p * u) as usize];
        draws.fill(&mut image);
        pool_line(out, &shape);
        for target in 0..p {
            let mut bytes = vec![0xAA; 11 + 2 * u as usize];
            let refusal = hex_line(&shape, &image, target, 0, &mut bytes);
            line!(out, "sum {} {} {}", target, refusal, checksum(&bytes));
        }
    }
}

fn refusals(out: &mut String, three: &Layout) {
    let no_unit = Layout { u: 0, ..*three };
    let ones = layout(ONES, ONES, ONES, ONES, ONES, ONES).in_edition(ONES);
    refused(out, three, 6, 2, 0, 15);
    refused(out, &no_unit, 6, 2, 0, 15);
    refused(out, &ones, 6, 2, 0, 15);
    refused(out, &three.in_edition(0), 6, 2, 0, 15);
    refused(out, &three.in_edition(3), 6, 2, 0, 15);
    refused(out, three, 5, 2, 0, 15);
    refused(out, three, 7, 2, 0, 15);
    refused(out, three, 0, 2, 0, 15);
    refused(out, three, 6, 3, 0, 15);
    refused(out, three, 6, ONES, 0, 15);
    refused(out, three, 6, 2, 1, 15);
    refused(out, three, 6, 2, ONES, 15);
    refused(out, three, 6, 2, 0, 14);
    refused(out, three, 6, 2, 0, 16);
    refused(out, three, 6, 2, 0, 0);
    refused(out, &no_unit, 5, 3, 1, 14);
    refused(out, three, 5, 3, 1, 14);
    refused(out, three, 6, 3, 1, 14);
}

/// One line with the first bytes of an 8-byte image and of a 20-byte buffer of
/// aa, printed whole afterwards.
fn refused(out: &mut String, shape: &Layout, image: usize, target: u64, frame: u64, length: usize) {
    let bytes = [0, 0, 0x41, 0x42, 0x41, 0x42, 0x43, 0x44];
    let mut buffer = [0xAA; 20];
    let refusal = hex_line(shape, &bytes[..image], target, frame, &mut buffer[..length]);
    line!(
        out,
        "line {} {} {} {} {} {} {}",
        shape.u,
        image,
        target,
        frame,
        length,
        refusal,
        hex(&buffer)
    );
}

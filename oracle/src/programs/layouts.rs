//! `layouts`: numbers, permutations, places, offsets, image bytes, walks and
//! refusals over the whole range of layouts.

use super::{line, spaced};
use crate::draws::Draws;
use crate::layout::{layout, Layout};
use crate::permutation::{inverse, permutation};
use crate::place::{file_byte, image_byte, place, step, unit_at, Cursor, Step};

const ONES: u64 = u64::MAX;

/// Layouts at the ends of the ranges.
const ENDS: [[u64; 7]; 14] = [
    [1, 0, 1, 1, 1, 0, 1],
    [1, 0, 64, 4096, 65_536, ONES, 2],
    [16, 3, 22, 4096, 65_536, ONES, 1],
    [16, 3, 64, 4096, 65_536, 0, 2],
    [16, 0, 16, 1, 65_536, ONES - 1, 1],
    [1, 3, 7, 1, 1, 1, 2],
    [1, 3, 64, 1, 65_536, ONES, 1],
    [4, 2, 20, 16, 3, 0, 1],
    [4, 2, 20, 16, 3, 0, 2],
    [1, 1, 3, 2, 1, 0, 1],
    [1, 1, 4, 4, 1, 0, 1],
    [1, 1, 4, 4, 1, 0, 2],
    [15, 3, 21, 512, 1000, 9_223_372_036_854_775_808, 1],
    [8, 2, 63, 4095, 65_535, 9_223_372_036_854_775_807, 2],
];

/// Layouts just inside and just outside each bound, and all-ones numbers.
const BOUNDS: [[u64; 7]; 41] = [
    [0, 2, 20, 16, 3, 7, 1],
    [1, 2, 20, 16, 3, 7, 1],
    [16, 2, 20, 16, 3, 7, 1],
    [16, 2, 64, 16, 3, 7, 1],
    [17, 2, 64, 16, 3, 7, 1],
    [17, 0, 64, 16, 3, 7, 1],
    [ONES, 2, 20, 16, 3, 7, 1],
    [ONES - 1, 1, 20, 16, 3, 7, 1],
    [4, 0, 20, 16, 3, 7, 1],
    [4, 3, 20, 16, 3, 7, 1],
    [4, 4, 20, 16, 3, 7, 1],
    [4, ONES, 20, 16, 3, 7, 1],
    [4, 9_223_372_036_854_775_807, 20, 16, 3, 7, 1],
    [4, 9_223_372_036_854_775_808, 20, 16, 3, 7, 1],
    [4, 2, 0, 16, 3, 7, 1],
    [4, 2, 7, 16, 3, 7, 1],
    [4, 2, 8, 16, 3, 7, 1],
    [4, 2, 9, 16, 3, 7, 1],
    [16, 3, 21, 16, 3, 7, 1],
    [16, 3, 22, 16, 3, 7, 1],
    [4, 2, 64, 16, 3, 7, 1],
    [4, 2, 65, 16, 3, 7, 1],
    [4, 2, ONES, 16, 3, 7, 1],
    [4, 2, 20, 0, 3, 7, 1],
    [4, 2, 20, 1, 3, 7, 1],
    [4, 2, 20, 4096, 3, 7, 1],
    [4, 2, 20, 4097, 3, 7, 1],
    [4, 2, 20, ONES, 3, 7, 1],
    [4, 2, 20, 16, 0, 7, 1],
    [4, 2, 20, 16, 1, 7, 1],
    [4, 2, 20, 16, 65_536, 7, 1],
    [4, 2, 20, 16, 65_537, 7, 1],
    [4, 2, 20, 16, ONES, 7, 1],
    [4, 2, 20, 16, 3, ONES, 1],
    [4, 2, 20, 16, 3, 7, 0],
    [4, 2, 20, 16, 3, 7, 1],
    [4, 2, 20, 16, 3, 7, 2],
    [4, 2, 20, 16, 3, 7, 3],
    [4, 2, 20, 16, 3, 7, ONES],
    [0; 7],
    [ONES; 7],
];

const DRAWN: u64 = 36;

fn from_row(row: &[u64; 7]) -> Layout {
    let [n, k, p, u, t, cookie, edition] = *row;
    layout(n, k, p, u, t, cookie).in_edition(edition)
}

/// The whole output.
pub fn output() -> String {
    let mut out = String::new();
    let mut draws = Draws::new(20_260_101);
    for row in &ENDS {
        show(&mut out, &mut draws, &from_row(row));
    }
    for _ in 0..DRAWN {
        let shape = drawn_layout(&mut draws);
        show(&mut out, &mut draws, &shape);
    }
    for row in &BOUNDS {
        bound(&mut out, &from_row(row));
    }
    out
}

fn drawn_layout(draws: &mut Draws) -> Layout {
    let n = 1 + draws.draw(16);
    let k = draws.draw(4);
    let w = n + 2 * k;
    let p = w + draws.draw(65 - w);
    let u = 1 + draws.draw(4096);
    let t = match draws.draw(4) {
        0 => 1 + draws.draw(8),
        1 => 1 + draws.draw(1000),
        2 => 1 + draws.draw(32_768),
        _ => 65_536 - draws.draw(1000),
    };
    let cookie = match draws.draw(4) {
        0 => 0,
        1 => ONES - draws.draw(8),
        2 => draws.draw(32_768),
        _ => draws.high(),
    };
    layout(n, k, p, u, t, cookie).in_edition(1 + draws.draw(2))
}

fn show(out: &mut String, draws: &mut Draws, shape: &Layout) {
    line!(out, "layout {}", shape);
    numbers(out, shape);
    for tile in [0, shape.t / 2, shape.t - 1, shape.t, ONES] {
        tile_lines(out, shape, tile);
    }
    groups(out, draws, shape);
    backs(out, draws, shape);
    offsets(out, draws, shape);
    bytes(out, draws, shape);
    walks(out, draws, shape);
}

fn numbers(out: &mut String, shape: &Layout) {
    let (refusal, d) = shape.numbers();
    line!(
        out,
        "numbers {} {} {} {} {} {} {} {} {}",
        refusal,
        d.w,
        d.b,
        d.l,
        d.c,
        d.frames,
        d.groups,
        d.capacity,
        d.image
    );
}

fn tile_lines(out: &mut String, shape: &Layout, tile: u64) {
    let (refusal, entries) = permutation(shape, tile);
    line!(out, "permutation {} {} {}", tile, refusal, spaced(&entries));
    let (refusal, entries) = inverse(shape, tile);
    line!(out, "inverse {} {} {}", tile, refusal, spaced(&entries));
}

fn groups(out: &mut String, draws: &mut Draws, shape: &Layout) {
    let d = shape.derived();
    let first = draws.wide() % d.groups;
    let second = draws.wide() % d.groups;
    for group in [0, first, second, d.groups - 1, d.groups] {
        for unit in 0..=d.w {
            place_line(out, shape, group, unit);
        }
    }
    place_line(out, shape, ONES, 0);
    place_line(out, shape, 0, ONES);
}

fn place_line(out: &mut String, shape: &Layout, group: u64, unit: u64) {
    let (refusal, at) = place(shape, group, unit);
    let (back_refusal, back) = unit_at(shape, at.frame, at.target);
    line!(
        out,
        "place {} {} {} {} {} {} {} {} {}",
        group,
        unit,
        refusal,
        at.frame,
        at.target,
        at.begins,
        back_refusal,
        back.group,
        back.unit
    );
}

fn backs(out: &mut String, draws: &mut Draws, shape: &Layout) {
    let frames = shape.derived().frames;
    for _ in 0..4 {
        let frame = draws.wide() % frames;
        let target = draws.draw(shape.p);
        back_line(out, shape, frame, target);
    }
    back_line(out, shape, frames - 1, shape.p - 1);
    back_line(out, shape, frames, 0);
    back_line(out, shape, 0, shape.p);
    back_line(out, shape, ONES, 0);
    back_line(out, shape, 0, ONES);
}

fn back_line(out: &mut String, shape: &Layout, frame: u64, target: u64) {
    let (refusal, back) = unit_at(shape, frame, target);
    line!(
        out,
        "back {} {} {} {} {}",
        frame,
        target,
        refusal,
        back.group,
        back.unit
    );
}

fn offsets(out: &mut String, draws: &mut Draws, shape: &Layout) {
    let capacity = shape.derived().capacity;
    let first = draws.wider() % capacity;
    let second = draws.wider() % capacity;
    for offset in [0, 1, first, second, capacity - 1, capacity, ONES] {
        let (refusal, at) = file_byte(shape, offset);
        line!(
            out,
            "offset {} {} {} {} {} {}",
            offset,
            refusal,
            at.group,
            at.unit,
            at.byte,
            at.image
        );
    }
}

fn bytes(out: &mut String, draws: &mut Draws, shape: &Layout) {
    let image = shape.derived().image;
    let first = draws.wider() % image;
    let second = draws.wider() % image;
    for x in [0, 1, first, second, image - 1, image, ONES] {
        byte_line(out, shape, x);
    }
}

fn byte_line(out: &mut String, shape: &Layout, x: u64) {
    let (refusal, at) = image_byte(shape, x);
    line!(
        out,
        "byte {} {} {} {} {} {} {}",
        x,
        refusal,
        at.group,
        at.unit,
        at.byte,
        u64::from(at.offset.is_some()),
        at.offset.unwrap_or(0)
    );
}

fn walks(out: &mut String, draws: &mut Draws, shape: &Layout) {
    let frames = shape.derived().frames;
    let drawn = draws.draw(shape.p);
    for target in [0, drawn, shape.p, ONES] {
        for frame in [0, 1, frames - 1, frames, frames + 1, ONES] {
            walk_line(out, shape, Cursor { target, frame });
        }
    }
}

fn walk_line(out: &mut String, shape: &Layout, cursor: Cursor) {
    let Cursor { target, frame } = cursor;
    match step(shape, cursor) {
        Step::At(at, next) => line!(
            out,
            "walk {} {} at {} {} {} {}",
            target,
            frame,
            at.group,
            at.unit,
            next.target,
            next.frame
        ),
        Step::Done(same) => {
            line!(
                out,
                "walk {} {} done {} {}",
                target,
                frame,
                same.target,
                same.frame
            )
        }
        Step::Refused(number, same) => line!(
            out,
            "walk {} {} refused {} {} {}",
            target,
            frame,
            number,
            same.target,
            same.frame
        ),
    }
}

fn bound(out: &mut String, shape: &Layout) {
    line!(out, "bound {}", shape);
    numbers(out, shape);
    tile_lines(out, shape, 0);
    place_line(out, shape, 0, 0);
    back_line(out, shape, 0, 0);
    let (refusal, at) = file_byte(shape, 0);
    line!(
        out,
        "offset 0 {} {} {} {} {}",
        refusal,
        at.group,
        at.unit,
        at.byte,
        at.image
    );
    byte_line(out, shape, 0);
    for (target, frame) in [(0, 0), (3, ONES)] {
        walk_line(out, shape, Cursor { target, frame });
    }
}

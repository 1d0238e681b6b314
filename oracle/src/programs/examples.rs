//! `examples`: document 01's checked examples of layouts, permutation, places,
//! walk and offsets, in words, then the permutations of edition 2.

use super::{line, spaced};
use crate::layout::{layout, Layout};
use crate::permutation::{advance, begin, inverse, permutation};
use crate::place::{file_byte, image_byte, place, step, unit_at, Cursor, Step};

/// The whole output.
pub fn output() -> String {
    let mut out = String::new();
    line!(out, "Layout numbers");
    numbers(&mut out, &layout(4, 2, 20, 1, 1, 0));
    numbers(&mut out, &layout(1, 0, 1, 1, 1, 0));
    numbers(&mut out, &layout(16, 3, 22, 1, 1, 0));
    numbers(&mut out, &layout(16, 3, 21, 1, 1, 0));
    states(&mut out, 1, ["start", "state 1", "state 2", "state 3"]);
    permutations(&mut out, 1);
    let example = layout(1, 1, 4, 4, 1, 0);
    line!(out, "Places of N=1 K=1 P=4 U=4 T=1 cookie 0");
    numbers(&mut out, &example);
    places(&mut out, &example);
    line!(out, "Walks over its targets");
    walks(&mut out, &example);
    line!(out, "File offsets");
    for offset in [0, 9, 15, 16] {
        offset_line(&mut out, &example, offset);
    }
    line!(out, "And back from bytes of the image");
    for image in [24, 41, 23, 14, 36, 48] {
        byte_line(&mut out, &example, image);
    }
    line!(out, "The slip of dividing by the spares too");
    slip(&mut out, &example);
    states(&mut out, 2, ["state 4", "state 5", "state 6", "state 7"]);
    permutations(&mut out, 2);
    out
}

fn numbers(out: &mut String, shape: &Layout) {
    let (refusal, d) = shape.numbers();
    line!(
        out,
        "N={} K={} P={} U={} T={}: refusal {}, W={} B={} L={} C={} frames={} groups={} capacity={} image={}",
        shape.n, shape.k, shape.p, shape.u, shape.t,
        refusal, d.w, d.b, d.l, d.c, d.frames, d.groups, d.capacity, d.image
    );
}

/// The state from which the exchanges go, and those of three exchanges.
fn states(out: &mut String, edition: u64, names: [&str; 4]) {
    line!(
        out,
        "Generator states of cookie 0, tile 0, edition {}",
        edition
    );
    let mut state = begin(edition, 0, 0);
    for name in names {
        line!(out, "{}: {}", name, state);
        state = advance(state);
    }
}

fn permutations(out: &mut String, edition: u64) {
    line!(out, "Permutations of cookie 0, tile 0, edition {}", edition);
    permutation_line(out, &layout(1, 1, 3, 1, 1, 0).in_edition(edition));
    permutation_line(out, &layout(1, 1, 4, 4, 1, 0).in_edition(edition));
}

fn permutation_line(out: &mut String, shape: &Layout) {
    let shown = shape.p as usize;
    let there = permutation(shape, 0).1;
    let back = inverse(shape, 0).1;
    line!(
        out,
        "P={}: permutation {}, inverse {}",
        shape.p,
        spaced(&there[..shown]),
        spaced(&back[..shown])
    );
}

fn places(out: &mut String, shape: &Layout) {
    let d = shape.derived();
    for group in 0..d.groups {
        for unit in 0..d.w {
            let at = place(shape, group, unit).1;
            let back = unit_at(shape, at.frame, at.target).1;
            line!(
                out,
                "group {} unit {}: frame {} target {}, begins at {}, and back: group {} unit {}",
                group,
                unit,
                at.frame,
                at.target,
                at.begins,
                back.group,
                back.unit
            );
        }
    }
    line!(out, "group 4 unit 0: refusal {}", place(shape, 4, 0).0);
    line!(out, "group 0 unit 3: refusal {}", place(shape, 0, 3).0);
    line!(out, "frame 3 target 0: refusal {}", unit_at(shape, 3, 0).0);
    line!(out, "frame 0 target 4: refusal {}", unit_at(shape, 0, 4).0);
}

fn walks(out: &mut String, shape: &Layout) {
    for target in 0..=shape.p {
        for frame in 0..=shape.derived().frames + 1 {
            walk_line(out, shape, Cursor { target, frame });
        }
    }
}

fn walk_line(out: &mut String, shape: &Layout, cursor: Cursor) {
    let Cursor { target, frame } = cursor;
    match step(shape, cursor) {
        Step::At(at, next) => line!(
            out,
            "target {} frame {}: group {} unit {}, next frame {}",
            target,
            frame,
            at.group,
            at.unit,
            next.frame
        ),
        Step::Done(_) => line!(out, "target {} frame {}: done", target, frame),
        Step::Refused(number, _) => {
            line!(out, "target {} frame {}: refusal {}", target, frame, number)
        }
    }
}

fn offset_line(out: &mut String, shape: &Layout, offset: u64) {
    let (refusal, at) = file_byte(shape, offset);
    if refusal == 0 {
        line!(
            out,
            "offset {}: group {} unit {} byte {}, image byte {}",
            offset,
            at.group,
            at.unit,
            at.byte,
            at.image
        );
    } else {
        line!(out, "offset {}: refusal {}", offset, refusal);
    }
}

fn byte_line(out: &mut String, shape: &Layout, image: u64) {
    let (refusal, at) = image_byte(shape, image);
    if refusal != 0 {
        line!(out, "image byte {}: refusal {}", image, refusal);
        return;
    }
    let held = match at.offset {
        Some(offset) => format!("offset {offset}"),
        None => "not of the file".to_string(),
    };
    line!(
        out,
        "image byte {}: group {} unit {} byte {}, {}",
        image,
        at.group,
        at.unit,
        at.byte,
        held
    );
}

fn slip(out: &mut String, shape: &Layout) {
    let wrong = shape.u * (shape.n + 2 * shape.k);
    line!(
        out,
        "offset 9 divided by U*(N+2K)={}: group {} unit {}, a spare",
        wrong,
        9 / wrong,
        9 % wrong / shape.u
    );
    let right = file_byte(shape, 9).1;
    line!(
        out,
        "offset 9 divided by N*U={}: group {} unit {}",
        shape.n * shape.u,
        right.group,
        right.unit
    );
}

//! Read, write and repair over a pool image, for layouts, records and ranges that are sound and an image whose
//! parity is right: the twin tests nothing.

use crate::code::{missing_contents, missing_data, parity_of};
use crate::homes::{Group, Record, Tiles};
use crate::layout::{Layout, Shape};
use std::borrow::Cow;
use std::ops::Range;

/// What the contents of a group hold at a run of unit offsets, None where a content is missing.
pub fn held<'a>(image: &'a [u8], group: &Group, run: &Range<usize>) -> Vec<Option<&'a [u8]>> {
    let at = |c: usize| &image[group.starts[c] + run.start..group.starts[c] + run.end];
    (0..group.starts.len()).map(|c| if group.missing[c] { None } else { Some(at(c)) }).collect()
}

/// For each group that a range of the file touches: the group, and the part of its data that is touched.
fn touched(
    layout: &Layout,
    offset: u64,
    length: usize,
) -> impl Iterator<Item = (u64, Range<usize>)> {
    let data = layout.n * layout.u;
    let end = offset + length as u64;
    (offset / data..end.div_ceil(data)).map(move |g| {
        let from = offset.max(g * data) - g * data;
        let to = end.min((g + 1) * data) - g * data;
        (g, from as usize..to as usize)
    })
}

/// The units that a part of a group's data touches, each with the run of its offsets that is touched.
fn runs(part: &Range<usize>, u: usize) -> impl Iterator<Item = (usize, Range<usize>)> {
    let Range { start, end } = *part;
    (start / u..end.div_ceil(u))
        .map(move |v| (v, start.max(v * u) - v * u..end.min((v + 1) * u) - v * u))
}

pub fn read(layout: Layout, record: &Record, image: &[u8], offset: u64, out: &mut [u8]) {
    let shape = Shape::of(layout);
    let mut tiles = Tiles::new(&shape);
    let mut rest = out;
    for (g, part) in touched(&layout, offset, rest.len()) {
        let group = tiles.group(record, g);
        for (unit, run) in runs(&part, layout.u as usize) {
            let (now, later) = rest.split_at_mut(run.len());
            if group.missing[unit] {
                let rebuilt =
                    missing_data(layout.n as usize, &held(image, &group, &run), run.len());
                now.copy_from_slice(&rebuilt[group.rank(unit)]);
            } else {
                now.copy_from_slice(
                    &image[group.starts[unit] + run.start..group.starts[unit] + run.end],
                );
            }
            rest = later;
        }
    }
}

/// The data of a group at a run of unit offsets, with `bytes` laid over the part of it that is written.
fn new_data<'a>(
    layout: &Layout,
    group: &Group,
    image: &'a [u8],
    part: &Range<usize>,
    run: &Range<usize>,
    bytes: &'a [u8],
) -> Vec<Cow<'a, [u8]>> {
    let (n, u) = (layout.n as usize, layout.u as usize);
    if part.len() == n * u {
        return bytes.chunks_exact(u).map(Cow::Borrowed).collect();
    }
    let present = held(image, group, run);
    let rebuilt = missing_data(n, &present, run.len());
    let mut data: Vec<Cow<[u8]>> = (0..n)
        .map(|j| {
            present[j].map_or_else(|| Cow::Owned(rebuilt[group.rank(j)].clone()), Cow::Borrowed)
        })
        .collect();
    let mut rest = bytes;
    for (unit, here) in runs(part, u) {
        let (now, later) = rest.split_at(here.len());
        data[unit].to_mut()[here.start - run.start..here.end - run.start].copy_from_slice(now);
        rest = later;
    }
    data
}

fn write_group(layout: &Layout, group: &Group, image: &mut [u8], part: Range<usize>, bytes: &[u8]) {
    let (n, u) = (layout.n as usize, layout.u as usize);
    let one_unit = part.start / u == (part.end - 1) / u;
    let run = if one_unit { part.start % u..(part.end - 1) % u + 1 } else { 0..u };
    let data = new_data(layout, group, image, &part, &run, bytes);
    let mut parity = vec![vec![0; run.len()]; layout.k as usize];
    for (i, unit) in parity.iter_mut().enumerate() {
        parity_of(i, data.iter().map(|d| &d[..]), unit);
    }
    let mut rest = bytes;
    for (unit, here) in runs(&part, u) {
        let (now, later) = rest.split_at(here.len());
        if !group.missing[unit] {
            image[group.starts[unit] + here.start..group.starts[unit] + here.end]
                .copy_from_slice(now);
        }
        rest = later;
    }
    for (i, unit) in parity.iter().enumerate().filter(|(i, _)| !group.missing[n + i]) {
        image[group.starts[n + i] + run.start..group.starts[n + i] + run.end].copy_from_slice(unit);
    }
}

pub fn write_range(
    layout: &Layout,
    record: &Record,
    tiles: &mut Tiles,
    image: &mut [u8],
    offset: u64,
    bytes: &[u8],
) {
    let mut rest = bytes;
    for (g, part) in touched(layout, offset, bytes.len()) {
        let group = tiles.group(record, g);
        let (now, later) = rest.split_at(part.len());
        write_group(layout, &group, image, part, now);
        rest = later;
    }
}

pub fn write(layout: Layout, record: &Record, image: &mut [u8], offset: u64, bytes: &[u8]) {
    let shape = Shape::of(layout);
    write_range(&layout, record, &mut Tiles::new(&shape), image, offset, bytes);
}

/// Stores every missing content at its home under the whole list, and answers how many there were.
pub fn repair(layout: Layout, record: &Record, image: &mut [u8]) -> u64 {
    let u = layout.u as usize;
    let shape = Shape::of(layout);
    let mut tiles = Tiles::new(&shape);
    let mut count = 0;
    for g in 0..shape.groups() {
        let group = tiles.group(record, g);
        if !group.missing.contains(&true) {
            continue;
        }
        let new_starts = tiles.new_starts(record, g);
        let rebuilt = missing_contents(layout.n as usize, &held(image, &group, &(0..u)), u);
        let lost = (0..group.missing.len()).filter(|&c| group.missing[c]);
        for (c, unit) in lost.zip(&rebuilt) {
            image[new_starts[c]..new_starts[c] + u].copy_from_slice(unit);
        }
        count += rebuilt.len() as u64;
    }
    count
}

//! Plans of repair, drawn up, tested and run, for layouts and records that are sound. An entry is a group, one of its
//! contents, and the N contents of that group to rebuild it from.

use crate::code::missing_content;
use crate::count::missing_units;
use crate::homes::{Record, Tiles};
use crate::layout::{Layout, Shape};

fn entry_size(layout: &Layout) -> usize {
    layout.n as usize + 2
}

/// How many numbers the plan takes; none, and nothing is drawn, where there is no room for it.
pub fn draw(layout: Layout, record: &Record, plan: &mut [u64]) -> Option<usize> {
    let (n, size) = (layout.n as usize, entry_size(&layout));
    let shape = Shape::of(layout);
    let needed = missing_units(&shape, record) as usize * size;
    let mut entries = plan.get_mut(..needed)?.chunks_exact_mut(size);
    let mut tiles = Tiles::new(&shape);
    for g in 0..shape.groups() {
        let missing = tiles.group(record, g).missing;
        for c in (0..missing.len()).filter(|&c| missing[c]) {
            let entry = entries.next().expect("an entry for each that was counted");
            (entry[0], entry[1]) = (g, c as u64);
            let present = (0..missing.len()).filter(|&c| !missing[c]).take(n);
            present.zip(&mut entry[2..]).for_each(|(c, source)| *source = c as u64);
        }
    }
    Some(needed)
}

/// Whether the sources are different contents, and none of them is missing.
fn sources_good(sources: &[u64], missing: &[bool]) -> bool {
    let mut taken = missing.to_vec();
    sources.iter().all(|&c| taken.get_mut(c as usize).is_some_and(|t| !std::mem::replace(t, true)))
}

/// Whether each missing content is named once, from N different present ones, and nothing else is.
pub fn is_good(layout: Layout, record: &Record, plan: &[u64]) -> bool {
    let size = entry_size(&layout);
    let shape = Shape::of(layout);
    if plan.len() as u64 != missing_units(&shape, record) * size as u64 {
        return false;
    }
    let contents = (layout.n + layout.k) as usize;
    let mut named = vec![false; shape.groups() as usize * contents];
    let mut tiles = Tiles::new(&shape);
    plan.chunks_exact(size).all(|entry| {
        let (g, c) = (entry[0], entry[1] as usize);
        if g >= shape.groups() || c >= contents {
            return false;
        }
        let missing = tiles.group(record, g).missing;
        let again = std::mem::replace(&mut named[g as usize * contents + c], true);
        missing[c] && !again && sources_good(&entry[2..], &missing)
    })
}

/// Stores each content that is named at its home under the whole list, and answers how many there were. The plan is one
/// that is accepted.
pub fn run(layout: Layout, record: &Record, image: &mut [u8], plan: &[u64]) -> u64 {
    let (n, u, size) = (layout.n as usize, layout.u as usize, entry_size(&layout));
    let shape = Shape::of(layout);
    let mut tiles = Tiles::new(&shape);
    for entry in plan.chunks_exact(size) {
        let (g, c) = (entry[0], entry[1] as usize);
        let starts = tiles.group(record, g).starts;
        let home = tiles.new_starts(record, g)[c];
        let read =
            |c: usize| entry[2..].contains(&(c as u64)).then(|| &image[starts[c]..starts[c] + u]);
        let held: Vec<Option<&[u8]>> = (0..starts.len()).map(read).collect();
        let unit = missing_content(n, &held, c, u);
        image[home..home + u].copy_from_slice(&unit);
    }
    (plan.len() / size) as u64
}

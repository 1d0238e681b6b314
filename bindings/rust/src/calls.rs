//! The calls of the C interface on slices. This is the only module with unsafe code.
//!
//! SAFETY, of every call here. The library takes any numbers and any lengths; what is left to the caller is
//! about memory, and Rust's types give it. A slice is never null, is aligned, and leads to as many elements
//! as its length says, also where that is 0. A `&mut` slice overlaps no other slice of the call, and no other
//! thread reads or writes what is lent. The library keeps no pointer after a call, and stores into what is
//! lent only bytes and numbers of 64 bits, which may hold any value; a `bool` in an answer is 0 or 1. Its
//! stack is taken page by page, as Rust does it, so too small a stack ends the program at the guard page.
//! What is lent under another type than it has here is as large, and at least as aligned: asserted below.
use crate::raw::*;
use crate::{Entry, Range};
use std::mem::{align_of, offset_of, size_of, transmute};

// An entry and a range of the safe interface are lent to the library as they stand, a number of 128 bits as
// room for a pair.
const _: () = {
    assert!(size_of::<Entry>() == size_of::<splicebell_entry>());
    assert!(align_of::<Entry>() == align_of::<splicebell_entry>());
    assert!(offset_of!(Entry, device) == offset_of!(splicebell_entry, device));
    assert!(offset_of!(Entry, file) == offset_of!(splicebell_entry, file));
    assert!(offset_of!(Entry, cob) == offset_of!(splicebell_entry, cob));
    assert!(size_of::<Range>() == size_of::<splicebell_range>());
    assert!(align_of::<Range>() == align_of::<splicebell_range>());
    assert!(offset_of!(Range, offset) == offset_of!(splicebell_range, offset));
    assert!(offset_of!(Range, length) == offset_of!(splicebell_range, length));
    assert!(size_of::<u128>() == size_of::<splicebell_wide>());
    assert!(align_of::<u128>() >= align_of::<splicebell_wide>());
};

pub fn measure(y: splicebell_layout) -> splicebell_measured {
    unsafe { splicebell_measure(y) }
}

pub fn tile_permutation(y: splicebell_layout, tile: u64) -> splicebell_entries {
    unsafe { splicebell_tile_permutation(y, tile) }
}

pub fn tile_inverse(y: splicebell_layout, tile: u64) -> splicebell_entries {
    unsafe { splicebell_tile_inverse(y, tile) }
}

pub fn find_place(y: splicebell_layout, group: u64, unit: u64) -> splicebell_placed {
    unsafe { splicebell_find_place(y, group, unit) }
}

pub fn find_unit(y: splicebell_layout, frame: u64, target: u64) -> splicebell_held {
    unsafe { splicebell_find_unit(y, frame, target) }
}

pub fn map_offset(y: splicebell_layout, offset: u64) -> splicebell_mapped {
    unsafe { splicebell_map_offset(y, offset) }
}

pub fn map_byte(y: splicebell_layout, x: u64) -> splicebell_traced {
    unsafe { splicebell_map_byte(y, x) }
}

pub fn step(y: splicebell_layout, at: splicebell_cursor) -> splicebell_walked {
    unsafe { splicebell_step(y, at) }
}

pub fn encode(y: splicebell_layout, buf: &mut [u8]) -> u64 {
    unsafe { splicebell_encode(y, buf.as_mut_ptr(), buf.len()) }
}

pub fn rebuild(y: splicebell_layout, missing: &[u64], buf: &mut [u8]) -> u64 {
    unsafe { splicebell_rebuild(y, missing.as_ptr(), missing.len(), buf.as_mut_ptr(), buf.len()) }
}

pub fn fail(
    y: splicebell_layout,
    r: splicebell_record,
    image: &[u8],
    target: u64,
) -> splicebell_failed {
    unsafe { splicebell_fail(y, r, image.as_ptr(), image.len(), target) }
}

pub fn read(
    y: splicebell_layout,
    r: splicebell_record,
    image: &[u8],
    offset: u64,
    out: &mut [u8],
) -> u64 {
    let (into, room) = (out.as_mut_ptr(), out.len());
    unsafe { splicebell_read(y, r, image.as_ptr(), image.len(), offset, into, room) }
}

pub fn write(
    y: splicebell_layout,
    r: splicebell_record,
    image: &mut [u8],
    offset: u64,
    bytes: &[u8],
) -> u64 {
    let (into, room) = (image.as_mut_ptr(), image.len());
    unsafe { splicebell_write(y, r, into, room, offset, bytes.as_ptr(), bytes.len()) }
}

pub fn write_list(
    y: splicebell_layout,
    r: splicebell_record,
    image: &mut [u8],
    ranges: &[Range],
    bytes: &[u8],
) -> splicebell_list_written {
    let (into, room) = (image.as_mut_ptr(), image.len());
    let (list, count) = (ranges.as_ptr().cast(), ranges.len());
    unsafe { splicebell_write_list(y, r, into, room, list, count, bytes.as_ptr(), bytes.len()) }
}

pub fn repair(y: splicebell_layout, r: splicebell_record, image: &mut [u8]) -> splicebell_repaired {
    unsafe { splicebell_repair(y, r, image.as_mut_ptr(), image.len()) }
}

pub fn check_plan(y: splicebell_layout, r: splicebell_record, image: &[u8], plan: &[u64]) -> u64 {
    let (entries, length) = (plan.as_ptr(), plan.len());
    unsafe { splicebell_check_plan(y, r, image.as_ptr(), image.len(), entries, length) }
}

pub fn repair_by(
    y: splicebell_layout,
    r: splicebell_record,
    image: &mut [u8],
    plan: &[u64],
) -> splicebell_repaired {
    let (into, room) = (image.as_mut_ptr(), image.len());
    unsafe { splicebell_repair_by(y, r, into, room, plan.as_ptr(), plan.len()) }
}

pub fn draw_plan(
    y: splicebell_layout,
    r: splicebell_record,
    image: &[u8],
    plan: &mut [u64],
) -> splicebell_drawn {
    let (into, room) = (plan.as_mut_ptr(), plan.len());
    unsafe { splicebell_draw_plan(y, r, image.as_ptr(), image.len(), into, room) }
}

pub fn swap(
    y: splicebell_layout,
    r: splicebell_record,
    image: &mut [u8],
    target: u64,
) -> splicebell_swapped {
    unsafe { splicebell_swap(y, r, image.as_mut_ptr(), image.len(), target) }
}

pub fn move_edition(
    y: splicebell_layout,
    r: splicebell_record,
    old_image: &[u8],
    new_image: &mut [u8],
) -> u64 {
    let (into, room) = (new_image.as_mut_ptr(), new_image.len());
    unsafe { splicebell_move_edition(y, r, old_image.as_ptr(), old_image.len(), into, room) }
}

pub fn panel(y: splicebell_layout, r: splicebell_record, image: &[u8]) -> splicebell_counts {
    unsafe { splicebell_panel(y, r, image.as_ptr(), image.len()) }
}

pub fn audit(y: splicebell_layout, r: splicebell_record, image: &[u8]) -> u64 {
    unsafe { splicebell_audit(y, r, image.as_ptr(), image.len()) }
}

pub fn prepare(
    y: splicebell_layout,
    r: splicebell_record,
    image: &[u8],
    group: u64,
    content: u64,
    scratch: &mut [u8],
) -> u64 {
    let (into, room) = (scratch.as_mut_ptr(), scratch.len());
    unsafe { splicebell_prepare(y, r, image.as_ptr(), image.len(), group, content, into, room) }
}

pub fn show(
    y: splicebell_layout,
    r: splicebell_record,
    image: &[u8],
    scratch: &[u8],
    group: u64,
    content: u64,
) -> splicebell_shown {
    let (unit, length) = (scratch.as_ptr(), scratch.len());
    unsafe { splicebell_show(y, r, image.as_ptr(), image.len(), unit, length, group, content) }
}

pub fn lookup(slots: &[Entry], n: usize, key: splicebell_key) -> splicebell_found {
    unsafe { splicebell_lookup(slots.as_ptr().cast(), slots.len(), n, key) }
}

pub fn insert(slots: &mut [Entry], n: usize, record: splicebell_entry) -> splicebell_changed {
    unsafe { splicebell_insert(slots.as_mut_ptr().cast(), slots.len(), n, record) }
}

pub fn delete(slots: &mut [Entry], n: usize, record: splicebell_entry) -> splicebell_changed {
    unsafe { splicebell_delete(slots.as_mut_ptr().cast(), slots.len(), n, record) }
}

/// The output is lent as pairs, whose words may stand in another order than those of a `u128` in memory. So the
/// `count` pairs that were written become numbers here, each where it stands. The rest is left alone: after an
/// accepted call it holds the caller's own numbers still, after a refused one zeros, which are the same in both
/// forms. That is sound whatever was stored, since any 16 bytes are a pair and a `u128`; a count above the room
/// stops the program before a number is read.
pub fn listing(
    slots: &[Entry],
    n: usize,
    key: splicebell_key,
    out: &mut [u128],
) -> splicebell_page {
    let (into, room) = (out.as_mut_ptr().cast(), out.len());
    let page =
        unsafe { splicebell_listing(slots.as_ptr().cast(), slots.len(), n, key, into, room) };
    for cob in &mut out[..page.count] {
        *cob = unsafe { transmute::<u128, splicebell_wide>(*cob) }.into();
    }
    page
}

pub fn hex_line(
    y: splicebell_layout,
    image: &[u8],
    target: u64,
    frame: u64,
    line: &mut [u8],
) -> u64 {
    let (into, room) = (line.as_mut_ptr(), line.len());
    unsafe { splicebell_hex_line(y, image.as_ptr(), image.len(), target, frame, into, room) }
}

pub fn write_text(y: splicebell_layout, image: &[u8], text: &mut [u8]) -> u64 {
    let (into, room) = (text.as_mut_ptr(), text.len());
    unsafe { splicebell_write_text(y, image.as_ptr(), image.len(), into, room) }
}

pub fn read_text(y: splicebell_layout, text: &[u8], image: &mut [u8]) -> splicebell_text_read {
    let (into, room) = (image.as_mut_ptr(), image.len());
    unsafe { splicebell_read_text(y, text.as_ptr(), text.len(), into, room) }
}

pub fn replay_first(line: &[u8]) -> splicebell_first_line {
    unsafe { splicebell_replay_first(line.as_ptr(), line.len()) }
}

pub fn replay_line(
    y: splicebell_layout,
    r: splicebell_record,
    image: &mut [u8],
    line: &[u8],
    answer: &mut [u8],
) -> splicebell_played {
    let (state, length) = (image.as_mut_ptr(), image.len());
    let (into, room) = (answer.as_mut_ptr(), answer.len());
    unsafe { splicebell_replay_line(y, r, state, length, line.as_ptr(), line.len(), into, room) }
}

pub fn add_settings(
    version: u64,
    y: splicebell_layout,
    buffer: &mut [u8],
    used: usize,
) -> splicebell_added {
    unsafe { splicebell_add_settings(version, y, buffer.as_mut_ptr(), buffer.len(), used) }
}

pub fn newest_settings(buffer: &[u8], used: usize) -> splicebell_settings {
    unsafe { splicebell_newest_settings(buffer.as_ptr(), buffer.len(), used) }
}

pub fn newest_settings_old(buffer: &[u8], used: usize) -> splicebell_settings {
    unsafe { splicebell_newest_settings_old(buffer.as_ptr(), buffer.len(), used) }
}

//! The C interface as `include/splicebell.h` declares it, name for name.
//!
//! The safe interface of this crate is built on these declarations. `tests/agreement` compares them with
//! the header and with the Rattle sources.
#![allow(missing_docs, non_camel_case_types)]

#[repr(C)]
#[derive(Clone, Copy, Debug, Default, PartialEq, Eq)]
pub struct splicebell_layout {
    pub n: u64,
    pub k: u64,
    pub p: u64,
    pub u: u64,
    pub t: u64,
    pub cookie: u64,
    pub edition: u64,
}

#[repr(C)]
#[derive(Clone, Copy, Debug, Default, PartialEq, Eq)]
pub struct splicebell_record {
    pub failed: [u64; 3],
    pub k: u64,
    pub q: u64,
    pub waiting: u64,
}

#[repr(C)]
#[derive(Clone, Copy, Debug, Default, PartialEq, Eq)]
pub struct splicebell_numbers {
    pub w: u64,
    pub b: u64,
    pub l: u64,
    pub c: u64,
    pub frames: u64,
    pub groups: u64,
    pub capacity: u64,
    pub image: u64,
}

#[repr(C)]
#[derive(Clone, Copy, Debug, Default, PartialEq, Eq)]
pub struct splicebell_measured {
    pub refusal: u64,
    pub numbers: splicebell_numbers,
}

#[repr(C)]
#[derive(Clone, Copy, Debug, PartialEq, Eq)]
pub struct splicebell_entries {
    pub refusal: u64,
    pub entries: [u8; 64],
}

#[repr(C)]
#[derive(Clone, Copy, Debug, Default, PartialEq, Eq)]
pub struct splicebell_placed {
    pub refusal: u64,
    pub frame: u64,
    pub target: u64,
    pub begins: u64,
}

#[repr(C)]
#[derive(Clone, Copy, Debug, Default, PartialEq, Eq)]
pub struct splicebell_held {
    pub refusal: u64,
    pub group: u64,
    pub unit: u64,
}

#[repr(C)]
#[derive(Clone, Copy, Debug, Default, PartialEq, Eq)]
pub struct splicebell_mapped {
    pub refusal: u64,
    pub group: u64,
    pub unit: u64,
    pub byte: u64,
    pub image: u64,
}

#[repr(C)]
#[derive(Clone, Copy, Debug, Default, PartialEq, Eq)]
pub struct splicebell_traced {
    pub refusal: u64,
    pub group: u64,
    pub unit: u64,
    pub byte: u64,
    pub is_data: bool,
    pub offset: u64,
}

#[repr(C)]
#[derive(Clone, Copy, Debug, Default, PartialEq, Eq)]
pub struct splicebell_unit {
    pub group: u64,
    pub unit: u64,
}

#[repr(C)]
#[derive(Clone, Copy, Debug, Default, PartialEq, Eq)]
pub struct splicebell_cursor {
    pub target: u64,
    pub frame: u64,
}

#[repr(C)]
#[derive(Clone, Copy, Debug, Default, PartialEq, Eq)]
pub struct splicebell_walked {
    pub refusal: u64,
    pub done: bool,
    pub held: splicebell_unit,
    pub next: splicebell_cursor,
}

#[repr(C)]
#[derive(Clone, Copy, Debug, Default, PartialEq, Eq)]
pub struct splicebell_failed {
    pub refusal: u64,
    pub record: splicebell_record,
}

#[repr(C)]
#[derive(Clone, Copy, Debug, Default, PartialEq, Eq)]
pub struct splicebell_range {
    pub offset: u64,
    pub length: u64,
}

#[repr(C)]
#[derive(Clone, Copy, Debug, Default, PartialEq, Eq)]
pub struct splicebell_list_written {
    pub refusal: u64,
    pub range: u64,
}

#[repr(C)]
#[derive(Clone, Copy, Debug, Default, PartialEq, Eq)]
pub struct splicebell_repaired {
    pub refusal: u64,
    pub count: u64,
    pub record: splicebell_record,
}

#[repr(C)]
#[derive(Clone, Copy, Debug, Default, PartialEq, Eq)]
pub struct splicebell_drawn {
    pub refusal: u64,
    pub length: u64,
}

#[repr(C)]
#[derive(Clone, Copy, Debug, Default, PartialEq, Eq)]
pub struct splicebell_swapped {
    pub refusal: u64,
    pub record: splicebell_record,
}

#[repr(C)]
#[derive(Clone, Copy, Debug, Default, PartialEq, Eq)]
pub struct splicebell_counts {
    pub refusal: u64,
    pub waiting: u64,
    pub failed: u64,
    pub repaired: u64,
}

#[repr(C)]
#[derive(Clone, Copy, Debug, Default, PartialEq, Eq)]
pub struct splicebell_shown {
    pub refusal: u64,
    pub missing: bool,
    pub begins: usize,
    pub length: usize,
}

#[repr(C)]
#[derive(Clone, Copy, Debug, Default, PartialEq, Eq, Hash)]
pub struct splicebell_wide {
    pub first: u64,
    pub second: u64,
}

#[repr(C)]
#[derive(Clone, Copy, Debug, Default, PartialEq, Eq)]
pub struct splicebell_entry {
    pub device: u64,
    pub file: splicebell_wide,
    pub cob: splicebell_wide,
}

#[repr(C)]
#[derive(Clone, Copy, Debug, Default, PartialEq, Eq)]
pub struct splicebell_key {
    pub device: u64,
    pub file: splicebell_wide,
}

#[repr(C)]
#[derive(Clone, Copy, Debug, Default, PartialEq, Eq)]
pub struct splicebell_found {
    pub refusal: u64,
    pub cob: splicebell_wide,
}

#[repr(C)]
#[derive(Clone, Copy, Debug, Default, PartialEq, Eq)]
pub struct splicebell_changed {
    pub refusal: u64,
    pub count: usize,
}

#[repr(C)]
#[derive(Clone, Copy, Debug, Default, PartialEq, Eq)]
pub struct splicebell_page {
    pub refusal: u64,
    pub count: usize,
    pub more: bool,
    pub next: splicebell_wide,
}

#[repr(C)]
#[derive(Clone, Copy, Debug, Default, PartialEq, Eq)]
pub struct splicebell_text_read {
    pub refusal: u64,
    pub line: u64,
}

#[repr(C)]
#[derive(Clone, Copy, Debug, Default, PartialEq, Eq)]
pub struct splicebell_first_line {
    pub refusal: u64,
    pub layout: splicebell_layout,
    pub image: u64,
}

#[repr(C)]
#[derive(Clone, Copy, Debug, Default, PartialEq, Eq)]
pub struct splicebell_played {
    pub refusal: u64,
    pub length: u64,
    pub record: splicebell_record,
}

#[repr(C)]
#[derive(Clone, Copy, Debug, Default, PartialEq, Eq)]
pub struct splicebell_added {
    pub refusal: u64,
    pub used: usize,
}

#[repr(C)]
#[derive(Clone, Copy, Debug, Default, PartialEq, Eq)]
pub struct splicebell_settings {
    pub refusal: u64,
    pub line: u64,
    pub layout: splicebell_layout,
}

extern "C" {
    pub fn splicebell_measure(y: splicebell_layout) -> splicebell_measured;
    pub fn splicebell_tile_permutation(y: splicebell_layout, tile: u64) -> splicebell_entries;
    pub fn splicebell_tile_inverse(y: splicebell_layout, tile: u64) -> splicebell_entries;
    pub fn splicebell_find_place(y: splicebell_layout, group: u64, unit: u64) -> splicebell_placed;
    pub fn splicebell_find_unit(y: splicebell_layout, frame: u64, target: u64) -> splicebell_held;
    pub fn splicebell_map_offset(y: splicebell_layout, offset: u64) -> splicebell_mapped;
    pub fn splicebell_map_byte(y: splicebell_layout, x: u64) -> splicebell_traced;
    pub fn splicebell_step(y: splicebell_layout, at: splicebell_cursor) -> splicebell_walked;
    pub fn splicebell_encode(y: splicebell_layout, buf: *mut u8, len: usize) -> u64;
    pub fn splicebell_rebuild(
        y: splicebell_layout,
        missing: *const u64,
        missing_count: usize,
        buf: *mut u8,
        len: usize,
    ) -> u64;
    pub fn splicebell_fail(
        y: splicebell_layout,
        r: splicebell_record,
        image: *const u8,
        image_len: usize,
        target: u64,
    ) -> splicebell_failed;
    pub fn splicebell_read(
        y: splicebell_layout,
        r: splicebell_record,
        image: *const u8,
        image_len: usize,
        offset: u64,
        out: *mut u8,
        out_len: usize,
    ) -> u64;
    pub fn splicebell_write(
        y: splicebell_layout,
        r: splicebell_record,
        image: *mut u8,
        image_len: usize,
        offset: u64,
        bytes: *const u8,
        bytes_len: usize,
    ) -> u64;
    pub fn splicebell_write_list(
        y: splicebell_layout,
        r: splicebell_record,
        image: *mut u8,
        image_len: usize,
        ranges: *const splicebell_range,
        range_count: usize,
        bytes: *const u8,
        bytes_len: usize,
    ) -> splicebell_list_written;
    pub fn splicebell_repair(
        y: splicebell_layout,
        r: splicebell_record,
        image: *mut u8,
        image_len: usize,
    ) -> splicebell_repaired;
    pub fn splicebell_check_plan(
        y: splicebell_layout,
        r: splicebell_record,
        image: *const u8,
        image_len: usize,
        plan: *const u64,
        plan_len: usize,
    ) -> u64;
    pub fn splicebell_repair_by(
        y: splicebell_layout,
        r: splicebell_record,
        image: *mut u8,
        image_len: usize,
        plan: *const u64,
        plan_len: usize,
    ) -> splicebell_repaired;
    pub fn splicebell_draw_plan(
        y: splicebell_layout,
        r: splicebell_record,
        image: *const u8,
        image_len: usize,
        plan: *mut u64,
        plan_len: usize,
    ) -> splicebell_drawn;
    pub fn splicebell_swap(
        y: splicebell_layout,
        r: splicebell_record,
        image: *mut u8,
        image_len: usize,
        target: u64,
    ) -> splicebell_swapped;
    pub fn splicebell_move_edition(
        y: splicebell_layout,
        r: splicebell_record,
        old_image: *const u8,
        old_image_len: usize,
        new_image: *mut u8,
        new_image_len: usize,
    ) -> u64;
    pub fn splicebell_panel(
        y: splicebell_layout,
        r: splicebell_record,
        image: *const u8,
        image_len: usize,
    ) -> splicebell_counts;
    pub fn splicebell_audit(
        y: splicebell_layout,
        r: splicebell_record,
        image: *const u8,
        image_len: usize,
    ) -> u64;
    pub fn splicebell_prepare(
        y: splicebell_layout,
        r: splicebell_record,
        image: *const u8,
        image_len: usize,
        group: u64,
        content: u64,
        scratch: *mut u8,
        scratch_len: usize,
    ) -> u64;
    pub fn splicebell_show(
        y: splicebell_layout,
        r: splicebell_record,
        image: *const u8,
        image_len: usize,
        scratch: *const u8,
        scratch_len: usize,
        group: u64,
        content: u64,
    ) -> splicebell_shown;
    pub fn splicebell_lookup(
        slots: *const splicebell_entry,
        slot_count: usize,
        n: usize,
        key: splicebell_key,
    ) -> splicebell_found;
    pub fn splicebell_insert(
        slots: *mut splicebell_entry,
        slot_count: usize,
        n: usize,
        record: splicebell_entry,
    ) -> splicebell_changed;
    pub fn splicebell_delete(
        slots: *mut splicebell_entry,
        slot_count: usize,
        n: usize,
        record: splicebell_entry,
    ) -> splicebell_changed;
    pub fn splicebell_listing(
        slots: *const splicebell_entry,
        slot_count: usize,
        n: usize,
        key: splicebell_key,
        out: *mut splicebell_wide,
        out_len: usize,
    ) -> splicebell_page;
    pub fn splicebell_hex_line(
        y: splicebell_layout,
        image: *const u8,
        image_len: usize,
        target: u64,
        frame: u64,
        line: *mut u8,
        line_len: usize,
    ) -> u64;
    pub fn splicebell_write_text(
        y: splicebell_layout,
        image: *const u8,
        image_len: usize,
        text: *mut u8,
        text_len: usize,
    ) -> u64;
    pub fn splicebell_read_text(
        y: splicebell_layout,
        text: *const u8,
        text_len: usize,
        image: *mut u8,
        image_len: usize,
    ) -> splicebell_text_read;
    pub fn splicebell_replay_first(line: *const u8, line_len: usize) -> splicebell_first_line;
    pub fn splicebell_replay_line(
        y: splicebell_layout,
        r: splicebell_record,
        image: *mut u8,
        image_len: usize,
        line: *const u8,
        line_len: usize,
        answer: *mut u8,
        answer_len: usize,
    ) -> splicebell_played;
    pub fn splicebell_add_settings(
        version: u64,
        y: splicebell_layout,
        buffer: *mut u8,
        buffer_len: usize,
        used: usize,
    ) -> splicebell_added;
    pub fn splicebell_newest_settings(
        buffer: *const u8,
        buffer_len: usize,
        used: usize,
    ) -> splicebell_settings;
    pub fn splicebell_newest_settings_old(
        buffer: *const u8,
        buffer_len: usize,
        used: usize,
    ) -> splicebell_settings;
}

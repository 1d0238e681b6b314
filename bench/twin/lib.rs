//! A plain Rust twin of the calls that are timed, to compare with: the same layout, the same bytes, no proofs and no
//! tests of what is passed, but for the text that is read, the list that is written, the count that is audited, plans,
//! settings and the catalogue. The C side is declared in `src/twin.h`, with the types of `splicebell.h`.

mod catalogue;
mod code;
mod count;
mod edition;
mod field;
mod homes;
mod layout;
mod list;
mod plan;
mod pool;
mod settings;
mod swap;
mod text;

use catalogue::{Changed, Entry, Found, Key, Page, Wide};
use homes::Record;
use layout::{Layout, Shape};
use settings::{Added, Settings};
use std::slice::{from_raw_parts, from_raw_parts_mut};

#[repr(C)]
pub struct Entries {
    refusal: u64,
    entries: [u8; 64],
}

#[repr(C)]
pub struct Mapped {
    refusal: u64,
    group: u64,
    unit: u64,
    byte: u64,
    image: u64,
}

#[repr(C)]
pub struct Repaired {
    refusal: u64,
    count: u64,
    record: Record,
}

#[repr(C)]
pub struct Failed {
    refusal: u64,
    record: Record,
}

#[repr(C)]
pub struct Swapped {
    refusal: u64,
    record: Record,
}

#[repr(C)]
pub struct Drawn {
    refusal: u64,
    length: u64,
}

#[repr(C)]
pub struct TextRead {
    refusal: u64,
    line: u64,
}

#[repr(C)]
pub struct ListWritten {
    refusal: u64,
    range: u64,
}

/// # Safety
/// The pointers lead to `length` bytes each; nothing else touches `out`.
#[no_mangle]
pub unsafe extern "C" fn twin_products(a: *const u8, b: *const u8, out: *mut u8, length: usize) {
    let pairs = from_raw_parts(a, length).iter().zip(from_raw_parts(b, length));
    for (product, (a, b)) in from_raw_parts_mut(out, length).iter_mut().zip(pairs) {
        *product = field::product(*a, *b);
    }
}

/// Answers 0, as every call here but the reader of a text, the writer of a list, the audit, those of plans and of
/// settings and the catalogue's: what is passed is taken to be sound.
///
/// # Safety
/// `group` leads to `length` bytes that nothing else touches.
#[no_mangle]
pub unsafe extern "C" fn twin_encode(y: Layout, group: *mut u8, length: usize) -> u64 {
    code::encode(y.n as usize, y.k as usize, y.u as usize, from_raw_parts_mut(group, length));
    0
}

/// # Safety
/// The pointers lead to as many elements as their lengths say; nothing else touches `group`.
#[no_mangle]
pub unsafe extern "C" fn twin_rebuild(
    y: Layout,
    missing: *const u64,
    missing_count: usize,
    group: *mut u8,
    length: usize,
) -> u64 {
    let missing = from_raw_parts(missing, missing_count);
    code::rebuild(y.n as usize, y.u as usize, missing, from_raw_parts_mut(group, length));
    0
}

/// # Safety
/// The pointers lead to as many bytes as their lengths say; nothing else touches `out`.
#[no_mangle]
pub unsafe extern "C" fn twin_read(
    y: Layout,
    r: Record,
    image: *const u8,
    image_length: usize,
    offset: u64,
    out: *mut u8,
    out_length: usize,
) -> u64 {
    pool::read(
        y,
        &r,
        from_raw_parts(image, image_length),
        offset,
        from_raw_parts_mut(out, out_length),
    );
    0
}

/// # Safety
/// The pointers lead to as many bytes as their lengths say; nothing else touches `image`.
#[no_mangle]
pub unsafe extern "C" fn twin_write(
    y: Layout,
    r: Record,
    image: *mut u8,
    image_length: usize,
    offset: u64,
    bytes: *const u8,
    length: usize,
) -> u64 {
    pool::write(
        y,
        &r,
        from_raw_parts_mut(image, image_length),
        offset,
        from_raw_parts(bytes, length),
    );
    0
}

/// # Safety
/// The pointers lead to as many elements as their lengths say; nothing else touches `image`.
#[no_mangle]
pub unsafe extern "C" fn twin_write_list(
    y: Layout,
    r: Record,
    image: *mut u8,
    image_length: usize,
    ranges: *const [u64; 2],
    range_count: usize,
    bytes: *const u8,
    length: usize,
) -> ListWritten {
    let (refusal, range) = list::write(
        y,
        &r,
        from_raw_parts_mut(image, image_length),
        from_raw_parts(ranges, range_count),
        from_raw_parts(bytes, length),
    );
    ListWritten { refusal, range }
}

/// # Safety
/// `image` leads to `image_length` bytes that nothing else touches.
#[no_mangle]
pub unsafe extern "C" fn twin_repair(
    y: Layout,
    r: Record,
    image: *mut u8,
    image_length: usize,
) -> Repaired {
    let count = pool::repair(y, &r, from_raw_parts_mut(image, image_length));
    Repaired { refusal: 0, count, record: Record { q: r.k, waiting: 0, ..r } }
}

/// The image is lent for its length alone, here, in the audit and where a plan is checked or drawn, and the twin does
/// not test that.
#[no_mangle]
pub extern "C" fn twin_fail(
    y: Layout,
    r: Record,
    _image: *const u8,
    _image_length: usize,
    target: u64,
) -> Failed {
    Failed { refusal: 0, record: count::fail(y, r, target) }
}

#[no_mangle]
pub extern "C" fn twin_audit(y: Layout, r: Record, _image: *const u8, _image_length: usize) -> u64 {
    if count::is_true(y, &r) {
        0
    } else {
        14
    }
}

/// # Safety
/// `plan` leads to `plan_length` numbers.
#[no_mangle]
pub unsafe extern "C" fn twin_check_plan(
    y: Layout,
    r: Record,
    _image: *const u8,
    _image_length: usize,
    plan: *const u64,
    plan_length: usize,
) -> u64 {
    if plan::is_good(y, &r, from_raw_parts(plan, plan_length)) {
        0
    } else {
        15
    }
}

/// # Safety
/// The pointers lead to as many elements as their lengths say; nothing else touches `image`.
#[no_mangle]
pub unsafe extern "C" fn twin_repair_by(
    y: Layout,
    r: Record,
    image: *mut u8,
    image_length: usize,
    plan: *const u64,
    plan_length: usize,
) -> Repaired {
    let plan = from_raw_parts(plan, plan_length);
    if !plan::is_good(y, &r, plan) {
        return Repaired { refusal: 15, count: 0, record: r };
    }
    let count = plan::run(y, &r, from_raw_parts_mut(image, image_length), plan);
    Repaired { refusal: 0, count, record: Record { q: r.k, waiting: 0, ..r } }
}

/// # Safety
/// `plan` leads to `plan_length` numbers that nothing else touches.
#[no_mangle]
pub unsafe extern "C" fn twin_draw_plan(
    y: Layout,
    r: Record,
    _image: *const u8,
    _image_length: usize,
    plan: *mut u64,
    plan_length: usize,
) -> Drawn {
    match plan::draw(y, &r, from_raw_parts_mut(plan, plan_length)) {
        Some(length) => Drawn { refusal: 0, length: length as u64 },
        None => Drawn { refusal: 5, length: 0 },
    }
}

/// # Safety
/// `image` leads to `image_length` bytes that nothing else touches.
#[no_mangle]
pub unsafe extern "C" fn twin_swap(
    y: Layout,
    r: Record,
    image: *mut u8,
    image_length: usize,
    target: u64,
) -> Swapped {
    let record = swap::take_back(y, &r, from_raw_parts_mut(image, image_length), target);
    Swapped { refusal: 0, record }
}

/// # Safety
/// The pointers lead to as many bytes as their lengths say; nothing else touches `new_image`.
#[no_mangle]
pub unsafe extern "C" fn twin_move_edition(
    y: Layout,
    r: Record,
    old_image: *const u8,
    old_length: usize,
    new_image: *mut u8,
    new_length: usize,
) -> u64 {
    let (old, new) =
        (from_raw_parts(old_image, old_length), from_raw_parts_mut(new_image, new_length));
    edition::move_edition(y, &r, old, new);
    0
}

/// # Safety
/// The pointers lead to as many bytes as their lengths say; nothing else touches `text`.
#[no_mangle]
pub unsafe extern "C" fn twin_write_text(
    y: Layout,
    image: *const u8,
    image_length: usize,
    text: *mut u8,
    text_length: usize,
) -> u64 {
    text::write(y, from_raw_parts(image, image_length), from_raw_parts_mut(text, text_length));
    0
}

/// # Safety
/// The pointers lead to as many bytes as their lengths say; nothing else touches `image`.
#[no_mangle]
pub unsafe extern "C" fn twin_read_text(
    y: Layout,
    text: *const u8,
    text_length: usize,
    image: *mut u8,
    image_length: usize,
) -> TextRead {
    let line =
        text::read(y, from_raw_parts(text, text_length), from_raw_parts_mut(image, image_length));
    TextRead { refusal: if line == 0 { 0 } else { 12 }, line }
}

/// # Safety
/// `buffer` leads to `length` bytes that nothing else touches.
#[no_mangle]
pub unsafe extern "C" fn twin_add_settings(
    version: u64,
    y: Layout,
    buffer: *mut u8,
    length: usize,
    used: usize,
) -> Added {
    settings::add(version, y, from_raw_parts_mut(buffer, length), used)
}

/// # Safety
/// `buffer` leads to `length` bytes.
#[no_mangle]
pub unsafe extern "C" fn twin_newest_settings(
    buffer: *const u8,
    length: usize,
    used: usize,
) -> Settings {
    settings::newest(from_raw_parts(buffer, length), used)
}

/// # Safety
/// `buffer` leads to `length` bytes.
#[no_mangle]
pub unsafe extern "C" fn twin_newest_settings_old(
    buffer: *const u8,
    length: usize,
    used: usize,
) -> Settings {
    settings::newest_old(from_raw_parts(buffer, length), used)
}

/// # Safety
/// `slots` leads to `slot_count` records.
#[no_mangle]
pub unsafe extern "C" fn twin_lookup(
    slots: *const Entry,
    slot_count: usize,
    n: usize,
    key: Key,
) -> Found {
    catalogue::lookup(from_raw_parts(slots, slot_count), n, key)
}

/// # Safety
/// `slots` leads to `slot_count` records that nothing else touches.
#[no_mangle]
pub unsafe extern "C" fn twin_insert(
    slots: *mut Entry,
    slot_count: usize,
    n: usize,
    record: Entry,
) -> Changed {
    catalogue::insert(from_raw_parts_mut(slots, slot_count), n, record)
}

/// # Safety
/// `slots` leads to `slot_count` records that nothing else touches.
#[no_mangle]
pub unsafe extern "C" fn twin_delete(
    slots: *mut Entry,
    slot_count: usize,
    n: usize,
    record: Entry,
) -> Changed {
    catalogue::delete(from_raw_parts_mut(slots, slot_count), n, record)
}

/// # Safety
/// The pointers lead to as many elements as their lengths say; nothing else touches `out`.
#[no_mangle]
pub unsafe extern "C" fn twin_listing(
    slots: *const Entry,
    slot_count: usize,
    n: usize,
    from: Key,
    out: *mut Wide,
    out_length: usize,
) -> Page {
    let out = from_raw_parts_mut(out, out_length);
    catalogue::listing(from_raw_parts(slots, slot_count), n, from, out)
}

#[no_mangle]
pub extern "C" fn twin_tile_permutation(y: Layout, tile: u64) -> Entries {
    Entries { refusal: 0, entries: Shape::of(y).permutation(tile) }
}

#[no_mangle]
pub extern "C" fn twin_map_offset(y: Layout, offset: u64) -> Mapped {
    let data = y.n * y.u;
    let (group, unit, byte) = (offset / data, offset % data / y.u, offset % y.u);
    let shape = Shape::of(y);
    let permutation = shape.permutation(group / shape.groups_in_tile);
    let place = shape.place(&permutation, group, unit);
    Mapped { refusal: 0, group, unit, byte, image: shape.image_byte(place) as u64 + byte }
}

//! Memory that is lent to a call: watched on both sides.
//!
//! A buffer lies in an arena between two pages that cannot be touched, so that an access past such an end
//! is a fault. Where it touches no such page, guard bytes of a drawn pattern stand beside it. A buffer that
//! is lent to be read is sometimes sealed: then storing into it is a fault, even of the bytes that it holds.

use crate::draws::Draws;
use std::alloc::{alloc, dealloc, Layout as Block};
use std::ffi::c_void;

const PAGE: usize = 4096;
const GUARD: usize = 64;
/// Room for the longest buffer that is drawn, twice its right length and more.
const ROOM: usize = 80 << 20;

const NO_ACCESS: i32 = 0;
const READING: i32 = 1;
const READING_AND_WRITING: i32 = 3;
/// MAP_PRIVATE, MAP_ANONYMOUS and MAP_NORESERVE of x86-64 Linux: pages cost nothing until they are touched.
const FRESH_PAGES: i32 = 0x4022;

extern "C" {
    fn mmap(
        at: *mut c_void,
        length: usize,
        access: i32,
        kind: i32,
        file: i32,
        from: i64,
    ) -> *mut c_void;
    fn mprotect(at: *mut c_void, length: usize, access: i32) -> i32;
}

/// Where lent buffers are put.
pub enum Arena {
    /// Between two pages that cannot be touched; this is the first byte after the lower one.
    Pages(*mut u8),
    /// Each buffer is a heap block of its own: for memcheck, which watches the ends of those.
    Heap,
}

impl Arena {
    pub fn pages() -> Arena {
        let length = ROOM + 2 * PAGE;
        // SAFETY: fresh pages that nothing else uses, and protection of two among them.
        unsafe {
            let at = mmap(std::ptr::null_mut(), length, READING_AND_WRITING, FRESH_PAGES, -1, 0);
            assert_ne!(at as isize, -1, "no memory for an arena");
            assert_eq!(mprotect(at, PAGE, NO_ACCESS), 0);
            assert_eq!(mprotect(at.add(PAGE + ROOM), PAGE, NO_ACCESS), 0);
            Arena::Pages(at.cast::<u8>().add(PAGE))
        }
    }

    /// Lends a copy of `contents`; what was lent from this arena before must be done with.
    pub fn lend<T: Copy>(&self, contents: &[T], draws: &mut Draws) -> Lent<T> {
        let bytes = std::mem::size_of_val(contents);
        let lent = match self {
            Arena::Heap => Lent::on_the_heap(contents.len()),
            Arena::Pages(first) => {
                assert!(bytes + 4 * GUARD <= ROOM);
                let (before, after) = guards::<T>(draws);
                let begins = if after == 0 { ROOM - bytes } else { before };
                // SAFETY: begins + bytes is at most ROOM.
                let at = unsafe { first.add(begins) };
                Lent {
                    at: at.cast(),
                    length: contents.len(),
                    before,
                    after,
                    pattern: draws.word(),
                    block: None,
                    is_sealed: false,
                }
            }
        };
        lent.fill(contents);
        lent
    }
}

/// How many guard bytes stand before and after: none on a side that touches a page. The number before is
/// drawn, so that bytes lie at odd addresses; other elements keep their alignment.
fn guards<T>(draws: &mut Draws) -> (usize, usize) {
    let before =
        (GUARD + draws.below(GUARD as u64) as usize).next_multiple_of(std::mem::align_of::<T>());
    match draws.below(8) {
        0 => (0, GUARD),
        1 => (before, 0),
        _ => (before, GUARD),
    }
}

/// A buffer that is lent to one call.
pub struct Lent<T> {
    at: *mut T,
    length: usize,
    before: usize,
    after: usize,
    pattern: u64,
    block: Option<Block>,
    is_sealed: bool,
}

impl<T: Copy> Lent<T> {
    fn on_the_heap(length: usize) -> Lent<T> {
        let block = Block::array::<T>(length).expect("lent buffers are short");
        let at = if length == 0 {
            std::ptr::NonNull::dangling().as_ptr()
        } else {
            // SAFETY: the block is not empty.
            unsafe { alloc(block).cast() }
        };
        let block = (length > 0).then_some(block);
        Lent { at, length, before: 0, after: 0, pattern: 0, block, is_sealed: false }
    }

    fn fill(&self, contents: &[T]) {
        // SAFETY: the arena has room for the guards and the contents, and nothing refers to it.
        unsafe {
            self.at.copy_from_nonoverlapping(contents.as_ptr(), contents.len());
        }
        for i in 0..self.before + self.after {
            // SAFETY: as above.
            unsafe { *self.guard(i) = self.pattern_byte(i) };
        }
    }

    /// Guard byte `i`, those before the buffer first.
    fn guard(&self, i: usize) -> *mut u8 {
        let first = self.at.cast::<u8>();
        let past = i.checked_sub(self.before);
        // SAFETY: inside the arena.
        match past {
            None => unsafe { first.sub(self.before - i) },
            Some(past) => unsafe { first.add(self.length * std::mem::size_of::<T>() + past) },
        }
    }

    fn pattern_byte(&self, i: usize) -> u8 {
        self.pattern.to_le_bytes()[i % 8]
    }

    /// Lets nothing store into the pages that the buffer lies in, until it is given back. Heap blocks share
    /// their pages with others.
    pub fn seal(&mut self) {
        if self.block.is_none() && self.length > 0 {
            self.is_sealed = true;
            self.allow(READING);
        }
    }

    pub fn pointer(&self) -> *mut T {
        self.at
    }

    pub fn len(&self) -> usize {
        self.length
    }

    pub fn is_sealed(&self) -> bool {
        self.is_sealed
    }

    pub fn is_guarded_before(&self) -> bool {
        self.before > 0
    }

    pub fn is_guarded_after(&self) -> bool {
        self.after > 0
    }

    /// The contents now.
    pub fn contents(&self) -> &[T] {
        // SAFETY: filled when lent, and every call has ended.
        unsafe { std::slice::from_raw_parts(self.at, self.length) }
    }

    /// The first guard byte that changed: how far before the buffer, or how far past its end.
    pub fn changed_guard(&self) -> Option<String> {
        let all = self.before + self.after;
        // SAFETY: filled when lent.
        let changed = (0..all).find(|i| unsafe { *self.guard(*i) } != self.pattern_byte(*i))?;
        Some(match changed.checked_sub(self.before) {
            None => format!("{} before its start", self.before - changed),
            Some(past) => format!("{} past its end", past),
        })
    }
}

impl<T> Lent<T> {
    fn allow(&self, access: i32) {
        let first = self.at as usize / PAGE * PAGE;
        let end = self.at as usize + self.length * std::mem::size_of::<T>();
        // SAFETY: pages of the arena, which holds nothing else.
        assert_eq!(unsafe { mprotect(first as *mut c_void, end - first, access) }, 0);
    }
}

impl<T> Drop for Lent<T> {
    fn drop(&mut self) {
        if self.is_sealed {
            self.allow(READING_AND_WRITING);
        }
        if let Some(block) = self.block {
            // SAFETY: allocated as this block in `on_the_heap`.
            unsafe { dealloc(self.at.cast(), block) };
        }
    }
}

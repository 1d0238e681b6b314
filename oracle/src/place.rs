//! Where a unit lies, which unit lies there, where a file byte lies, what an
//! image byte holds, the walk.
//!
//! Document 01: "Group g lies in tile g div C, row j = g mod C. With
//! x = W·j + u: row x div P, column x mod P; frame = L·tile + x div P, target =
//! permutation(column). The inverse turns each step back". "File offset x:
//! group = x div (N·U), unit = (x mod N·U) div U, the rest is the byte."
//! "Frame r of target p begins at p·L·T·U + r·U."

use crate::layout::{Layout, Numbers};
use crate::permutation::{inverse, permutation};

/// A frame of a target, and where it begins in the image.
#[derive(Clone, Copy, Debug, Default, PartialEq, Eq)]
pub struct Place {
    pub frame: u64,
    pub target: u64,
    pub begins: u64,
}

/// A unit of a group: 0..N−1 data, then K parity, then K spares.
#[derive(Clone, Copy, Debug, Default, PartialEq, Eq)]
pub struct Unit {
    pub group: u64,
    pub unit: u64,
}

/// A byte of the file: its group, unit, byte in the unit, and byte of the image
/// with an empty failure list.
#[derive(Clone, Copy, Debug, Default, PartialEq, Eq)]
pub struct FileByte {
    pub group: u64,
    pub unit: u64,
    pub byte: u64,
    pub image: u64,
}

/// A byte of the image: its group, unit and byte in the unit, and the file
/// offset that it holds where the unit is one of the N data units, all with an
/// empty failure list.
#[derive(Clone, Copy, Debug, Default, PartialEq, Eq)]
pub struct ImageByte {
    pub group: u64,
    pub unit: u64,
    pub byte: u64,
    pub offset: Option<u64>,
}

/// Where frame `frame` of target `target` begins in the image, both inside.
pub(crate) fn begins(layout: &Layout, frame: u64, target: u64) -> u64 {
    target * layout.derived().frames * layout.u + frame * layout.u
}

/// The frame and the column of a unit, inside a layout with these numbers.
fn cell(layout: &Layout, numbers: &Numbers, group: u64, unit: u64) -> (u64, usize) {
    let tile = group / numbers.c;
    let x = numbers.w * (group % numbers.c) + unit;
    (numbers.l * tile + x / layout.p, (x % layout.p) as usize)
}

/// The targets of the W units of a group that the layout has.
pub fn unit_targets(layout: &Layout, group: u64) -> Vec<u64> {
    let numbers = layout.derived();
    let columns = permutation(layout, group / numbers.c).1;
    (0..numbers.w)
        .map(|unit| columns[cell(layout, &numbers, group, unit).1])
        .collect()
}

/// Public call: (group, unit) to its place; refusals 1, 4.
pub fn place(layout: &Layout, group: u64, unit: u64) -> (u64, Place) {
    let (refusal, numbers) = layout.numbers();
    if refusal != 0 {
        return (1, Place::default());
    }
    if group >= numbers.groups || unit >= numbers.w {
        return (4, Place::default());
    }
    let (frame, column) = cell(layout, &numbers, group, unit);
    let target = permutation(layout, group / numbers.c).1[column];
    let begins = begins(layout, frame, target);
    (
        0,
        Place {
            frame,
            target,
            begins,
        },
    )
}

/// Public call: (frame, target) to the unit that lies there; refusals 1, 4.
pub fn unit_at(layout: &Layout, frame: u64, target: u64) -> (u64, Unit) {
    let (refusal, numbers) = layout.numbers();
    if refusal != 0 {
        return (1, Unit::default());
    }
    if frame >= numbers.frames || target >= layout.p {
        return (4, Unit::default());
    }
    let tile = frame / numbers.l;
    let column = inverse(layout, tile).1[target as usize];
    let x = (frame % numbers.l) * layout.p + column;
    let unit = Unit {
        group: numbers.c * tile + x / numbers.w,
        unit: x % numbers.w,
    };
    (0, unit)
}

/// Public call: a file offset to its byte; refusals 1, 4 ("A single offset to
/// be mapped must be below capacity").
pub fn file_byte(layout: &Layout, offset: u64) -> (u64, FileByte) {
    let (refusal, numbers) = layout.numbers();
    if refusal != 0 {
        return (1, FileByte::default());
    }
    if offset >= numbers.capacity {
        return (4, FileByte::default());
    }
    let in_group = offset % (layout.n * layout.u);
    let (group, unit) = (offset / (layout.n * layout.u), in_group / layout.u);
    let byte = in_group % layout.u;
    let image = place(layout, group, unit).1.begins + byte;
    (
        0,
        FileByte {
            group,
            unit,
            byte,
            image,
        },
    )
}

/// Public call: an image byte to what it holds ("the maps from file offset to
/// place and back"); refusals 1, 4.
///
/// Targets lie one after the other, L·T·U bytes each, and the frames of a
/// target one after the other, U bytes each. Parity and spares are no part of
/// the file, so only a data unit's byte has an offset.
pub fn image_byte(layout: &Layout, image: u64) -> (u64, ImageByte) {
    let (refusal, numbers) = layout.numbers();
    if refusal != 0 {
        return (1, ImageByte::default());
    }
    if image >= numbers.image {
        return (4, ImageByte::default());
    }
    let of_a_target = numbers.frames * layout.u;
    let (target, in_target) = (image / of_a_target, image % of_a_target);
    let (frame, byte) = (in_target / layout.u, in_target % layout.u);
    let (_, Unit { group, unit }) = unit_at(layout, frame, target);
    let offset = (unit < layout.n).then(|| (group * layout.n + unit) * layout.u + byte);
    (
        0,
        ImageByte {
            group,
            unit,
            byte,
            offset,
        },
    )
}

/// The cursor of a walk over one target.
#[derive(Clone, Copy, Debug, PartialEq, Eq)]
pub struct Cursor {
    pub target: u64,
    pub frame: u64,
}

/// The answer of one step of a walk.
#[derive(Clone, Copy, Debug, PartialEq, Eq)]
pub enum Step {
    /// The unit that lies at the cursor, and the cursor of the next frame.
    At(Unit, Cursor),
    /// The walk is over; the cursor unchanged.
    Done(Cursor),
    /// Refused with this number; the cursor unchanged.
    Refused(u64, Cursor),
}

/// Public call: "At frame L·T it says done; a cursor beyond that is 4. Done or
/// refused, the cursor comes back unchanged."
pub fn step(layout: &Layout, cursor: Cursor) -> Step {
    let (refusal, numbers) = layout.numbers();
    if refusal != 0 {
        return Step::Refused(1, cursor);
    }
    if cursor.target >= layout.p || cursor.frame > numbers.frames {
        return Step::Refused(4, cursor);
    }
    if cursor.frame == numbers.frames {
        return Step::Done(cursor);
    }
    let (_, unit) = unit_at(layout, cursor.frame, cursor.target);
    let next = Cursor {
        frame: cursor.frame + 1,
        ..cursor
    };
    Step::At(unit, next)
}

#[cfg(test)]
mod tests {
    use super::*;
    use crate::layout::layout;

    #[test]
    fn the_two_maps_undo_each_other() {
        for shape in [
            layout(4, 2, 20, 3, 3, 9),
            layout(4, 2, 20, 3, 3, 9).in_edition(2),
            layout(3, 1, 7, 1, 2, u64::MAX).in_edition(2),
            layout(16, 3, 22, 1, 2, 5),
        ] {
            let numbers = shape.derived();
            for group in 0..numbers.groups {
                for unit in 0..numbers.w {
                    let (refusal, at) = place(&shape, group, unit);
                    assert_eq!(refusal, 0);
                    assert_eq!(
                        unit_at(&shape, at.frame, at.target),
                        (0, Unit { group, unit })
                    );
                }
            }
        }
    }

    /// Whole pools: with and without parity, U from 1, several tiles, groups
    /// that cross rows, P a multiple of W and not.
    fn small_pools() -> [Layout; 7] {
        [
            layout(1, 0, 1, 1, 1, 0),
            layout(1, 1, 4, 4, 1, 0),
            layout(1, 1, 4, 4, 1, 0).in_edition(2),
            layout(4, 2, 20, 3, 3, 9).in_edition(2),
            layout(3, 1, 7, 1, 2, u64::MAX),
            layout(2, 3, 9, 5, 4, 1 << 63).in_edition(2),
            layout(16, 3, 22, 2, 2, 5),
        ]
    }

    #[test]
    fn every_file_byte_leads_to_the_image_and_back() {
        for shape in small_pools() {
            for offset in 0..shape.derived().capacity {
                let (refusal, there) = file_byte(&shape, offset);
                assert_eq!(refusal, 0);
                let back = ImageByte {
                    group: there.group,
                    unit: there.unit,
                    byte: there.byte,
                    offset: Some(offset),
                };
                assert_eq!(image_byte(&shape, there.image), (0, back));
            }
        }
    }

    #[test]
    fn every_image_byte_is_one_byte_of_one_unit() {
        for shape in small_pools() {
            let numbers = shape.derived();
            let mut held = Vec::new();
            let mut data = 0;
            for x in 0..numbers.image {
                let (refusal, at) = image_byte(&shape, x);
                assert_eq!(refusal, 0);
                assert_eq!(place(&shape, at.group, at.unit).1.begins + at.byte, x);
                assert_eq!(at.offset.is_some(), at.unit < shape.n);
                if let Some(offset) = at.offset {
                    data += 1;
                    assert_eq!(file_byte(&shape, offset).1.image, x);
                }
                held.push((at.group, at.unit, at.byte));
            }
            held.sort_unstable();
            let all = (0..numbers.groups).flat_map(|group| {
                let bytes_of = move |unit| (0..shape.u).map(move |byte| (group, unit, byte));
                (0..numbers.w).flat_map(bytes_of)
            });
            assert!(held.into_iter().eq(all));
            assert_eq!(data, numbers.capacity);
        }
    }

    #[test]
    fn what_is_no_image_byte_holds_nothing() {
        let none = ImageByte::default();
        for shape in small_pools() {
            let length = shape.derived().image;
            assert_eq!(image_byte(&shape, length - 1).0, 0);
            for x in [length, length + 1, u64::MAX] {
                assert_eq!(image_byte(&shape, x), (4, none));
            }
            for x in [0, length, u64::MAX] {
                assert_eq!(image_byte(&Layout { u: 0, ..shape }, x), (1, none));
            }
        }
    }

    #[test]
    fn a_tile_gives_every_target_l_units_on_different_targets() {
        for edition in [1, 2] {
            gives_every_target_l_units(&layout(4, 2, 20, 1, 1, 77).in_edition(edition));
        }
    }

    fn gives_every_target_l_units(shape: &Layout) {
        let numbers = shape.derived();
        let mut seen = [0; 20];
        for group in 0..numbers.groups {
            let mut targets: Vec<u64> = (0..numbers.w)
                .map(|unit| place(shape, group, unit).1.target)
                .collect();
            targets.iter().for_each(|t| seen[*t as usize] += 1);
            targets.sort_unstable();
            targets.dedup();
            assert_eq!(targets.len() as u64, numbers.w);
        }
        assert!(seen.iter().all(|count| *count == numbers.l));
    }
}

//! One hex line for a frame.
//!
//! Document 01: "Target as 2 hex digits, space, frame as 6, space, the unit's
//! bytes as 2U, newline; lower case; 11+2U bytes."

use crate::layout::Layout;
use crate::place::begins;

/// The line of a frame that holds `unit`.
pub fn line_of(target: u64, frame: u64, unit: &[u8]) -> String {
    let digits: String = unit.iter().map(|byte| format!("{byte:02x}")).collect();
    format!("{target:02x} {frame:06x} {digits}\n")
}

fn hex_refusal(layout: &Layout, image: &[u8], target: u64, frame: u64, line: &[u8]) -> u64 {
    let (refusal, numbers) = layout.numbers();
    if refusal != 0 {
        1
    } else if image.len() as u64 != numbers.image {
        2
    } else if target >= layout.p || frame >= numbers.frames {
        4
    } else if line.len() as u64 != 11 + 2 * layout.u {
        5
    } else {
        0
    }
}

/// Public call: writes the line of a frame; refusals 1, 2, 4, 5, and then the
/// whole line is zeros.
pub fn hex_line(layout: &Layout, image: &[u8], target: u64, frame: u64, line: &mut [u8]) -> u64 {
    let refusal = hex_refusal(layout, image, target, frame, line);
    if refusal != 0 {
        line.fill(0);
        return refusal;
    }
    let at = begins(layout, frame, target) as usize;
    let unit = &image[at..at + layout.u as usize];
    line.copy_from_slice(line_of(target, frame, unit).as_bytes());
    0
}

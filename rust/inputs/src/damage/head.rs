//! Faults of the length and of slot 0.

use super::nonzero_byte;
use crate::fields::{read2, write, SLOT};
use crate::layout::Layout;
use crate::random::Random;

/// Bytes lost or added, down to none and up beyond 65,536.
pub fn length(random: &mut Random, layout: &mut Layout) -> bool {
    let length = layout.file.len();
    let new = match random.below(8) {
        0 => 0,
        1 => random.below(SLOT),
        2 | 3 => length.saturating_sub(random.below(SLOT)),
        4 if random.once_in(8) => 65_536 + SLOT * random.below(3) + random.below(2),
        _ => length + 1 + random.below(SLOT),
    };
    layout.file.resize(new, 0);
    true
}

pub fn has_head(layout: &Layout) -> bool {
    layout.file.len() >= SLOT
}

pub fn format(random: &mut Random, layout: &mut Layout) -> bool {
    if has_head(layout) {
        let number = random.pick(&[0, 2, 3, 255, 256, 257, 65_535]);
        write(&mut layout.file, 0, 2, number);
    }
    has_head(layout)
}

/// A wrong count, or a right one and slots lost or added.
pub fn count(random: &mut Random, layout: &mut Layout) -> bool {
    if !has_head(layout) {
        return false;
    }
    let count = u32::from(read2(&layout.file, 2));
    let length = layout.file.len();
    match random.below(4) {
        0 => write(&mut layout.file, 2, 2, count + 1),
        1 => write(&mut layout.file, 2, 2, count.saturating_sub(1)),
        2 => layout.file.resize(length + SLOT, 0),
        _ => write(&mut layout.file, 2, 2, random.within(0, 65_535)),
    }
    true
}

/// A byte of the first locomotive slot's number, or one behind it that must be zero.
pub fn head_rest(random: &mut Random, layout: &mut Layout) -> bool {
    if has_head(layout) {
        let at = match random.below(4) {
            0 => 32 + random.below(2),
            1 => random.pick(&[34, 35, 63]),
            _ => 34 + random.below(30),
        };
        layout.file[at] = nonzero_byte(random);
    }
    has_head(layout)
}

pub fn temperature(random: &mut Random, layout: &mut Layout) -> bool {
    if has_head(layout) {
        let value: i16 = random.pick(&[601, -601, 602, 1_000, -1_000, i16::MIN, i16::MAX]);
        let at = 8 + 2 * random.below(12);
        layout.file[at..at + 2].copy_from_slice(&value.to_le_bytes());
    }
    has_head(layout)
}

//! Faults within slots, and slots that are too many or in another's place.

use super::{any_slot, nonzero_byte, whole};
use crate::fields::{
    fields, read2, unnamed, write, GROUP, K6, LEAVING, SHARES, SLOT, STANDING, TIMED, VEHICLES,
};
use crate::layout::Layout;
use crate::random::Random;

pub fn kind(random: &mut Random, layout: &mut Layout) -> bool {
    let Some(slot) = any_slot(random, layout) else {
        return false;
    };
    layout.slot(slot)[2] = random.pick(&[0, 1, 2, 3, 4, 5, 6, 7, 255]);
    true
}

/// One field past an end of its range, most often by one.
pub fn past_range(random: &mut Random, layout: &mut Layout) -> bool {
    let Some(place) = any_slot(random, layout) else {
        return false;
    };
    let slot = layout.slot(place);
    let kind = slot[2];
    if fields(kind).is_empty() {
        return false;
    }
    let field = random.pick(fields(kind));
    if kind == STANDING && field.at == K6.at && random.once_in(2) {
        write(slot, K6.at, K6.width, random.within(1, 99));
    } else if kind == GROUP && field.at == VEHICLES.at && random.once_in(2) {
        let vehicles = u32::from(read2(slot, VEHICLES.at));
        write(slot, LEAVING, 2, vehicles + random.within(1, 2));
    } else if field.low > 0 && random.once_in(2) {
        write(slot, field.at, field.width, field.low - 1);
    } else {
        let past = past_high(random, field.high, field.width);
        write(slot, field.at, field.width, past);
    }
    true
}

/// A value above `high`, if the field has room for it.
fn past_high(random: &mut Random, high: u32, width: usize) -> u32 {
    let most = u32::MAX >> (32 - 8 * width);
    match random.below(4) {
        0 => most,
        1 => random.within(high, most),
        _ => most.min(high.saturating_add(1)),
    }
}

/// A timed warm-up past its range.
pub fn timed(random: &mut Random, layout: &mut Layout) -> bool {
    let groups = whole(layout, &layout.groups);
    if groups.is_empty() {
        return false;
    }
    let past = random.within(TIMED.high + 1, 255);
    let slot = layout.slot(random.pick(&groups));
    write(slot, TIMED.at, TIMED.width, past);
    true
}

pub fn unnamed_byte(random: &mut Random, layout: &mut Layout) -> bool {
    let Some(place) = any_slot(random, layout) else {
        return false;
    };
    let slot = layout.slot(place);
    let bytes: Vec<usize> = unnamed(slot[2]).collect();
    // those between fields, and next to the last one, more often
    let most = if random.once_in(2) { 6 } else { bytes.len() };
    let at = random.pick(&bytes[..most]);
    slot[at] = nonzero_byte(random);
    true
}

/// A pollutant out of turn, or two of them exchanged.
pub fn pollutant(random: &mut Random, layout: &mut Layout) -> bool {
    let slots = whole(layout, &layout.coefficients);
    if slots.is_empty() {
        return false;
    }
    let one = usize::from(random.pick(&slots)) * SLOT + 3;
    if random.once_in(2) {
        let other = usize::from(random.pick(&slots)) * SLOT + 3;
        layout.file.swap(one, other);
    } else {
        layout.file[one] = random.pick(&[0, 1, 2, 3, 4, 5, 6, 7, 255]);
    }
    true
}

/// A group's fuel exchanged, or a number of a soot or lead slot that is not zero.
pub fn soot_or_lead(random: &mut Random, layout: &mut Layout) -> bool {
    if random.once_in(2) {
        let groups = whole(layout, &layout.groups);
        if groups.is_empty() {
            return false;
        }
        let slot = layout.slot(random.pick(&groups));
        slot[4] = 3 - slot[4].min(3);
        return true;
    }
    let mut slots = whole(layout, &layout.coefficients);
    slots.retain(|&place| [4, 6].contains(&layout.slot(place)[3]));
    if slots.is_empty() {
        return false;
    }
    let at = 4 + 4 * random.below(7);
    let value = random.pick(&[1, 255, 256, 65_536, 1_000_000]);
    write(layout.slot(random.pick(&slots)), at, 4, value);
    true
}

/// Shares of a locomotive that are each in range and no longer total 1,000.
pub fn shares(random: &mut Random, layout: &mut Layout) -> bool {
    let slots = whole(layout, &layout.locomotives);
    if slots.is_empty() {
        return false;
    }
    let slot = layout.slot(random.pick(&slots));
    if random.once_in(4) {
        let same = random.pick(&[0, 199, 201, 1_000]);
        for field in SHARES {
            write(slot, field.at, field.width, same);
        }
        return true;
    }
    let field = random.pick(&SHARES);
    let share = u32::from(read2(slot, field.at));
    let other = match random.below(3) {
        0 if share < field.high => share + 1,
        1 if share > field.low => share - 1,
        _ => random.within(field.low, field.high),
    };
    write(slot, field.at, field.width, other);
    true
}

/// A slot in no chain: of zeros, or like another.
pub fn spare_slot(random: &mut Random, layout: &mut Layout) -> bool {
    let count = layout.file.len() / SLOT;
    if count == 0 || count >= 1_024 {
        return false;
    }
    layout.file.truncate(count * SLOT);
    let like = random.below(count);
    if like == 0 {
        layout.file.resize((count + 1) * SLOT, 0);
    } else {
        layout
            .file
            .extend_from_within(like * SLOT..(like + 1) * SLOT);
    }
    layout.write_count();
    true
}

pub fn any_byte(random: &mut Random, layout: &mut Layout) -> bool {
    if layout.file.is_empty() {
        return false;
    }
    let at = random.below(layout.file.len());
    if random.once_in(2) {
        layout.file[at] ^= 1 << random.below(8);
    } else {
        layout.file[at] = random.below(256) as u8;
    }
    true
}

/// Two slots exchanged without their links.
pub fn swapped_slots(random: &mut Random, layout: &mut Layout) -> bool {
    let (Some(one), Some(other)) = (any_slot(random, layout), any_slot(random, layout)) else {
        return false;
    };
    let other_bytes: Vec<u8> = layout.slot(other).to_vec();
    let one_bytes: Vec<u8> = layout.slot(one).to_vec();
    layout.slot(one).copy_from_slice(&other_bytes);
    layout.slot(other).copy_from_slice(&one_bytes);
    true
}

//! Faults put into a file that was sound.

mod head;
mod links;
mod slots;

use crate::fields::SLOT;
use crate::layout::Layout;
use crate::random::Random;

/// A way to damage a file: false where the file has no place for it.
type Damage = fn(&mut Random, &mut Layout) -> bool;

/// Each entry is as likely as another; those that a file rarely has a place for stand more than once.
const DAMAGES: [Damage; 27] = [
    head::length,
    head::format,
    head::count,
    head::head_rest,
    head::temperature,
    links::far_link,
    links::far_link,
    links::loop_back,
    links::loop_back,
    links::wrong_link,
    links::coefficient_end,
    links::coefficient_end,
    links::cut_chain,
    slots::kind,
    slots::past_range,
    slots::past_range,
    slots::past_range,
    slots::timed,
    slots::unnamed_byte,
    slots::pollutant,
    slots::soot_or_lead,
    slots::soot_or_lead,
    slots::shares,
    slots::shares,
    slots::spare_slot,
    slots::any_byte,
    slots::swapped_slots,
];

/// Damages the file in one way.
pub fn damage(random: &mut Random, layout: &mut Layout) {
    while !random.pick(&DAMAGES)(random, layout) {}
}

fn nonzero_byte(random: &mut Random) -> u8 {
    match random.below(3) {
        0 => 1,
        1 => 1 << random.below(8),
        _ => 1 + random.below(255) as u8,
    }
}

/// Those of the slots that are still in the file.
fn whole(layout: &Layout, slots: &[u16]) -> Vec<u16> {
    let count = layout.file.len() / SLOT;
    let there = |&&slot: &&u16| usize::from(slot) < count;
    slots.iter().filter(there).copied().collect()
}

/// Any slot that holds a source or coefficients, each kind alike.
fn any_slot(random: &mut Random, layout: &Layout) -> Option<u16> {
    let slots = match random.below(4) {
        0 => whole(layout, &layout.groups),
        1 => whole(layout, &layout.coefficients),
        2 => whole(layout, &layout.stores),
        _ => whole(layout, &layout.locomotives),
    };
    (!slots.is_empty()).then(|| random.pick(&slots))
}

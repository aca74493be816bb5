//! Faults of links: those that lead too far, back, to another chain, or nowhere.

use super::head::has_head;
use super::{any_slot, whole};
use crate::fields::{read2, write, SLOT};
use crate::layout::{Layout, HEADS};
use crate::random::Random;

/// A link of any kind: where in the file it stands.
fn any_link(random: &mut Random, layout: &Layout) -> Option<usize> {
    let chain = random.below(HEADS.len());
    let (slots, at) = match random.below(8) {
        0..=2 => (vec![0], HEADS[chain]),
        3 => (whole(layout, &layout.groups), 34),
        4 => (whole(layout, &layout.coefficients), 0),
        _ => (whole(layout, layout.chains()[chain]), 0),
    };
    if slots.is_empty() || !has_head(layout) {
        return None;
    }
    Some(usize::from(random.pick(&slots)) * SLOT + at)
}

pub fn far_link(random: &mut Random, layout: &mut Layout) -> bool {
    let Some(at) = any_link(random, layout) else {
        return false;
    };
    let count = (layout.file.len() / SLOT) as u32;
    let far = match random.below(5) {
        0 | 1 => count,
        2 => count + 1,
        // past any file by one bit
        3 => u32::from(read2(&layout.file, at)) | 1 << (10 + random.below(6)),
        _ => random.within(count, 65_535),
    };
    write(&mut layout.file, at, 2, far);
    true
}

/// The end of a chain led to a source that was walked, of the same chain or of one before it; a
/// chain without sources is led there from slot 0.
pub fn loop_back(random: &mut Random, layout: &mut Layout) -> bool {
    let from = random.below(HEADS.len());
    let to = random.below(from + 1);
    let [sources, targets] = [from, to].map(|chain| whole(layout, layout.chains()[chain]));
    if targets.is_empty() {
        return false;
    }
    let at = match sources.last() {
        Some(&last) => usize::from(last) * SLOT,
        None => HEADS[from],
    };
    let target = random.pick(&targets);
    write(&mut layout.file, at, 2, u32::from(target));
    true
}

/// A link to any slot of the file, of whatever kind.
pub fn wrong_link(random: &mut Random, layout: &mut Layout) -> bool {
    let (Some(at), Some(to)) = (any_link(random, layout), any_slot(random, layout)) else {
        return false;
    };
    write(&mut layout.file, at, 2, u32::from(to));
    true
}

/// A coefficient chain that ends too early or runs on.
pub fn coefficient_end(random: &mut Random, layout: &mut Layout) -> bool {
    let (slots, at) = if random.once_in(4) {
        (whole(layout, &layout.groups), 34)
    } else {
        (whole(layout, &layout.coefficients), 0)
    };
    if slots.is_empty() {
        return false;
    }
    let count = layout.file.len() / SLOT;
    let slot = layout.slot(random.pick(&slots));
    let link = match read2(slot, at) {
        0 => random.pick(&[1, count - 1, count, 65_535]) as u32,
        _ => 0,
    };
    write(slot, at, 2, link);
    true
}

/// A chain cut off: its further slots are not reached.
pub fn cut_chain(random: &mut Random, layout: &mut Layout) -> bool {
    let Some(at) = any_link(random, layout) else {
        return false;
    };
    write(&mut layout.file, at, 2, 0);
    true
}

//! Sound files of a wanted size, alike in make-up, to measure with.

use crate::fields::{
    write, Slot, Style, ASPIRATION, COEFFICIENTS, GROUP, HANDLING, LEAVING, SLOT, STANDING,
    VEHICLES,
};
use crate::layout::lay_out_rows_once;
use crate::locomotives::locomotive;
use crate::random::Random;
use crate::sources::{drawn, time, zero_for, Group, Inventory, Rows};

/// How many sources a plant has, and how many sets of coefficients its groups have between them:
/// one at least where there are groups, and at most as many as groups.
#[derive(Clone, Copy, Debug)]
pub struct Size {
    pub groups: usize,
    pub sets: usize,
    pub stores: usize,
    pub locomotives: usize,
}

impl Size {
    /// Slots of the file: each set has six.
    pub fn slots(&self) -> usize {
        1 + self.groups + 6 * self.sets + self.stores + self.locomotives
    }
}

/// Monthly means with all three periods, in tenths of a degree.
const YEAR: [i16; 12] = [-78, -76, -32, 31, 98, 150, 178, 160, 109, 49, -3, -50];

/// The file of a plant, its slots in any order; it depends on seed and size alone.
pub fn plant(seed: u64, size: Size) -> Vec<u8> {
    let mut random = Random::new(seed, size.slots() as u64);
    let mut inventory = Inventory {
        temperatures: year(),
        groups: Vec::new(),
        rows: Vec::new(),
        stores: Vec::new(),
        locomotives: Vec::new(),
    };
    for index in 0..size.groups {
        add_group(&mut random, &mut inventory, index, size.sets);
    }
    // numbers of their own, so that all else in the file is the same whatever is timed
    let mut timing = Random::new(!seed, size.slots() as u64);
    for group in &mut inventory.groups {
        time(&mut timing, &mut group.slot, Style::Mixed);
    }
    for index in 0..size.stores {
        let kind = [HANDLING, STANDING, ASPIRATION][index % 3];
        let slot = drawn(&mut random, kind, Style::Mixed);
        inventory.stores.push(slot);
    }
    for _ in 0..size.locomotives {
        let slot = locomotive(&mut random, Style::Mixed);
        inventory.locomotives.push(slot);
    }
    lay_out_rows_once(&mut random, &inventory).file
}

fn year() -> [u8; 24] {
    let mut bytes = [0; 24];
    for (month, value) in bytes.chunks_exact_mut(2).zip(YEAR) {
        month.copy_from_slice(&value.to_le_bytes());
    }
    bytes
}

/// The first groups bring a set of coefficients each; the others share one of them, and its fuel.
fn add_group(random: &mut Random, inventory: &mut Inventory, index: usize, sets: usize) {
    let mut slot = group(random);
    let rows = if index < sets {
        inventory.rows.push(set(random, u32::from(slot[4])));
        index
    } else {
        random.below(sets)
    };
    if let Some(first) = inventory.groups.get(rows) {
        slot[4] = first.slot[4];
    }
    inventory.groups.push(Group { slot, rows });
}

fn group(random: &mut Random) -> Slot {
    let mut slot = drawn(random, GROUP, Style::Mixed);
    let vehicles = u32::from_le_bytes([slot[VEHICLES.at], slot[VEHICLES.at + 1], 0, 0]);
    let leaving = random.within(0, vehicles);
    write(&mut slot, LEAVING, 2, leaving);
    slot
}

fn set(random: &mut Random, fuel: u32) -> Rows {
    std::array::from_fn(|pollutant| {
        let mut row = drawn(random, COEFFICIENTS, Style::Mixed);
        if pollutant == zero_for(fuel) {
            row = [0; SLOT];
        }
        row[2] = COEFFICIENTS;
        row[3] = pollutant as u8 + 1;
        row
    })
}

#[cfg(test)]
mod tests {
    use super::*;
    use crate::fields::{read2, LOCOMOTIVE};

    const SIZE: Size = Size {
        groups: 9,
        sets: 5,
        stores: 21,
        locomotives: 3,
    };

    #[test]
    fn a_plant_has_its_size() {
        let file = plant(1, SIZE);
        assert_eq!(SIZE.slots(), 64);
        assert_eq!(file.len(), 64 * SLOT);
        assert_eq!(read2(&file, 2), 64);
        let count = |kind| file.chunks(SLOT).skip(1).filter(|s| s[2] == kind).count();
        let kinds = [
            GROUP,
            COEFFICIENTS,
            HANDLING,
            STANDING,
            ASPIRATION,
            LOCOMOTIVE,
        ];
        assert_eq!(kinds.map(count), [9, 30, 7, 7, 7, 3]);
    }

    #[test]
    fn a_plant_depends_on_seed_and_size_alone() {
        assert!(plant(1, SIZE) == plant(1, SIZE));
        assert!(plant(1, SIZE) != plant(2, SIZE));
    }
}

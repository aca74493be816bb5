//! Sound sources: what a surveyor may have found, before it has a place in a file.

use crate::fields::{
    fields, write, Slot, Style, ASPIRATION, COEFFICIENTS, GROUP, HANDLING, K6, LEAVING, SLOT,
    STANDING, TIMED, VEHICLES,
};
use crate::locomotives::locomotive;
use crate::random::Random;

/// The coefficient slots of the six pollutants, without links.
pub type Rows = [Slot; 6];

/// A group without links, and which of the inventory's rows it has.
#[derive(Clone, Copy)]
pub struct Group {
    pub slot: Slot,
    pub rows: usize,
}

/// All that a file says, whatever the places of its slots.
pub struct Inventory {
    /// Bytes 8..31 of slot 0.
    pub temperatures: [u8; 24],
    pub groups: Vec<Group>,
    pub rows: Vec<Rows>,
    pub stores: Vec<Slot>,
    pub locomotives: Vec<Slot>,
}

pub const MOST_SLOTS: usize = 1_024;

const PETROL: u32 = 1;
const SOOT: usize = 3;
const LEAD: usize = 5;

impl Inventory {
    /// Most have few sources; now and then one has some hundreds, or fills the file.
    pub fn draw(random: &mut Random) -> Inventory {
        match random.below(1_024) {
            0 => full(random),
            1..=8 => {
                let groups = random.below(60);
                let stores = random.below(200);
                let locomotives = random.below(100);
                some(random, groups, stores, locomotives)
            }
            _ => {
                let groups = few(random, 8);
                let stores = few(random, 20);
                let locomotives = few(random, 8);
                some(random, groups, stores, locomotives)
            }
        }
    }

    pub fn least_slots(&self) -> usize {
        1 + self.groups.len() + self.stores.len() + self.locomotives.len() + 6 * self.rows.len()
    }
}

/// From 0 to `most`, none and one more often.
fn few(random: &mut Random, most: usize) -> usize {
    match random.below(5) {
        0 => 0,
        1 => 1,
        2 => random.below(4),
        _ => random.below(most + 1),
    }
}

fn draw_style(random: &mut Random) -> Style {
    match random.below(8) {
        0..=3 => Style::Mixed,
        4..=5 => Style::Round,
        6 => Style::Small,
        _ => Style::Largest,
    }
}

fn some(random: &mut Random, groups: usize, stores: usize, locomotives: usize) -> Inventory {
    let style = draw_style(random);
    let mut inventory = Inventory {
        temperatures: temperatures(random),
        groups: Vec::new(),
        rows: Vec::new(),
        stores: Vec::new(),
        locomotives: Vec::new(),
    };
    for _ in 0..groups {
        add_group(random, &mut inventory, style);
    }
    for _ in 0..stores {
        add_store(random, &mut inventory, style);
    }
    for _ in 0..locomotives {
        add_locomotive(random, &mut inventory, style);
    }
    inventory
}

/// 1,024 slots: some sources, of at most 1,016, and then more that are equal to one of them.
fn full(random: &mut Random) -> Inventory {
    let style = if random.once_in(4) {
        Style::Mixed
    } else {
        Style::Largest
    };
    let mut inventory = some(random, 0, 0, 0);
    for _ in 0..random.below(3) * random.below(50) {
        add_group(random, &mut inventory, style);
    }
    for _ in 0..1 + random.below(2) * random.below(300) {
        add_store(random, &mut inventory, style);
    }
    for _ in 0..random.below(2) * random.below(30) {
        add_locomotive(random, &mut inventory, style);
    }
    fill(random, &mut inventory);
    inventory
}

/// Sources of one chain again, until the file has no slot left.
fn fill(random: &mut Random, inventory: &mut Inventory) {
    let chain = random.below(3);
    while inventory.least_slots() < MOST_SLOTS {
        if chain == 0 && !inventory.groups.is_empty() {
            repeat(random, &mut inventory.groups);
        } else if chain == 1 && !inventory.locomotives.is_empty() {
            repeat(random, &mut inventory.locomotives);
        } else {
            repeat(random, &mut inventory.stores);
        }
    }
}

/// One of them again; there is at least one.
fn repeat<T: Copy>(random: &mut Random, sources: &mut Vec<T>) {
    let again = random.pick(sources);
    sources.push(again);
}

/// Whether the next source is equal to an earlier one.
fn repeated<T: Copy>(random: &mut Random, sources: &mut Vec<T>) -> bool {
    let again = !sources.is_empty() && random.once_in(12);
    if again {
        repeat(random, sources);
    }
    again
}

/// Months around a band edge, at an end of the range, or anywhere.
fn temperatures(random: &mut Random) -> [u8; 24] {
    let same = random.once_in(4);
    let mut bytes = [0; 24];
    let mut value = temperature(random);
    for month in bytes.chunks_exact_mut(2) {
        if !same {
            value = temperature(random);
        }
        month.copy_from_slice(&value.to_le_bytes());
    }
    bytes
}

const BAND_EDGES: [i16; 6] = [50, -50, -100, -150, -200, -250];

fn temperature(random: &mut Random) -> i16 {
    match random.below(8) {
        0 => random.pick(&[-600, -599, 599, 600]),
        1..=4 => random.pick(&BAND_EDGES) + random.pick(&[-1, 0, 1]),
        5 => random.within(0, 600) as i16 - 300,
        _ => random.within(0, 1_200) as i16 - 600,
    }
}

/// A slot of the kind with its fields drawn, without links, pollutant, N' and a timed warm-up, and
/// with shares of any total.
pub fn drawn(random: &mut Random, kind: u8, style: Style) -> Slot {
    let mut slot = [0; SLOT];
    slot[2] = kind;
    for field in fields(kind) {
        write(&mut slot, field.at, field.width, field.draw(random, style));
    }
    slot
}

fn add_store(random: &mut Random, inventory: &mut Inventory, style: Style) {
    if repeated(random, &mut inventory.stores) {
        return;
    }
    let kind = random.pick(&[HANDLING, STANDING, ASPIRATION]);
    let mut slot = drawn(random, kind, style);
    if kind == STANDING && random.once_in(4) {
        write(&mut slot, K6.at, K6.width, 0);
    }
    inventory.stores.push(slot);
}

fn add_locomotive(random: &mut Random, inventory: &mut Inventory, style: Style) {
    if !repeated(random, &mut inventory.locomotives) {
        let slot = locomotive(random, style);
        inventory.locomotives.push(slot);
    }
}

fn add_group(random: &mut Random, inventory: &mut Inventory, style: Style) {
    if repeated(random, &mut inventory.groups) {
        return;
    }
    let mut slot = drawn(random, GROUP, style);
    let vehicles = u32::from(slot[VEHICLES.at]) + 256 * u32::from(slot[VEHICLES.at + 1]);
    let leaving = match random.below(6) {
        0 => 0,
        1 => vehicles - 1,
        2 | 3 => vehicles,
        _ => random.within(0, vehicles),
    };
    write(&mut slot, LEAVING, 2, leaving);
    time(random, &mut slot, style);
    let rows = rows_for(random, inventory, style, u32::from(slot[4]));
    inventory.groups.push(Group { slot, rows });
}

/// Gives half of the groups a timed warm-up.
pub fn time(random: &mut Random, group: &mut Slot, style: Style) {
    if random.once_in(2) {
        let tenths = TIMED.draw(random, style);
        write(group, TIMED.at, TIMED.width, tenths);
    }
}

/// The pollutant that is zero throughout for this fuel.
pub fn zero_for(fuel: u32) -> usize {
    if fuel == PETROL {
        SOOT
    } else {
        LEAD
    }
}

/// Rows that the fuel allows: those of an earlier group, or new ones that may end like them.
fn rows_for(random: &mut Random, inventory: &mut Inventory, style: Style, fuel: u32) -> usize {
    let zero = zero_for(fuel);
    let mut tail = 6;
    let mut rows = [[0; SLOT]; 6];
    if !inventory.rows.is_empty() && !random.once_in(3) {
        let earlier = random.below(inventory.rows.len());
        rows = inventory.rows[earlier];
        let allowed = rows[zero][4..] == [0; SLOT - 4];
        match random.below(3) {
            0 | 1 if allowed => return earlier,
            _ => tail = 1 + random.below(5),
        }
    }
    for (pollutant, row) in rows.iter_mut().enumerate() {
        if pollutant < tail {
            *row = new_row(random, style);
        }
        if pollutant == zero {
            *row = [0; SLOT];
        }
        row[2] = COEFFICIENTS;
        row[3] = pollutant as u8 + 1;
    }
    inventory.rows.push(rows);
    inventory.rows.len() - 1
}

/// A row with each number drawn, with one number that is not zero, or with none.
fn new_row(random: &mut Random, style: Style) -> Slot {
    let row = drawn(random, COEFFICIENTS, style);
    match random.below(6) {
        0 => [0; SLOT],
        1 => {
            let field = random.pick(fields(COEFFICIENTS));
            let mut one = [0; SLOT];
            let bytes = field.at..field.at + field.width;
            one[bytes.clone()].copy_from_slice(&row[bytes]);
            one
        }
        _ => row,
    }
}

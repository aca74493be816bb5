//! Laying an inventory out in a file: places of slots, order of chains, shared coefficient slots.

use crate::fields::{write, Slot, SLOT};
use crate::random::Random;
use crate::sources::{Inventory, MOST_SLOTS};

/// A file, and which slots of it are what.
pub struct Layout {
    pub file: Vec<u8>,
    pub groups: Vec<u16>,
    pub coefficients: Vec<u16>,
    pub stores: Vec<u16>,
    pub locomotives: Vec<u16>,
}

/// A coefficient slot on the way to a file: its row, and the next one's place in the list.
struct Node {
    row: Slot,
    next: Option<usize>,
}

/// The coefficient slots of a file, and where each chain starts: one for each group.
struct Chains {
    nodes: Vec<Node>,
    starts: Vec<usize>,
}

/// The order of the three chains, and the places of all slots but slot 0: those of the groups, of
/// the store records, of the locomotives, of the coefficients.
struct Order {
    groups: Vec<usize>,
    stores: Vec<usize>,
    locomotives: Vec<usize>,
    places: Vec<u16>,
}

/// Lays the inventory out in one of many ways.
pub fn lay_out(random: &mut Random, inventory: &Inventory) -> Layout {
    let mut order = Order::new(inventory);
    if !random.once_in(4) {
        order.shuffle_chains(random);
    }
    let chains = chains(random, inventory, &order.groups);
    order.add_places(chains.nodes.len());
    if !random.once_in(4) {
        random.shuffle(&mut order.places);
    }
    written(inventory, &order, &chains)
}

/// Lays the inventory out with each of its rows in six slots of their own, all of it shuffled.
pub fn lay_out_rows_once(random: &mut Random, inventory: &Inventory) -> Layout {
    let mut order = Order::new(inventory);
    order.shuffle_chains(random);
    let chains = chains_once(random, inventory, &order.groups);
    order.add_places(chains.nodes.len());
    random.shuffle(&mut order.places);
    written(inventory, &order, &chains)
}

fn written(inventory: &Inventory, order: &Order, chains: &Chains) -> Layout {
    let (group_places, rest) = order.places.split_at(order.groups.len());
    let (store_places, rest) = rest.split_at(order.stores.len());
    let (locomotive_places, coefficient_places) = rest.split_at(order.locomotives.len());
    let mut layout = Layout {
        file: vec![0; (1 + order.places.len()) * SLOT],
        groups: group_places.to_vec(),
        coefficients: coefficient_places.to_vec(),
        stores: store_places.to_vec(),
        locomotives: locomotive_places.to_vec(),
    };
    layout.write_head(inventory);
    layout.write_chains(chains);
    for (place, &group) in order.groups.iter().enumerate() {
        layout.write_group(place, &inventory.groups[group].slot, chains.starts[place]);
    }
    for (place, &store) in order.stores.iter().enumerate() {
        layout.write_source(store_places, place, &inventory.stores[store]);
    }
    for (place, &locomotive) in order.locomotives.iter().enumerate() {
        let source = &inventory.locomotives[locomotive];
        layout.write_source(locomotive_places, place, source);
    }
    layout
}

/// Groups with the same rows share all slots of them.
fn chains_once(random: &mut Random, inventory: &Inventory, groups: &[usize]) -> Chains {
    let mut chains = Chains {
        nodes: Vec::new(),
        starts: Vec::new(),
    };
    let add = |rows| chains.add(random, rows, false);
    let starts: Vec<usize> = inventory.rows.iter().map(add).collect();
    let start = |&group: &usize| starts[inventory.groups[group].rows];
    chains.starts = groups.iter().map(start).collect();
    chains
}

/// Groups with the same rows share all slots of them, some, or none, as far as there is room.
fn chains(random: &mut Random, inventory: &Inventory, groups: &[usize]) -> Chains {
    let share = random.below(3);
    let mut spare = MOST_SLOTS - inventory.least_slots();
    let mut made: Vec<Option<usize>> = vec![None; inventory.rows.len()];
    let mut chains = Chains {
        nodes: Vec::new(),
        starts: Vec::new(),
    };
    for &group in groups {
        let rows = inventory.groups[group].rows;
        let again = share > 0 && (share > 1 || random.once_in(2));
        let start = match made[rows] {
            Some(start) if again || spare < 6 => start,
            earlier => {
                if earlier.is_some() {
                    spare -= 6;
                }
                chains.add(random, &inventory.rows[rows], again)
            }
        };
        made[rows] = Some(start);
        chains.starts.push(start);
    }
    chains
}

impl Order {
    fn new(inventory: &Inventory) -> Order {
        Order {
            groups: (0..inventory.groups.len()).collect(),
            stores: (0..inventory.stores.len()).collect(),
            locomotives: (0..inventory.locomotives.len()).collect(),
            places: Vec::new(),
        }
    }

    fn shuffle_chains(&mut self, random: &mut Random) {
        random.shuffle(&mut self.groups);
        random.shuffle(&mut self.stores);
        random.shuffle(&mut self.locomotives);
    }

    fn add_places(&mut self, coefficients: usize) {
        let sources = self.groups.len() + self.stores.len() + self.locomotives.len();
        let count = 1 + sources + coefficients;
        self.places = (1..count as u16).collect();
    }
}

impl Chains {
    /// A new chain; with `share` its end may be that of an earlier one, where the rows are equal.
    fn add(&mut self, random: &mut Random, rows: &[Slot; 6], share: bool) -> usize {
        let mut next = None;
        let mut own = 6;
        if share && !self.starts.is_empty() {
            let earlier = self.nodes_from(random.pick(&self.starts));
            let most = random.below(6);
            while 6 - own < most && self.nodes[earlier[own - 1]].row == rows[own - 1] {
                own -= 1;
                next = Some(earlier[own]);
            }
        }
        for &row in rows[..own].iter().rev() {
            self.nodes.push(Node { row, next });
            next = Some(self.nodes.len() - 1);
        }
        self.nodes.len() - 1
    }

    fn nodes_from(&self, start: usize) -> [usize; 6] {
        let mut node = start;
        std::array::from_fn(|_| {
            let this = node;
            node = self.nodes[this].next.unwrap_or(this);
            this
        })
    }
}

/// Where slot 0 has the first link of each chain, in the order of the walk.
pub const HEADS: [usize; 3] = [4, 6, 32];

/// The place that a chain's link has, or zero for its end.
fn link(places: &[u16], index: usize) -> u32 {
    places.get(index).copied().map_or(0, u32::from)
}

impl Layout {
    pub fn slot(&mut self, place: u16) -> &mut [u8] {
        let start = usize::from(place) * SLOT;
        &mut self.file[start..start + SLOT]
    }

    /// The slots of each chain, in the order of `HEADS`.
    pub fn chains(&self) -> [&[u16]; 3] {
        [&self.groups, &self.stores, &self.locomotives]
    }

    /// Writes the count of slots that the file has.
    pub fn write_count(&mut self) {
        let count = (self.file.len() / SLOT) as u32;
        write(&mut self.file, 2, 2, count);
    }

    fn write_head(&mut self, inventory: &Inventory) {
        self.write_count();
        write(&mut self.file, 0, 2, 1);
        let firsts = self.chains().map(|chain| link(chain, 0));
        for (at, first) in HEADS.into_iter().zip(firsts) {
            write(&mut self.file, at, 2, first);
        }
        self.file[8..32].copy_from_slice(&inventory.temperatures);
    }

    fn write_chains(&mut self, chains: &Chains) {
        for (index, node) in chains.nodes.iter().enumerate() {
            let next = node.next.map_or(0, |next| link(&self.coefficients, next));
            let slot = self.slot(self.coefficients[index]);
            slot.copy_from_slice(&node.row);
            write(slot, 0, 2, next);
        }
    }

    fn write_group(&mut self, index: usize, group: &Slot, start: usize) {
        let next = link(&self.groups, index + 1);
        let first = link(&self.coefficients, start);
        let slot = self.slot(self.groups[index]);
        slot.copy_from_slice(group);
        write(slot, 0, 2, next);
        write(slot, 34, 2, first);
    }

    /// A store record or locomotive, the one at `index` of its chain.
    fn write_source(&mut self, chain: &[u16], index: usize, source: &Slot) {
        let slot = self.slot(chain[index]);
        slot.copy_from_slice(source);
        write(slot, 0, 2, link(chain, index + 1));
    }
}

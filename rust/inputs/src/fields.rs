//! The fields of each kind of slot, with their ranges and table edges, and values drawn for them.

use crate::random::Random;

pub const SLOT: usize = 64;

pub type Slot = [u8; SLOT];

pub const GROUP: u8 = 1;
pub const COEFFICIENTS: u8 = 2;
pub const HANDLING: u8 = 3;
pub const STANDING: u8 = 4;
pub const ASPIRATION: u8 = 5;
pub const LOCOMOTIVE: u8 = 6;

/// A field of `width` bytes at a place in the slot, from `low` to `high`; `edges` are the last
/// values of the bands that a table has within the range.
#[derive(Clone, Copy)]
pub struct Field {
    pub at: usize,
    pub width: usize,
    pub low: u32,
    pub high: u32,
    pub edges: &'static [u32],
}

const fn field(at: usize, width: usize, low: u32, high: u32) -> Field {
    banded(at, width, low, high, &[])
}

const fn banded(at: usize, width: usize, low: u32, high: u32, edges: &'static [u32]) -> Field {
    Field {
        at,
        width,
        low,
        high,
        edges,
    }
}

/// N, and N' that is at most N.
pub const VEHICLES: Field = field(6, 2, 1, 10_000);
pub const LEAVING: usize = 8;

/// A warm-up that was timed; 0 says that it was not.
pub const TIMED: Field = field(36, 1, 1, 250);

const GROUP_FIELDS: [Field; 24] = [
    field(3, 1, 1, 3),
    field(4, 1, 1, 2),
    field(5, 1, 0, 3),
    VEHICLES,
    field(10, 1, 0, 100),
    field(11, 1, 0, 100),
    field(12, 1, 0, 100),
    field(13, 1, 0, 250),
    field(14, 2, 0, 20_000),
    field(16, 2, 0, 20_000),
    field(18, 2, 0, 20_000),
    field(20, 2, 0, 20_000),
    field(22, 1, 0, 31),
    field(23, 1, 0, 29),
    field(24, 1, 0, 31),
    field(25, 1, 0, 30),
    field(26, 1, 0, 31),
    field(27, 1, 0, 30),
    field(28, 1, 0, 31),
    field(29, 1, 0, 31),
    field(30, 1, 0, 30),
    field(31, 1, 0, 31),
    field(32, 1, 0, 30),
    field(33, 1, 0, 31),
];

const COEFFICIENT_FIELDS: [Field; 7] = [
    field(4, 4, 0, 1_000_000),
    field(8, 4, 0, 1_000_000),
    field(12, 4, 0, 1_000_000),
    field(16, 4, 0, 1_000_000),
    field(20, 4, 0, 1_000_000),
    field(24, 4, 0, 1_000_000),
    field(28, 4, 0, 1_000_000),
];

const DUST: Field = field(3, 1, 1, 3);
const STORE: Field = field(4, 2, 1, 65_535);
const MATERIAL: Field = field(6, 1, 1, 9);
const WIND: Field = banded(8, 2, 0, 140, &[20, 50, 70, 100, 120]);
const MOISTURE: Field = banded(10, 2, 0, 1_000, &[5, 10, 30, 50, 70, 80, 90, 100]);
const GRAIN: Field = banded(12, 2, 0, 65_535, &[1, 3, 5, 10, 50, 100, 500]);
const OPENNESS: Field = field(14, 1, 1, 7);
const AMOUNT: Field = field(20, 4, 0, 1_000_000);

/// K6 given; 0 says that it is missing.
pub const K6: Field = field(16, 2, 100, 200);

const HANDLING_FIELDS: [Field; 9] = [
    DUST,
    STORE,
    MATERIAL,
    WIND,
    MOISTURE,
    GRAIN,
    OPENNESS,
    field(15, 1, 1, 8),
    AMOUNT,
];

const STANDING_FIELDS: [Field; 9] = [
    DUST, STORE, MATERIAL, WIND, MOISTURE, GRAIN, OPENNESS, K6, AMOUNT,
];

const ASPIRATION_FIELDS: [Field; 6] = [
    DUST,
    STORE,
    field(8, 4, 0, 1_000_000),
    field(12, 4, 0, 1_000_000),
    field(16, 2, 0, 10_000),
    field(18, 2, 0, 8_784),
];

/// Thousandths of the time in each mode, 1,000 in all.
pub const SHARES: [Field; 5] = [
    field(4, 2, 0, 1_000),
    field(6, 2, 0, 1_000),
    field(8, 2, 0, 1_000),
    field(10, 2, 0, 1_000),
    field(12, 2, 0, 1_000),
];

const LOCOMOTIVE_FIELDS: [Field; 9] = [
    field(3, 1, 1, 4),
    SHARES[0],
    SHARES[1],
    SHARES[2],
    SHARES[3],
    SHARES[4],
    field(14, 2, 0, 8_784),
    field(16, 1, 0, 1),
    field(17, 1, 1, 3),
];

/// The fields of a kind with a range of their own, but for a timed warm-up: no links, no pollutant,
/// no N'.
pub fn fields(kind: u8) -> &'static [Field] {
    match kind {
        GROUP => &GROUP_FIELDS,
        COEFFICIENTS => &COEFFICIENT_FIELDS,
        HANDLING => &HANDLING_FIELDS,
        STANDING => &STANDING_FIELDS,
        ASPIRATION => &ASPIRATION_FIELDS,
        LOCOMOTIVE => &LOCOMOTIVE_FIELDS,
        _ => &[],
    }
}

/// The bytes of a kind that no field has.
pub fn unnamed(kind: u8) -> impl Iterator<Item = usize> {
    let first = match kind {
        GROUP => 37,
        COEFFICIENTS => 32,
        HANDLING | STANDING => 24,
        LOCOMOTIVE => 18,
        _ => 20,
    };
    let between: &[usize] = match kind {
        HANDLING => &[7, 16, 17, 18, 19],
        STANDING => &[7, 15, 18, 19],
        ASPIRATION => &[6, 7],
        _ => &[],
    };
    between.iter().copied().chain(first..SLOT)
}

pub fn write(slot: &mut [u8], at: usize, width: usize, value: u32) {
    slot[at..at + width].copy_from_slice(&value.to_le_bytes()[..width]);
}

pub fn read2(slot: &[u8], at: usize) -> u16 {
    u16::from_le_bytes([slot[at], slot[at + 1]])
}

/// How the values of a source are drawn.
#[derive(Clone, Copy)]
pub enum Style {
    /// Each in its own way.
    Mixed,
    /// Few prime factors but 2 and 5, so that exact halves come up.
    Round,
    Small,
    Largest,
}

const ROUND: [u32; 24] = [
    1, 2, 4, 5, 10, 20, 25, 50, 100, 125, 200, 250, 500, 625, 1_000, 1_250, 2_500, 5_000, 9_000,
    9_500, 10_000, 100_000, 125_000, 1_000_000,
];

impl Field {
    pub fn draw(&self, random: &mut Random, style: Style) -> u32 {
        match style {
            Style::Mixed => self.mixed(random),
            Style::Round => self.round(random),
            Style::Small => random.within(self.low, self.high.min(self.low + 20)),
            // the class with the largest factor is not the last, nor is the band
            Style::Largest if self.high < 10 => random.within(self.low, self.high),
            Style::Largest if !self.edges.is_empty() => random.pick(&[self.low, self.high]),
            Style::Largest => self.high,
        }
    }

    fn mixed(&self, random: &mut Random) -> u32 {
        match random.below(8) {
            0 => self.low,
            1 => self.high,
            2 => random.within(self.low, self.high.min(self.low + 3)),
            3 => random.within(self.low.max(self.high.saturating_sub(3)), self.high),
            4 if !self.edges.is_empty() => random.pick(self.edges) + random.within(0, 1),
            5 => self.round(random),
            // any size alike
            6 => {
                let size = random.below(21);
                self.within(random.number() as u32 >> (31 - size))
            }
            _ => random.within(self.low, self.high),
        }
    }

    fn round(&self, random: &mut Random) -> u32 {
        let value = random.pick(&ROUND);
        if (self.low..=self.high).contains(&value) {
            value
        } else {
            random.within(self.low, self.high.min(self.low + 100))
        }
    }

    fn within(&self, value: u32) -> u32 {
        value.clamp(self.low, self.high)
    }
}

//! Sources for the rules, drawn at random: most with each value in range, some with one that is
//! just past its range, some with any values that the C interface takes.

use inputs::Random;
use tezhebul::{Aspiration, Bulk, Coefficients, Group, Handling, Locomotive, Standing};

use crate::values::{banded, range, Draw, Range};

const DUST: Range = range(1, 3);
const STORE: Range = range(1, 65_535);
const MATERIAL: Range = range(1, 9);
const WIND: Range = banded(0, 140, &[20, 50, 70, 100, 120]);
const MOISTURE: Range = banded(0, 1_000, &[5, 10, 30, 50, 70, 80, 90, 100]);
const GRAIN: Range = banded(0, 65_535, &[1, 3, 5, 10, 50, 100, 500]);
const OPENNESS: Range = range(1, 7);
const DROP: Range = range(1, 8);
/// K6 given; 0 says that it is missing.
const K6: Range = range(100, 200);
/// An amount, a concentration, a flow, a coefficient.
const MILLION: Range = range(0, 1_000_000);
const CAPTURE: Range = range(0, 10_000);
const HOURS: Range = range(0, 8_784);
const CATEGORY: Range = range(1, 3);
const FUEL: Range = range(1, 2);
const FLAGS: Range = range(0, 3);
const VEHICLES: Range = range(1, 10_000);
const PERCENT: Range = range(0, 100);
const IDLE: Range = range(0, 250);
/// 0 says that the warm-up is not timed; 1 is the least that is.
const TIMED: Range = banded(0, 250, &[1]);
const DISTANCE: Range = range(0, 20_000);
const MONTHS: [i64; 12] = [31, 29, 31, 30, 31, 30, 31, 31, 30, 31, 30, 31];
const TEMPERATURE: Range = banded(-600, 600, &[-250, -200, -150, -100, -50, 50]);

const MODEL: Range = range(1, 4);
const SHARE: Range = range(0, 1_000);
const AGE: Range = range(0, 1);
const ZONE: Range = range(1, 3);

const PETROL: u8 = 1;
const SOOT: usize = 3;
const LEAD: usize = 5;

pub fn handling(random: &mut Random) -> Handling {
    let mut draw = Draw::new(random, 9);
    Handling {
        bulk: bulk(&mut draw),
        drop: draw.u8(DROP),
    }
}

pub fn standing(random: &mut Random) -> Standing {
    let missing = random.once_in(4);
    let mut draw = Draw::new(random, 9);
    Standing {
        bulk: bulk(&mut draw),
        k6: if missing { 0 } else { draw.u16(K6) },
    }
}

fn bulk(draw: &mut Draw) -> Bulk {
    Bulk {
        dust: draw.u8(DUST),
        store: draw.u16(STORE),
        material: draw.u8(MATERIAL),
        wind: draw.u16(WIND),
        moisture: draw.u16(MOISTURE),
        grain: draw.u16(GRAIN),
        openness: draw.u8(OPENNESS),
        amount: draw.u32(MILLION),
    }
}

pub fn aspiration(random: &mut Random) -> Aspiration {
    let mut draw = Draw::new(random, 6);
    Aspiration {
        dust: draw.u8(DUST),
        store: draw.u16(STORE),
        concentration: draw.u32(MILLION),
        flow: draw.u32(MILLION),
        capture: draw.u16(CAPTURE),
        hours: draw.u16(HOURS),
    }
}

/// All that the rule of a group is asked with.
#[derive(Debug)]
pub struct Yard {
    pub group: Group,
    pub temperatures: [i16; 12],
    pub coefficients: [Coefficients; 6],
}

pub fn yard(random: &mut Random) -> Yard {
    // the wrong value is among the first 38 as often as among all
    let count = random.pick(&[38, 80]);
    let mut draw = Draw::new(random, count);
    let group = group(&mut draw);
    Yard {
        group,
        temperatures: temperatures(&mut draw),
        coefficients: coefficients(&mut draw, group.fuel),
    }
}

fn group(draw: &mut Draw) -> Group {
    let vehicles = draw.u16(VEHICLES);
    Group {
        category: draw.u8(CATEGORY),
        fuel: draw.u8(FUEL),
        flags: draw.u8(FLAGS),
        vehicles,
        leaving: draw.u16(range(0, i64::from(vehicles))),
        share: draw.u8(PERCENT),
        running: draw.u8(PERCENT),
        warming: draw.u8(PERCENT),
        idle: draw.u32(IDLE),
        timed: draw.u32(TIMED),
        distances: std::array::from_fn(|_| draw.u32(DISTANCE)),
        days: std::array::from_fn(|month| draw.u8(range(0, MONTHS[month]))),
    }
}

/// Months that are all the same, or each its own.
fn temperatures(draw: &mut Draw) -> [i16; 12] {
    if draw.random.once_in(4) {
        [draw.i16(TEMPERATURE); 12]
    } else {
        std::array::from_fn(|_| draw.i16(TEMPERATURE))
    }
}

/// Rows of which the one that must be zero for the fuel is so most of the time.
fn coefficients(draw: &mut Draw, fuel: u8) -> [Coefficients; 6] {
    let mut rows = std::array::from_fn(|_| row(draw));
    if !draw.random.once_in(8) {
        let zero = if fuel == PETROL { SOOT } else { LEAD };
        rows[zero] = Coefficients::default();
    }
    rows
}

/// A row with each number drawn, with one of them, or with none.
fn row(draw: &mut Draw) -> Coefficients {
    let mut row = Coefficients::default();
    match draw.random.below(8) {
        0 => {}
        1 => {
            let one = draw.random.below(7);
            let value = draw.u32(MILLION);
            match one {
                0..=2 => row.warm_up[one] = value,
                3..=5 => row.run[one - 3] = value,
                _ => row.idle = value,
            }
        }
        _ => {
            row.warm_up = std::array::from_fn(|_| draw.u32(MILLION));
            row.run = std::array::from_fn(|_| draw.u32(MILLION));
            row.idle = draw.u32(MILLION);
        }
    }
    row
}

/// Most of the time with shares that total 1,000, whatever else is wrong.
pub fn locomotive(random: &mut Random) -> Locomotive {
    let mut draw = Draw::new(random, 9);
    let mut source = Locomotive {
        model: draw.u8(MODEL),
        hours: draw.u16(HOURS),
        old: draw.u8(AGE),
        zone: draw.u8(ZONE),
        shares: std::array::from_fn(|_| draw.u16(SHARE)),
    };
    let in_range = source.shares.iter().all(|&share| share <= 1_000);
    if in_range && !draw.random.once_in(4) {
        source.shares = total_1000(draw.random, source.shares);
    }
    source
}

/// The shares taken in turn, in any order, as far as there is time left; the last has the rest. Now
/// and then one of them has a thousandth more or less, where it can.
fn total_1000(random: &mut Random, shares: [u16; 5]) -> [u16; 5] {
    let mut order = [0, 1, 2, 3, 4];
    random.shuffle(&mut order);
    let mut rest = 1_000;
    let mut total = [0; 5];
    for (turn, mode) in order.into_iter().enumerate() {
        total[mode] = if turn == 4 {
            rest
        } else {
            shares[mode].min(rest)
        };
        rest -= total[mode];
    }
    let one = &mut total[random.below(5)];
    match random.below(16) {
        0 if *one < 1_000 => *one += 1,
        1 if *one > 0 => *one -= 1,
        _ => {}
    }
    total
}

#[cfg(test)]
mod tests {
    use super::*;

    #[test]
    fn groups_untimed_and_timed() {
        let mut random = Random::new(1, 1);
        let (mut untimed, mut least, mut most, mut past) = (0, 0, 0, 0);
        for _ in 0..4_000 {
            match yard(&mut random).group.timed {
                0 => untimed += 1,
                1 => least += 1,
                250 => most += 1,
                251.. => past += 1,
                _ => {}
            }
        }
        assert!(
            untimed > 1_000 && least > 400 && most > 400 && past > 50,
            "{untimed} {least} {most} {past}"
        );
    }

    #[test]
    fn locomotives_of_every_sort() {
        let mut random = Random::new(1, 1);
        let (mut whole, mut other, mut past) = (0, 0, 0);
        for _ in 0..4_000 {
            let shares = locomotive(&mut random).shares;
            if shares.iter().any(|&share| share > 1_000) {
                past += 1;
            } else if shares.iter().sum::<u16>() == 1_000 {
                whole += 1;
            } else {
                other += 1;
            }
        }
        assert!(
            whole > 2_000 && other > 500 && past > 100,
            "{whole} {other} {past}"
        );
    }
}

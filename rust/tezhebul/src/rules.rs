//! The rules of each kind of source, for tools that hold a source's values and no slot file.

use crate::emission::{self, Emission};
use crate::ffi::{
    self, COEFFICIENTS, EMISSIONS, GROUP_NUMBERS, LOCOMOTIVE_EMISSIONS, LOCOMOTIVE_NUMBERS,
    POLLUTANTS, STORE_NUMBERS,
};
use crate::Refusal;

/// Bulk material, handled or standing.
#[derive(Clone, Copy, Debug, PartialEq, Eq)]
pub struct Bulk {
    /// 1 for the substance code 0152, 2 for 2908, 3 for 2909.
    pub dust: u8,
    /// The store's number, 1 or more.
    pub store: u16,
    /// 1 limestone, 2 lump lime, 3 ground lime, 4 sodium chloride, 5 coal, 6 slag, 7 cement,
    /// 8 sand, 9 sandstone.
    pub material: u8,
    /// Tenths of a metre per second, 0 to 140.
    pub wind: u16,
    /// Tenths of a percent, 0 to 1,000.
    pub moisture: u16,
    /// Millimetres, any.
    pub grain: u16,
    /// The store is open 1 on four sides, 2 on three, 3 on two in part, 4 on two wholly, 5 on one;
    /// 6 loading sleeve; 7 closed.
    pub openness: u8,
    /// Kilograms in 20 minutes of handling, square metres of standing; 0 to 1,000,000.
    pub amount: u32,
}

/// A place where bulk material is poured or loaded.
#[derive(Clone, Copy, Debug, PartialEq, Eq)]
pub struct Handling {
    /// What is handled.
    pub bulk: Bulk,
    /// The class of the drop, 1 to 8: 0.5, 1, 1.5, 2, 4, 6, 8, 10 metres.
    pub drop: u8,
}

/// A heap of bulk material.
#[derive(Clone, Copy, Debug, PartialEq, Eq)]
pub struct Standing {
    /// What stands.
    pub bulk: Bulk,
    /// K6, the surface's factor, in hundredths, 100 to 200; 0 where it is missing, which counts as
    /// 130.
    pub k6: u16,
}

/// A fan that draws off dusty gas.
#[derive(Clone, Copy, Debug, PartialEq, Eq)]
pub struct Aspiration {
    /// 1 for the substance code 0152, 2 for 2908, 3 for 2909.
    pub dust: u8,
    /// The store's number, 1 or more.
    pub store: u16,
    /// Dust, milligrams per cubic metre, 0 to 1,000,000.
    pub concentration: u32,
    /// Gas, litres per second, 0 to 1,000,000.
    pub flow: u32,
    /// What the filter keeps back, hundredths of a percent, 0 to 10,000.
    pub capture: u16,
    /// Hours in a year, 0 to 8,784.
    pub hours: u16,
}

/// Vehicles of one category and fuel that stand in one yard.
#[derive(Clone, Copy, Debug, PartialEq, Eq)]
pub struct Group {
    /// 1 car, 2 truck, 3 bus.
    pub category: u8,
    /// 1 petrol, 2 diesel.
    pub fuel: u8,
    /// 0, or [`CONTROLLED`], or [`HEATED`], or their sum.
    pub flags: u8,
    /// 1 to 10,000.
    pub vehicles: u16,
    /// The most that leave in one hour, 0 to `vehicles`.
    pub leaving: u16,
    /// Percent of the vehicles that leave in a day, 0 to 100.
    pub share: u8,
    /// The neutraliser's factor for run and idle, percent, 0 to 100; 100 where there is none.
    pub running: u8,
    /// The neutraliser's factor for warm-up, percent, 0 to 100; 100 where there is none.
    pub warming: u8,
    /// Idle time, tenths of a minute, 0 to 250.
    pub idle: u32,
    /// The warm-up as the drivers timed it, tenths of a minute, 1 to 250, at every temperature; 0
    /// where it was not timed, and it lasts the minutes of the papers' table, or the 1.5 of a
    /// heated stand.
    pub timed: u32,
    /// Metres, 0 to 20,000: out from the nearest place, out from the farthest, in to the nearest,
    /// in to the farthest.
    pub distances: [u32; 4],
    /// Days worked in each month, January first, at most its length, February's 29.
    pub days: [u8; 12],
}

/// In [`Group::flags`]: emission control is done.
pub const CONTROLLED: u8 = 1;

/// In [`Group::flags`]: the stand is heated.
pub const HEATED: u8 = 2;

/// What one vehicle gives of one pollutant, in ten-thousandths of a gram; each number is from 0 to
/// 1,000,000. Three numbers are those of the warm, the transitional and the cold period.
#[derive(Clone, Copy, Debug, Default, PartialEq, Eq)]
pub struct Coefficients {
    /// Warm-up, per minute.
    pub warm_up: [u32; 3],
    /// Run, per kilometre.
    pub run: [u32; 3],
    /// Idle, per minute.
    pub idle: u32,
}

/// A shunting locomotive.
#[derive(Clone, Copy, Debug, PartialEq, Eq)]
pub struct Locomotive {
    /// 1 TGM6, 2 TGM4, 3 TGM3, 4 TU4 or TGK2.
    pub model: u8,
    /// Thousandths of the time at idle, at 25 %, 50 % and 75 % of the power and at full power, each
    /// 0 to 1,000 and in all 1,000.
    pub shares: [u16; 5],
    /// Hours in a year, 0 to 8,784.
    pub hours: u16,
    /// 1 where it is over two years old, else 0.
    pub old: u8,
    /// 1 south of 44 degrees, 2 others, 3 north of 60 degrees.
    pub zone: u8,
}

/// What a handling record gives. Refused by 9 where a field is out of range.
pub fn handling(source: &Handling) -> Result<Emission, Refusal> {
    store(|out| ffi::handling(source, out))
}

/// What a standing record gives. Refused by 9 where a field is out of range.
pub fn standing(source: &Standing) -> Result<Emission, Refusal> {
    store(|out| ffi::standing(source, out))
}

/// What an aspiration record gives. Refused by 9 where a field is out of range.
pub fn aspiration(source: &Aspiration) -> Result<Emission, Refusal> {
    store(|out| ffi::aspiration(source, out))
}

/// What a group gives of each pollutant: CO, hydrocarbons, NO2, soot, SO2, lead. The coefficients
/// stand in the same order.
///
/// `temperatures` are the mean of each month, January first, in tenths of a degree Celsius, -600 to
/// 600. Refused by 9 where a number is out of range, then by 11 where soot is not zero for petrol,
/// or lead for diesel.
pub fn group(
    source: &Group,
    temperatures: &[i16; 12],
    coefficients: &[Coefficients; POLLUTANTS],
) -> Result<[Emission; EMISSIONS], Refusal> {
    let mut numbers = [0; GROUP_NUMBERS];
    let written = ffi::group(source, temperatures, &flat(coefficients), &mut numbers);
    assert!(written, "every length is that of the header");
    emission::read(&numbers, &[9, 11])
}

/// What a locomotive gives of CO, NO2 and soot. Refused by 9 where a field is out of range, then by
/// 14 where the shares do not total 1,000.
pub fn locomotive(source: &Locomotive) -> Result<[Emission; LOCOMOTIVE_EMISSIONS], Refusal> {
    let mut numbers = [0; LOCOMOTIVE_NUMBERS];
    let written = ffi::locomotive(source, &mut numbers);
    assert!(written, "there is room for every number");
    emission::read(&numbers, &[9, 14])
}

/// The answer of the rule of a store record that is handed the room for its numbers.
fn store(rule: impl FnOnce(&mut [u64; STORE_NUMBERS]) -> bool) -> Result<Emission, Refusal> {
    let mut numbers = [0; STORE_NUMBERS];
    let written = rule(&mut numbers);
    assert!(written, "there is room for every number");
    emission::read(&numbers, &[9]).map(|[emission]| emission)
}

/// A row of seven for each pollutant: warm-up, run, idle.
fn flat(coefficients: &[Coefficients; POLLUTANTS]) -> [u32; COEFFICIENTS] {
    let mut numbers = [0; COEFFICIENTS];
    let (rows, _) = numbers.as_chunks_mut::<7>();
    for (row, pollutant) in rows.iter_mut().zip(coefficients) {
        row[..3].copy_from_slice(&pollutant.warm_up);
        row[3..6].copy_from_slice(&pollutant.run);
        row[6] = pollutant.idle;
    }
    numbers
}

//! The rules of store records (01, "Store rules").

use crate::codes;
use crate::sums::Emission;
use crate::Refusal;

/// What handling and standing records have in common, with the ranges of 01, "Store record".
#[derive(Clone, Copy, Debug, PartialEq, Eq)]
pub struct Bulk {
    /// 1 for 0152, 2 for 2908, 3 for 2909.
    pub dust: u32,
    /// Store number.
    pub store: u32,
    pub material: u32,
    /// Tenths of a metre per second.
    pub wind: u32,
    /// Tenths of a percent.
    pub moisture: u32,
    /// Millimetres.
    pub grain: u32,
    pub openness: u32,
    /// Kilograms per 20 minutes of handling, square metres of standing.
    pub amount: u32,
}

/// A handling record.
#[derive(Clone, Copy, Debug, PartialEq, Eq)]
pub struct Handling {
    pub bulk: Bulk,
    /// Drop class.
    pub drop: u32,
}

/// A standing record.
#[derive(Clone, Copy, Debug, PartialEq, Eq)]
pub struct Standing {
    pub bulk: Bulk,
    /// Hundredths; 0 for missing.
    pub k6: u32,
}

/// An aspiration record.
#[derive(Clone, Copy, Debug, PartialEq, Eq)]
pub struct Aspiration {
    pub dust: u32,
    pub store: u32,
    /// C, milligrams per cubic metre.
    pub concentration: u32,
    /// V, litres a second.
    pub gas: u32,
    /// Hundredths of a percent.
    pub capture: u32,
    pub hours: u32,
}

/// "A store record is one of three kinds, each with its own fields."
pub enum Store {
    Handling(Handling),
    Standing(Standing),
    Aspiration(Aspiration),
}

/// What a handling record gives, or refusal 9.
pub fn handling(record: &Handling) -> Result<Emission, Refusal> {
    given(record.in_range(), || record.emission())
}

/// What a standing record gives, or refusal 9.
pub fn standing(record: &Standing) -> Result<Emission, Refusal> {
    given(record.in_range(), || record.emission())
}

/// What an aspiration record gives, or refusal 9.
pub fn aspiration(record: &Aspiration) -> Result<Emission, Refusal> {
    given(record.in_range(), || record.emission())
}

/// The emission of a record in range, else refusal 9.
fn given(in_range: bool, emission: impl FnOnce() -> Emission) -> Result<Emission, Refusal> {
    if in_range {
        Ok(emission())
    } else {
        Err(Refusal { number: 9, slot: 0 })
    }
}

/// "Materials 1 to 9 (K1, K2, Q)": K1 and K2 in hundredths, Q in thousandths.
const MATERIALS: [(u64, u64, u64); 9] = [
    (3, 1, 3), // limestone
    (4, 1, 5), // lump lime
    (7, 1, 5), // ground lime
    (4, 1, 5), // sodium chloride
    (3, 2, 5), // coal
    (5, 2, 2), // slag
    (4, 3, 3), // cement
    (5, 3, 2), // sand
    (4, 1, 5), // sandstone
];

/// "K4, openness 1 to 7", in thousandths.
const K4: [u64; 7] = [1000, 500, 300, 200, 100, 10, 5];

/// "B', drops of .5, 1, 1.5, 2, 4, 6, 8, 10 m (classes 1 to 8)", in tenths.
const DROPS: [u64; 8] = [1, 5, 6, 7, 10, 15, 20, 25];

/// K3, in tenths, of a wind in range: "wind to 2, 5, 7, 10, 12, 14 m/s".
fn k3(wind: u32) -> u64 {
    match wind {
        0..=20 => 10,
        21..=50 => 12,
        51..=70 => 14,
        71..=100 => 17,
        101..=120 => 20,
        _ => 23,
    }
}

/// K5, in hundredths: "moisture to .5, 1, 3, 5, 7, 8, 9, 10, above".
fn k5(moisture: u32) -> u64 {
    match moisture {
        0..=5 => 100,
        6..=10 => 90,
        11..=30 => 80,
        31..=50 => 70,
        51..=70 => 60,
        71..=80 => 40,
        81..=90 => 20,
        91..=100 => 10,
        _ => 1,
    }
}

/// K7, in tenths: "grain to 1, 3, 5, 10, 50, 100, 500, above".
fn k7(grain: u32) -> u64 {
    match grain {
        0..=1 => 10,
        2..=3 => 8,
        4..=5 => 7,
        6..=10 => 6,
        11..=50 => 5,
        51..=100 => 4,
        101..=500 => 2,
        _ => 1,
    }
}

/// The place in `CODES` of a dust code in range: "1 for 0152, 2 for 2908, 3 for 2909".
fn dust_code(dust: u32) -> usize {
    match dust {
        1 => codes::DUST_0152,
        2 => codes::DUST_2908,
        _ => codes::DUST_2909,
    }
}

/// "3 dust code, 1 for 0152, 2 for 2908, 3 for 2909. 4..5 store number, 1 or more."
fn name_in_range(dust: u32, store: u32) -> bool {
    (1..=3).contains(&dust) && (1..=65_535).contains(&store)
}

impl Bulk {
    /// "Handling and standing: 6 material, 1 to 9" and on.
    fn in_range(&self) -> bool {
        name_in_range(self.dust, self.store)
            && (1..=9).contains(&self.material)
            && self.wind <= 140
            && self.moisture <= 1_000
            && self.grain <= 65_535
            && (1..=7).contains(&self.openness)
            && self.amount <= 1_000_000
    }

    /// K1 and K2 in hundredths, Q in thousandths.
    fn material(&self) -> (u64, u64, u64) {
        MATERIALS[self.material as usize - 1]
    }

    /// K3 K4 K5 K7, in 10^-7: below 10^9.
    fn factors(&self) -> u64 {
        k3(self.wind) * K4[self.openness as usize - 1] * k5(self.moisture) * k7(self.grain)
    }

    /// "Annual tonnes of both: 31.536 × peak × 0.7", which is 122,640 annual units for a peak unit.
    fn emission(&self, peak: u128) -> Emission {
        Emission {
            code: dust_code(self.dust),
            annual: peak * 122_640,
            peak,
        }
    }
}

impl Handling {
    /// "Handling only: 15 drop class, 1 to 8."
    pub(crate) fn in_range(&self) -> bool {
        self.bulk.in_range() && (1..=8).contains(&self.drop)
    }

    /// "Handling peak: 10,000 × K1 K2 K3 K4 K5 K7 × tonnes × B' / 12." The scales of the factors
    /// make 10^15, so the product counts 1/(12 × 10^11) g/s, 30 peak units. It is below 10^16.
    pub(crate) fn emission(&self) -> Emission {
        let (k1, k2, _) = self.bulk.material();
        let product = k1
            * k2
            * self.bulk.factors()
            * u64::from(self.bulk.amount)
            * DROPS[self.drop as usize - 1];
        self.bulk.emission(u128::from(product) * 30)
    }
}

impl Standing {
    /// "Standing only: 16..17 K6 in hundredths, 100 to 200, or 0 for missing"
    pub(crate) fn in_range(&self) -> bool {
        self.bulk.in_range() && (self.k6 == 0 || (100..=200).contains(&self.k6))
    }

    /// "Standing peak: K3 K4 K5 K6 K7 Q × area." The scales of the factors make 10^12, so the
    /// product counts 36 peak units. It is below 10^17.
    pub(crate) fn emission(&self) -> Emission {
        let (_, _, q) = self.bulk.material();
        // "or 0 for missing, which counts as 130"
        let k6 = if self.k6 == 0 { 130 } else { self.k6 };
        let product = self.bulk.factors() * u64::from(k6) * q * u64::from(self.bulk.amount);
        self.bulk.emission(u128::from(product) * 36)
    }
}

impl Aspiration {
    /// "Aspiration: 8..11 dust C, 0 to 1,000,000 mg/m³" and on.
    pub(crate) fn in_range(&self) -> bool {
        name_in_range(self.dust, self.store)
            && self.concentration <= 1_000_000
            && self.gas <= 1_000_000
            && self.capture <= 10_000
            && self.hours <= 8_784
    }

    /// "Aspiration peak: C × V × (1 - capture)." Thousandths of a gram, thousandths of a cubic
    /// metre and ten-thousandths: the product counts 10^-10 g/s, 3,600 peak units.
    /// "Annual tonnes: 0.0036 × peak × hours", which is 20 annual units for a peak unit and hour.
    pub(crate) fn emission(&self) -> Emission {
        let product =
            u64::from(self.concentration) * u64::from(self.gas) * u64::from(10_000 - self.capture);
        let peak = u128::from(product) * 3_600;
        Emission {
            code: dust_code(self.dust),
            annual: peak * 20 * u128::from(self.hours),
            peak,
        }
    }
}

impl Store {
    pub(crate) fn in_range(&self) -> bool {
        match self {
            Store::Handling(record) => record.in_range(),
            Store::Standing(record) => record.in_range(),
            Store::Aspiration(record) => record.in_range(),
        }
    }

    pub(crate) fn emission(&self) -> Emission {
        match self {
            Store::Handling(record) => record.emission(),
            Store::Standing(record) => record.emission(),
            Store::Aspiration(record) => record.emission(),
        }
    }
}

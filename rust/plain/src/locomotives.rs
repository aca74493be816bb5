//! The rule of shunting locomotives (02, U1).

use crate::codes;
use crate::sums::Emission;
use crate::Refusal;

/// A locomotive, with the ranges of 02, U1.
#[derive(Clone, Copy, Debug, PartialEq, Eq)]
pub struct Locomotive {
    /// 1 TGM6, 2 TGM4, 3 TGM3, 4 TU4 or TGK2.
    pub model: u32,
    /// Thousandths of the time in each mode, idle to full power.
    pub shares: [u32; 5],
    /// In a year.
    pub hours: u32,
    /// 1 for over two years old, else 0.
    pub old: u32,
    /// 1 south of 44°, 2 others, 3 north of 60°.
    pub zone: u32,
}

/// What a locomotive gives of CO, NO2 and soot, or refusal 9, then 14.
pub fn locomotive(locomotive: &Locomotive) -> Result<[Emission; 3], Refusal> {
    if !locomotive.in_range() {
        return Err(Refusal { number: 9, slot: 0 });
    }
    if !locomotive.shares_total() {
        return Err(Refusal {
            number: 14,
            slot: 0,
        });
    }
    Ok(locomotive.emissions())
}

/// 000, Table 21: grams an hour of CO, nitrogen oxides and soot, each from idle to full power.
const RATES: [[[u32; 5]; 3]; 4] = [
    // TGM6
    [
        [840, 920, 1_360, 2_090, 4_130],
        [4_110, 9_860, 11_370, 13_040, 15_210],
        [20, 60, 180, 290, 380],
    ],
    // TGM4
    [
        [640, 750, 930, 1_280, 2_630],
        [1_500, 2_990, 5_240, 6_000, 7_020],
        [10, 60, 170, 220, 230],
    ],
    // TGM3
    [
        [540, 580, 910, 1_340, 2_660],
        [2_060, 4_010, 7_220, 8_240, 9_210],
        [10, 30, 130, 150, 260],
    ],
    // TU4, TGK2
    [
        [170, 220, 280, 390, 780],
        [450, 880, 1_540, 1_750, 2_010],
        [4, 20, 50, 60, 70],
    ],
];

/// "CO, NO2 and soot join the sums": their places in `CODES`, in the order of `RATES`.
const SUBSTANCES: [usize; 3] = [codes::CO, codes::NO2, codes::SOOT];

impl Locomotive {
    /// "3 type, 1 to 4 in the order of 000 Table 21" and on, to "17 zone".
    pub(crate) fn in_range(&self) -> bool {
        (1..=4).contains(&self.model)
            && self.shares.iter().all(|&share| share <= 1_000)
            && self.hours <= 8_784
            && self.old <= 1
            && (1..=3).contains(&self.zone)
    }

    /// "14 when a locomotive's shares don't total 1,000", of shares in range.
    pub(crate) fn shares_total(&self) -> bool {
        self.shares.iter().sum::<u32>() == 1_000
    }

    /// "hours × (1.2 if old, else 1) × (1.2, 1, 0.8 by zone) × 0.7", in thousandths of an hour:
    /// below 10^7.
    fn weighted_hours(&self) -> u32 {
        let age = if self.old == 1 { 12 } else { 10 };
        let climate = [12, 10, 8][self.zone as usize - 1];
        self.hours * age * climate * 7
    }

    /// "Annual tonnes are the sum over the five modes of kg/h × share × hours" and the factors,
    /// "/ 1000": grams an hour, thousandths of the time and of an hour count 10^-12 t, 200,000
    /// annual units. "The peak is the greatest kg/h among modes with a nonzero share, over 3.6":
    /// a gram an hour is 1/3,600 g/s, 10^10 peak units.
    pub(crate) fn emissions(&self) -> [Emission; 3] {
        let hours = u128::from(self.weighted_hours());
        let rates = &RATES[self.model as usize - 1];
        std::array::from_fn(|substance| {
            let mut mean = 0;
            let mut greatest = 0;
            for (&rate, &share) in rates[substance].iter().zip(&self.shares) {
                mean += rate * share;
                if share > 0 {
                    greatest = rate.max(greatest);
                }
            }
            Emission {
                code: SUBSTANCES[substance],
                annual: u128::from(mean) * hours * 200_000,
                peak: u128::from(greatest) * 10_000_000_000,
            }
        })
    }
}

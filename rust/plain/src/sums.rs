//! Exact sums and their figures (01, "Figures").

use crate::codes::CODES;
use crate::walk::Counts;
use crate::Answer;

/// Exact units in a tonne: every annual term of the rules is a whole number of them.
pub const ANNUAL_DENOMINATOR: u128 = 200_000_000_000_000_000;

/// Exact units in a gram per second: every peak term of the rules is a whole number of them.
pub const PEAK_DENOMINATOR: u128 = 36_000_000_000_000;

/// "Annual: whole millionths of a tonne."
const ANNUAL_UNIT: u128 = ANNUAL_DENOMINATOR / 1_000_000;

/// "Peak: whole ten-millionths of a gram per second."
const PEAK_UNIT: u128 = PEAK_DENOMINATOR / 10_000_000;

/// What one source gives one substance code.
#[derive(Clone, Copy, Debug, PartialEq, Eq)]
pub struct Emission {
    /// The code's place in `CODES`.
    pub code: usize,
    /// Tonnes a year, over `ANNUAL_DENOMINATOR`.
    pub annual: u128,
    /// Grams per second, over `PEAK_DENOMINATOR`.
    pub peak: u128,
}

/// The exact sums of all codes.
#[derive(Default)]
pub struct Sums {
    annual: [u128; CODES.len()],
    peak: [u128; CODES.len()],
}

impl Sums {
    /// "adds as fractions what the rules above give that code from each source"
    pub fn add(&mut self, emission: &Emission) {
        self.annual[emission.code] += emission.annual;
        self.peak[emission.code] += emission.peak;
    }

    /// "Rounding happens once, after all sources are summed."
    pub fn figures(&self, counts: Counts) -> Answer {
        Answer {
            groups: counts.groups,
            stores: counts.stores,
            locomotives: counts.locomotives,
            annual: self.annual.map(|sum| figure(sum, ANNUAL_UNIT)),
            peak: self.peak.map(|sum| figure(sum, PEAK_UNIT)),
        }
    }
}

/// "The figure is the largest whole number of its units that isn't above the exact sum plus half a
/// unit." A file's sums stay far below 2^64 units: at most 1,023 sources of 10^15 units each.
fn figure(sum: u128, unit: u128) -> u64 {
    ((sum + unit / 2) / unit) as u64
}

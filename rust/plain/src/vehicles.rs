//! The rule of vehicle groups (01, "Vehicle rules"; 02, U2).

use crate::codes;
use crate::sums::Emission;
use crate::Refusal;

/// A vehicle group, with the ranges of 01, "Group", and of 02, U2.
#[derive(Clone, Copy, Debug, PartialEq, Eq)]
pub struct Group {
    /// 1 car, 2 truck, 3 bus.
    pub category: u32,
    /// 1 petrol, 2 diesel.
    pub fuel: u32,
    /// Bit 0 emission control done, bit 1 heated stand.
    pub flags: u32,
    /// N.
    pub vehicles: u32,
    /// N', most leaving in one hour.
    pub leaving: u32,
    /// a, percent.
    pub share: u32,
    /// Neutraliser factor for run and idle, percent.
    pub neutraliser: u32,
    /// Neutraliser factor for warm-up, percent.
    pub warm_up_neutraliser: u32,
    /// Tenths of a minute.
    pub idle_time: u32,
    /// Timed warm-up, "tenths of a minute, 1 to 250, or 0 for untimed".
    pub timed: u32,
    /// Metres: out from nearest, out from farthest, in to nearest, in to farthest.
    pub distances: [u32; 4],
    /// Days worked in each month, January first.
    pub days: [u32; 12],
}

/// The seven numbers of a pollutant, in ten-thousandths of a gram. Those of a period stand in the
/// order warm, transitional, cold.
#[derive(Clone, Copy, Debug, Default, PartialEq, Eq)]
pub struct Coefficients {
    /// Per minute.
    pub warm_up: [u32; 3],
    /// Per kilometre.
    pub run: [u32; 3],
    /// Per minute.
    pub idle: u32,
}

/// Monthly mean temperatures in tenths of a degree Celsius, January first.
pub type Temperatures = [i32; 12];

/// What a group gives for each of the six pollutants, or refusal 9, then 11.
pub fn group(
    group: &Group,
    temperatures: &Temperatures,
    coefficients: &[Coefficients; 6],
) -> Result<[Emission; 6], Refusal> {
    if !group.in_range()
        || !temperatures_in_range(temperatures)
        || !coefficients.iter().all(Coefficients::in_range)
    {
        return Err(Refusal { number: 9, slot: 0 });
    }
    if group.forbidden(coefficients) {
        return Err(Refusal {
            number: 11,
            slot: 0,
        });
    }
    Ok(group.emissions(temperatures, coefficients))
}

/// Places among the pollutants "1 CO, 2 hydrocarbons, 3 NO2, 4 soot, 5 SO2, 6 lead".
const SOOT: usize = 3;
const LEAD: usize = 5;

/// "days worked per month, each at most that month's length, February 29"
const MONTH_LENGTHS: [u32; 12] = [31, 29, 31, 30, 31, 30, 31, 31, 30, 31, 30, 31];

/// "Is each temperature from -600 to 600?"
pub(crate) fn temperatures_in_range(temperatures: &Temperatures) -> bool {
    temperatures.iter().all(|t| (-600..=600).contains(t))
}

/// "Period: above 5.0 warm, below -5.0 cold, else transitional." 0 warm, 1 transitional, 2 cold.
fn period(temperature: i32) -> usize {
    match temperature {
        51.. => 0,
        -50..=50 => 1,
        _ => 2,
    }
}

/// "Warm-up minutes (000 Table 9; edges by 003)", in minutes.
fn warm_up_minutes(category: u32, temperature: i32) -> u64 {
    let (car, truck_or_bus) = match temperature {
        51.. => (3, 4),
        -50..=50 => (4, 6),
        -100..=-51 => (10, 12),
        -150..=-101 => (15, 20),
        -200..=-151 => (15, 25),
        -250..=-201 => (20, 30),
        _ => (20, 30),
    };
    if category == 1 {
        car
    } else {
        truck_or_bus
    }
}

/// "Control factor", in percent, for CO, hydrocarbons, NO2, soot, SO2, lead.
fn control_factors(fuel: u32) -> [u64; 6] {
    match fuel {
        1 => [80, 90, 100, 100, 95, 95],
        _ => [90, 90, 100, 80, 95, 100],
    }
}

/// The pollutants' places in `CODES`. "Hydrocarbons count as 2704 for petrol and 2754 for diesel
/// (house rule). CO is 0337, NO2 0301, soot 0328, SO2 0330, lead 0184."
fn pollutant_codes(fuel: u32) -> [usize; 6] {
    let hydrocarbons = match fuel {
        1 => codes::PETROL_HYDROCARBONS,
        _ => codes::DIESEL_HYDROCARBONS,
    };
    [
        codes::CO,
        hydrocarbons,
        codes::NO2,
        codes::SOOT,
        codes::SO2,
        codes::LEAD,
    ]
}

impl Coefficients {
    /// "seven 4-byte numbers of 0 to 1,000,000"
    pub(crate) fn in_range(&self) -> bool {
        self.warm_up.iter().all(|&c| c <= 1_000_000)
            && self.run.iter().all(|&c| c <= 1_000_000)
            && self.idle <= 1_000_000
    }
}

impl Group {
    /// "3 category, 1 car, 2 truck, 3 bus" and on, to the days worked per month, and the timed
    /// warm-up: "Question 9 covers the byte."
    pub(crate) fn in_range(&self) -> bool {
        (1..=3).contains(&self.category)
            && (1..=2).contains(&self.fuel)
            && self.flags <= 3
            && (1..=10_000).contains(&self.vehicles)
            && self.leaving <= self.vehicles
            && self.share <= 100
            && self.neutraliser <= 100
            && self.warm_up_neutraliser <= 100
            && self.idle_time <= 250
            && self.timed <= 250
            && self.distances.iter().all(|&d| d <= 20_000)
            && self.days.iter().zip(MONTH_LENGTHS).all(|(&d, l)| d <= l)
    }

    /// "Is soot zero throughout for petrol, lead for diesel?", when no.
    pub(crate) fn forbidden(&self, coefficients: &[Coefficients; 6]) -> bool {
        let pollutant = if self.fuel == 1 { SOOT } else { LEAD };
        coefficients[pollutant] != Coefficients::default()
    }

    /// "bit 0 emission control done"
    fn controlled(&self) -> bool {
        self.flags & 1 != 0
    }

    /// "bit 1 heated stand"
    fn heated(&self) -> bool {
        self.flags & 2 != 0
    }

    /// Period and warm-up time, in tenths of a minute, of a month. "A heated stand has 1.5 minutes
    /// and warm-period coefficients all year (003)." "A timed value replaces the table and the
    /// heated stand's 1.5 minutes; the heated stand's warm coefficients stay."
    fn warm_up(&self, temperature: i32) -> (usize, u64) {
        let (period, untimed) = if self.heated() {
            (0, 15)
        } else {
            (
                period(temperature),
                warm_up_minutes(self.category, temperature) * 10,
            )
        };
        match self.timed {
            0 => (period, untimed),
            timed => (period, u64::from(timed)),
        }
    }

    /// "In = the last two terms with the in distances", and the same terms of Out with the out
    /// distances, in 1/(2 × 10^9) g: a run of 10^-4 g/km over half the sum of two distances in
    /// metres by percent is one; an idling of 10^-4 g/min by tenths by two percents is two.
    fn run_and_idle(
        &self,
        coefficients: &Coefficients,
        period: usize,
        distances: u32,
        control: u64,
    ) -> u64 {
        let neutraliser = u64::from(self.neutraliser);
        let run = u64::from(coefficients.run[period]) * u64::from(distances) * neutraliser;
        let idle =
            u64::from(coefficients.idle) * u64::from(self.idle_time) * control * neutraliser * 2;
        run + idle
    }

    /// (Out, In) of one vehicle, in 1/(2 × 10^9) g. Out is below 2 × 10^13, In below 10^13.
    fn out_and_in(
        &self,
        coefficients: &Coefficients,
        period: usize,
        minutes: u64,
        control: u64,
    ) -> (u64, u64) {
        let [out_nearest, out_farthest, in_nearest, in_farthest] = self.distances;
        let warm_up = u64::from(coefficients.warm_up[period])
            * minutes
            * control
            * u64::from(self.warm_up_neutraliser)
            * 2;
        let out_distances = out_nearest + out_farthest;
        let in_distances = in_nearest + in_farthest;
        (
            warm_up + self.run_and_idle(coefficients, period, out_distances, control),
            self.run_and_idle(coefficients, period, in_distances, control),
        )
    }

    /// "Annual grams: sum over months of (out + in) × a × N × days. Peak: out × N' / 3600, in the
    /// month of lowest temperature, whatever days are worked in it." By percent of a, annual grams
    /// count 1/(2 × 10^11) g, one annual unit; a peak counts 1/(7.2 × 10^12) g/s, 5 peak units.
    pub(crate) fn emissions(
        &self,
        temperatures: &Temperatures,
        coefficients: &[Coefficients; 6],
    ) -> [Emission; 6] {
        let control = if self.controlled() {
            control_factors(self.fuel)
        } else {
            [100; 6]
        };
        let year = self.year(temperatures, coefficients, &control);
        let lowest = temperatures.iter().copied().min().unwrap_or_default();
        let (period, minutes) = self.warm_up(lowest);
        let codes = pollutant_codes(self.fuel);
        std::array::from_fn(|p| {
            let (out, _) = self.out_and_in(&coefficients[p], period, minutes, control[p]);
            Emission {
                code: codes[p],
                annual: u128::from(year[p]) * u128::from(self.share * self.vehicles),
                peak: u128::from(out) * u128::from(self.leaving) * 5,
            }
        })
    }

    /// The sum over months of (out + in) × days of each pollutant: below 10^16.
    fn year(
        &self,
        temperatures: &Temperatures,
        coefficients: &[Coefficients; 6],
        control: &[u64; 6],
    ) -> [u64; 6] {
        let mut year = [0; 6];
        for (&temperature, &days) in temperatures.iter().zip(&self.days) {
            let (period, minutes) = self.warm_up(temperature);
            for (p, sum) in year.iter_mut().enumerate() {
                let (out, back) = self.out_and_in(&coefficients[p], period, minutes, control[p]);
                *sum += (out + back) * u64::from(days);
            }
        }
        year
    }
}

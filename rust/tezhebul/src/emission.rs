//! What a source gives, exactly, and how it is read from the numbers of the C interface.

use crate::ffi::EMISSION_NUMBERS;
use crate::Refusal;

/// Parts in a millionth of a tonne: the denominator of every year's mass.
pub const ANNUAL_DENOMINATOR: u64 = 20_000_000_000_000;

/// Parts in a ten-millionth of a gram per second: the denominator of every peak rate.
pub const PEAK_DENOMINATOR: u64 = 72_000_000;

/// What one source gives of one substance, exactly and not rounded.
#[derive(Clone, Copy, Debug, PartialEq, Eq)]
pub struct Emission {
    /// The substance code as a number: 337 is the code 0337.
    pub code: u16,
    /// The mass of a year, in millionths of a tonne, over [`ANNUAL_DENOMINATOR`].
    pub annual: Exact,
    /// The peak rate, in ten-millionths of a gram per second, over [`PEAK_DENOMINATOR`].
    pub peak: Exact,
}

/// A fraction: whole units, and a part of one more.
///
/// To add what several sources give of one code, add their numerators; the figure of the sum is
/// rounded once, at the end, and an exact half goes up:
///
/// ```
/// use tezhebul::{aspiration, Aspiration, ANNUAL_DENOMINATOR};
///
/// // 1 mg/m³, 1 litre a second, nothing captured, 111 hours a year
/// let fan = Aspiration { dust: 1, store: 1, concentration: 1, flow: 1, capture: 0, hours: 111 };
/// let given = aspiration(&fan).expect("each field is in range");
/// let denominator = u128::from(ANNUAL_DENOMINATOR);
/// let figure = |sum: u128| (sum + denominator / 2) / denominator;
/// assert_eq!(figure(given.annual.numerator()), 0);
/// assert_eq!(figure(2 * given.annual.numerator()), 1);
/// ```
#[derive(Clone, Copy, Debug, PartialEq, Eq)]
pub struct Exact {
    /// Whole units.
    pub whole: u64,
    /// Parts of a unit, fewer than `denominator`.
    pub part: u64,
    /// Parts in a unit.
    pub denominator: u64,
}

impl Exact {
    /// All of it in parts: the fraction is this over `denominator`. It always fits.
    pub fn numerator(&self) -> u128 {
        u128::from(self.whole) * u128::from(self.denominator) + u128::from(self.part)
    }

    fn read(whole: u64, part: u64, denominator: u64) -> Exact {
        assert!(part < denominator, "a part is less than one unit");
        Exact {
            whole,
            part,
            denominator,
        }
    }
}

impl Emission {
    fn read(numbers: &[u64; EMISSION_NUMBERS]) -> Emission {
        let [code, annual, annual_part, peak, peak_part] = *numbers;
        Emission {
            code: u16::try_from(code).expect("a code has four digits"),
            annual: Exact::read(annual, annual_part, ANNUAL_DENOMINATOR),
            peak: Exact::read(peak, peak_part, PEAK_DENOMINATOR),
        }
    }
}

/// The numbers of a rule's answer: number, slot, then `COUNT` emissions. `refusals` are the numbers
/// that this rule may refuse by.
pub(crate) fn read<const COUNT: usize>(
    numbers: &[u64],
    refusals: &[u64],
) -> Result<[Emission; COUNT], Refusal> {
    let [number, slot, rest @ ..] = numbers else {
        panic!("an answer has a number and a slot");
    };
    assert_eq!(*slot, 0, "a rule knows no slot");
    if *number != 0 {
        assert!(
            rest.iter().all(|&n| n == 0),
            "a refusal has every figure zero"
        );
        return Err(Refusal::read(*number, *slot, |asked| {
            refusals.contains(&asked)
        }));
    }
    let (emissions, after) = rest.as_chunks();
    assert_eq!(
        (emissions.len(), after.len()),
        (COUNT, 0),
        "{COUNT} emissions"
    );
    Ok(std::array::from_fn(|place| {
        Emission::read(&emissions[place])
    }))
}

#[cfg(test)]
mod tests {
    use super::*;

    const GIVEN: [u64; 7] = [0, 0, 152, 3, 7, 5, 9];

    fn read_one(numbers: &[u64]) -> Result<[Emission; 1], Refusal> {
        read(numbers, &[9])
    }

    fn with(place: usize, value: u64) -> [u64; 7] {
        let mut numbers = GIVEN;
        numbers[place] = value;
        numbers
    }

    #[test]
    fn an_emission() {
        let [given] = read_one(&GIVEN).unwrap();
        assert_eq!(given.code, 152);
        assert_eq!(given.annual.numerator(), 60_000_000_000_007);
        assert_eq!(given.peak.numerator(), 360_000_009);
    }

    #[test]
    fn the_largest_numerator() {
        let most = Exact::read(u64::MAX, u64::MAX - 1, u64::MAX);
        assert_eq!(most.numerator() / u128::from(u64::MAX), u64::MAX.into());
    }

    #[test]
    fn a_refusal() {
        let refused = Refusal { number: 9, slot: 0 };
        assert_eq!(read_one(&[9, 0, 0, 0, 0, 0, 0]), Err(refused));
    }

    #[test]
    #[should_panic(expected = "refused by 11, which is not asked")]
    fn another_refusal() {
        let _ = read_one(&[11, 0, 0, 0, 0, 0, 0]);
    }

    #[test]
    #[should_panic(expected = "a refusal has every figure zero")]
    fn a_refusal_with_a_figure() {
        let _ = read_one(&[9, 0, 0, 0, 0, 0, 1]);
    }

    #[test]
    #[should_panic(expected = "a rule knows no slot")]
    fn a_slot() {
        let _ = read_one(&with(1, 1));
    }

    #[test]
    #[should_panic(expected = "a code has four digits")]
    fn a_code_too_large() {
        let _ = read_one(&with(2, 65_536));
    }

    #[test]
    #[should_panic(expected = "a part is less than one unit")]
    fn an_annual_part_of_one() {
        let _ = read_one(&with(4, ANNUAL_DENOMINATOR));
    }

    #[test]
    #[should_panic(expected = "a part is less than one unit")]
    fn a_peak_part_of_one() {
        let _ = read_one(&with(6, PEAK_DENOMINATOR));
    }

    #[test]
    #[should_panic(expected = "1 emissions")]
    fn an_emission_too_many() {
        let _ = read_one(&[0; 12]);
    }
}

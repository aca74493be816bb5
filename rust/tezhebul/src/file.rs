//! The check, the answer and the listing of a slot file.

use crate::ffi::{self, CODES, NUMBERS};
use crate::Refusal;

/// Counts and figures of an accepted file. The figures stand by the codes 0152 0184 0301 0328 0330
/// 0337 2704 2754 2908 2909, each rounded once, after all sources are added.
#[derive(Clone, Copy, Debug, PartialEq, Eq)]
pub struct Answer {
    /// Vehicle groups.
    pub groups: u16,
    /// Store records: handling, standing and aspiration.
    pub stores: u16,
    /// Shunting locomotives.
    pub locomotives: u16,
    /// The mass of a year, in millionths of a tonne.
    pub annual: [u64; CODES],
    /// The peak rate, in ten-millionths of a gram per second.
    pub peak: [u64; CODES],
}

/// No listing is longer.
pub const LISTING_MOST: usize = 532;

/// The last question, and the one about a lent buffer, which only a listing asks.
const LAST_QUESTION: u64 = 14;
const BUFFER_QUESTION: u64 = 13;

/// Whether a listing asks this question.
fn of_listing(number: u64) -> bool {
    (1..=LAST_QUESTION).contains(&number)
}

/// Whether it is asked of a file whatever buffer is lent.
fn of_file(number: u64) -> bool {
    of_listing(number) && number != BUFFER_QUESTION
}

/// Whether the slot file is accepted; docs/FORMAT.md has its layout. Any bytes may be asked about.
/// Refused by 1 to 12 and 14.
pub fn check(file: &[u8]) -> Result<(), Refusal> {
    match ffi::check(file) {
        0 => Ok(()),
        word => Err(Refusal::read(
            u64::from(word >> 16),
            u64::from(word & 0xffff),
            of_file,
        )),
    }
}

/// The figures and counts of the slot file. Refused as by [`check`].
pub fn answer(file: &[u8]) -> Result<Answer, Refusal> {
    let mut numbers = [0; NUMBERS];
    let written = ffi::answer(file, &mut numbers);
    assert!(written, "there is room for every number");
    read(&numbers, of_file)
}

/// Writes the listing to the start of the buffer and returns its length; no byte behind it is
/// changed.
///
/// Refused as by [`check`], and then by 13 where the buffer is shorter than the listing:
/// [`LISTING_MOST`] bytes are always enough. A refusal changes no byte of the buffer.
pub fn list(file: &[u8], buffer: &mut [u8]) -> Result<usize, Refusal> {
    list_and_answer(file, buffer).map(|(length, _)| length)
}

/// [`list`], with the answer that is listed.
pub fn list_and_answer(file: &[u8], buffer: &mut [u8]) -> Result<(usize, Answer), Refusal> {
    let mut numbers = [0; NUMBERS];
    let length = ffi::list(file, buffer, &mut numbers);
    assert!(length <= buffer.len(), "the listing is in the buffer");
    let listed = read(&numbers, of_listing);
    assert_eq!(length == 0, listed.is_err(), "only a refusal has length 0");
    listed.map(|answer| (length, answer))
}

/// The numbers in the order of the header, where the library may refuse by those that are `asked`.
fn read(numbers: &[u64; NUMBERS], asked: fn(u64) -> bool) -> Result<Answer, Refusal> {
    let [number, slot, groups, stores, locomotives, figures @ ..] = numbers;
    if *number != 0 {
        assert!(
            numbers[2..].iter().all(|&n| n == 0),
            "a refusal has every figure and count zero"
        );
        return Err(Refusal::read(*number, *slot, asked));
    }
    assert_eq!(*slot, 0, "an accepted file has slot 0");
    Ok(Answer {
        groups: count(*groups),
        stores: count(*stores),
        locomotives: count(*locomotives),
        annual: std::array::from_fn(|code| figures[code]),
        peak: std::array::from_fn(|code| figures[CODES + code]),
    })
}

fn count(number: u64) -> u16 {
    u16::try_from(number).expect("a count is below 65,536")
}

#[cfg(test)]
mod tests {
    use super::*;

    fn refused_by(number: u64) -> [u64; NUMBERS] {
        let mut numbers = [0; NUMBERS];
        numbers[0] = number;
        numbers
    }

    #[test]
    fn each_number_in_its_place() {
        let mut numbers = std::array::from_fn(|place| place as u64);
        (numbers[0], numbers[1]) = (0, 0);
        let answer = read(&numbers, of_file).unwrap();
        let counts = (answer.groups, answer.stores, answer.locomotives);
        assert_eq!(counts, (2, 3, 4));
        assert_eq!(answer.annual, [5, 6, 7, 8, 9, 10, 11, 12, 13, 14]);
        assert_eq!(answer.peak, [15, 16, 17, 18, 19, 20, 21, 22, 23, 24]);
    }

    #[test]
    fn every_refusal() {
        for number in (1..=12).chain([14]) {
            assert!(read(&refused_by(number), of_file).is_err());
        }
        assert!(read(&refused_by(13), of_listing).is_err());
    }

    #[test]
    #[should_panic(expected = "refused by 13, which is not asked")]
    fn an_answer_refused_for_its_buffer() {
        let _ = read(&refused_by(13), of_file);
    }

    #[test]
    #[should_panic(expected = "refused by 15, which is not asked")]
    fn a_refusal_that_no_question_has() {
        let _ = read(&refused_by(15), of_listing);
    }

    #[test]
    #[should_panic(expected = "a refusal has every figure and count zero")]
    fn a_refusal_with_a_count() {
        let mut numbers = refused_by(14);
        numbers[4] = 1;
        let _ = read(&numbers, of_file);
    }
}

//! The inventory of a slot file, worked out from the papers alone with 128-bit integers: a separate
//! calculation to lay the library's answers beside. In a comment "01" is the scope paper, "02" the
//! change requests and "000" the methodology, and words in quotes are their own.

#![forbid(unsafe_code)]

mod codes;
mod listing;
mod locomotives;
mod slots;
mod stores;
mod sums;
mod vehicles;
mod walk;

pub use codes::CODES;
pub use listing::LONGEST;
pub use locomotives::{locomotive, Locomotive};
pub use stores::{aspiration, handling, standing, Aspiration, Bulk, Handling, Standing};
pub use sums::{Emission, ANNUAL_DENOMINATOR, PEAK_DENOMINATOR};
pub use vehicles::{group, Coefficients, Group, Temperatures};

use sums::Sums;
use walk::{walk, Source};

/// The question that is answered no, and its slot.
#[derive(Clone, Copy, Debug, PartialEq, Eq)]
pub struct Refusal {
    pub number: u8,
    pub slot: u16,
}

/// Counts and figures of an accepted file, by the places of `CODES`.
#[derive(Clone, Copy, Debug, PartialEq, Eq)]
pub struct Answer {
    pub groups: u16,
    pub stores: u16,
    pub locomotives: u16,
    /// Millionths of a tonne.
    pub annual: [u64; 10],
    /// Ten-millionths of a gram per second.
    pub peak: [u64; 10],
}

/// Questions 1 to 12 and 14, with nothing summed.
pub fn check(file: &[u8]) -> Result<(), Refusal> {
    walk(file, |_| ()).map(|_| ())
}

/// Questions 1 to 12 and 14, and the figures and counts of an accepted file.
pub fn answer(file: &[u8]) -> Result<Answer, Refusal> {
    let mut sums = Sums::default();
    let counts = walk(file, |source| match source {
        Source::Group(group, temperatures, coefficients) => {
            for emission in group.emissions(temperatures, coefficients) {
                sums.add(&emission);
            }
        }
        Source::Store(store) => sums.add(&store.emission()),
        Source::Locomotive(locomotive) => {
            for emission in locomotive.emissions() {
                sums.add(&emission);
            }
        }
    })?;
    Ok(sums.figures(counts))
}

/// Writes the listing to the start of the buffer and returns its length. "A refused listing has
/// length 0 and changes no byte of the buffer"; "Only a listing asks 13, last."
pub fn list(file: &[u8], buffer: &mut [u8]) -> Result<usize, Refusal> {
    let text = listing::listing(&answer(file)?);
    let listing = text.bytes();
    match buffer.get_mut(..listing.len()) {
        Some(start) => {
            start.copy_from_slice(listing);
            Ok(listing.len())
        }
        None => Err(Refusal {
            number: 13,
            slot: 0,
        }),
    }
}

/// What the program prints: "the listing, or `refused`, number and slot".
pub fn print(file: &[u8]) -> Vec<u8> {
    let text = match answer(file) {
        Ok(answer) => listing::listing(&answer),
        Err(refusal) => listing::refusal_line(refusal),
    };
    text.bytes().to_vec()
}

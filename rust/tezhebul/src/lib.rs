//! Tezhebul for Rust: what the vehicle yards, bulk stores, dust fans and shunting locomotives of a
//! boiler house give to the air, exactly, by the verified library.
//!
//! Of an inventory slot file in memory: [`check`] says whether it is accepted, [`answer`] gives the
//! figures, [`list`] writes the listing.
//!
//! ```
//! // slot 0 alone: format 1, one slot, no sources
//! let mut file = [0; 64];
//! file[0] = 1;
//! file[2] = 1;
//! assert_eq!(tezhebul::check(&file), Ok(()));
//!
//! let mut buffer = [0; tezhebul::LISTING_MOST];
//! let length = tezhebul::list(&file, &mut buffer).expect("the file is accepted");
//! assert!(buffer[..length].ends_with(b"\nsources 0 0 0\n"));
//!
//! file[2] = 2;
//! assert_eq!(tezhebul::check(&file), Err(tezhebul::Refusal { number: 3, slot: 0 }));
//! ```
//!
//! Of a single source, given by its values and without a slot file: [`handling`], [`standing`],
//! [`aspiration`], [`group`] and [`locomotive`] give its emissions as exact fractions.
//!
//! ```
//! use tezhebul::{handling, Bulk, Handling, Refusal};
//!
//! // coal that falls 2 metres, 1,200 kg in 20 minutes, at a wind of 2.0 m/s
//! let coal = Bulk {
//!     dust: 2,
//!     store: 1,
//!     material: 5,
//!     wind: 20,
//!     moisture: 50,
//!     grain: 10,
//!     openness: 1,
//!     amount: 1_200,
//! };
//! let given = handling(&Handling { bulk: coal, drop: 4 }).expect("each field is in range");
//! assert_eq!(given.code, 2908);
//! // 0.1764 grams per second, and no part of a ten-millionth more
//! assert_eq!((given.peak.whole, given.peak.part), (1_764_000, 0));
//! // 3.8940652 tonnes a year and a bit: 3,894,065 millionths of a tonne, and a part of one more
//! assert_eq!(given.annual.whole, 3_894_065);
//! assert!(given.annual.part > 0);
//!
//! let storm = Bulk { wind: 141, ..coal };
//! let given = handling(&Handling { bulk: storm, drop: 4 });
//! assert_eq!(given, Err(Refusal { number: 9, slot: 0 }));
//! ```
//!
//! Nothing is rounded or narrowed on the way in: each field has the type of the C interface,
//! include/tezhebul.h. A result that the library promises never to give is a panic here.

#![deny(unsafe_code)]

mod emission;
#[allow(unsafe_code)]
mod ffi;
mod file;
mod refusal;
mod rules;

pub use emission::{Emission, Exact, ANNUAL_DENOMINATOR, PEAK_DENOMINATOR};
pub use file::{answer, check, list, list_and_answer, Answer, LISTING_MOST};
pub use refusal::Refusal;
pub use rules::{
    aspiration, group, handling, locomotive, standing, Aspiration, Bulk, Coefficients, Group,
    Handling, Locomotive, Standing, CONTROLLED, HEATED,
};

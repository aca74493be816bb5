//! The substance codes, and the place of each in the listing.

/// The substance codes, in the order of the listing.
pub const CODES: [&str; 10] = [
    "0152", "0184", "0301", "0328", "0330", "0337", "2704", "2754", "2908", "2909",
];

pub const DUST_0152: usize = 0;
pub const LEAD: usize = 1;
pub const NO2: usize = 2;
pub const SOOT: usize = 3;
pub const SO2: usize = 4;
pub const CO: usize = 5;
pub const PETROL_HYDROCARBONS: usize = 6;
pub const DIESEL_HYDROCARBONS: usize = 7;
pub const DUST_2908: usize = 8;
pub const DUST_2909: usize = 9;

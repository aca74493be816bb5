//! The C interface of include/tezhebul.h; all unsafe code of the wrapper stands here.
//!
//! Each call hands over slices only, so no pointer is null and the memory behind it is the
//! caller's for the length of the call, which is what the header asks.

use crate::rules::{Aspiration, Bulk, Group, Handling, Locomotive, Standing};

/// TEZHEBUL_CODES
pub const CODES: usize = 10;

/// TEZHEBUL_NUMBERS
pub const NUMBERS: usize = 5 + 2 * CODES;

/// TEZHEBUL_EMISSION_NUMBERS
pub const EMISSION_NUMBERS: usize = 5;

/// TEZHEBUL_STORE_NUMBERS
pub const STORE_NUMBERS: usize = 2 + EMISSION_NUMBERS;

/// TEZHEBUL_EMISSIONS
pub const EMISSIONS: usize = 6;

/// TEZHEBUL_GROUP_NUMBERS
pub const GROUP_NUMBERS: usize = 2 + EMISSIONS * EMISSION_NUMBERS;

/// TEZHEBUL_LOCOMOTIVE_EMISSIONS
pub const LOCOMOTIVE_EMISSIONS: usize = 3;

/// TEZHEBUL_LOCOMOTIVE_NUMBERS
pub const LOCOMOTIVE_NUMBERS: usize = 2 + LOCOMOTIVE_EMISSIONS * EMISSION_NUMBERS;

/// TEZHEBUL_POLLUTANTS
pub const POLLUTANTS: usize = 6;

/// TEZHEBUL_COEFFICIENTS
pub const COEFFICIENTS: usize = 7 * POLLUTANTS;

extern "C" {
    fn tezhebul_check(file: *const u8, file_length: usize) -> u32;
    fn tezhebul_answer(
        file: *const u8,
        file_length: usize,
        out: *mut u64,
        out_length: usize,
    ) -> bool;
    fn tezhebul_list(
        file: *const u8,
        file_length: usize,
        buffer: *mut u8,
        buffer_length: usize,
        out: *mut u64,
        out_length: usize,
    ) -> usize;

    fn tezhebul_handling(
        dust: u8,
        store: u16,
        material: u8,
        wind: u16,
        moisture: u16,
        grain: u16,
        openness: u8,
        amount: u32,
        drop: u8,
        out: *mut u64,
        out_length: usize,
    ) -> bool;
    fn tezhebul_standing(
        dust: u8,
        store: u16,
        material: u8,
        wind: u16,
        moisture: u16,
        grain: u16,
        openness: u8,
        amount: u32,
        k6: u16,
        out: *mut u64,
        out_length: usize,
    ) -> bool;
    fn tezhebul_aspiration(
        dust: u8,
        store: u16,
        concentration: u32,
        flow: u32,
        capture: u16,
        hours: u16,
        out: *mut u64,
        out_length: usize,
    ) -> bool;
    fn tezhebul_group(
        category: u8,
        fuel: u8,
        flags: u8,
        vehicles: u16,
        leaving: u16,
        share: u8,
        running: u8,
        warming: u8,
        idle: u32,
        timed: u32,
        distances: *const u32,
        distances_length: usize,
        days: *const u8,
        days_length: usize,
        temperatures: *const i16,
        temperatures_length: usize,
        coefficients: *const u32,
        coefficients_length: usize,
        out: *mut u64,
        out_length: usize,
    ) -> bool;
    fn tezhebul_locomotive(
        model: u8,
        idle: u16,
        quarter: u16,
        half: u16,
        three_quarters: u16,
        full: u16,
        hours: u16,
        old: u8,
        zone: u8,
        out: *mut u64,
        out_length: usize,
    ) -> bool;
}

/// 0 of an accepted file, and else 65,536 times the refusal's number, plus its slot.
pub fn check(file: &[u8]) -> u32 {
    // SAFETY: the pointer and length are those of a slice that is only read.
    unsafe { tezhebul_check(file.as_ptr(), file.len()) }
}

/// False, and nothing written, where `out` has room for fewer than `NUMBERS`.
pub fn answer(file: &[u8], out: &mut [u64]) -> bool {
    // SAFETY: as in `check`; `out` is a slice of its own that may be written.
    unsafe { tezhebul_answer(file.as_ptr(), file.len(), out.as_mut_ptr(), out.len()) }
}

/// The length of the listing written, or 0.
pub fn list(file: &[u8], buffer: &mut [u8], out: &mut [u64]) -> usize {
    // SAFETY: as in `answer`; `buffer` and `out` are different slices that may be written.
    unsafe {
        tezhebul_list(
            file.as_ptr(),
            file.len(),
            buffer.as_mut_ptr(),
            buffer.len(),
            out.as_mut_ptr(),
            out.len(),
        )
    }
}

/// False, and nothing written, where `out` has room for fewer than `STORE_NUMBERS`.
pub fn handling(source: &Handling, out: &mut [u64]) -> bool {
    // SAFETY: the function is one of the header.
    unsafe { bulk(tezhebul_handling, &source.bulk, source.drop, out) }
}

/// The same of a standing record.
pub fn standing(source: &Standing, out: &mut [u64]) -> bool {
    // SAFETY: the function is one of the header.
    unsafe { bulk(tezhebul_standing, &source.bulk, source.k6, out) }
}

/// The same of an aspiration record.
pub fn aspiration(source: &Aspiration, out: &mut [u64]) -> bool {
    // SAFETY: as in `bulk`.
    unsafe {
        tezhebul_aspiration(
            source.dust,
            source.store,
            source.concentration,
            source.flow,
            source.capture,
            source.hours,
            out.as_mut_ptr(),
            out.len(),
        )
    }
}

/// False, and nothing written, where a slice has another length than twelve months and
/// `COEFFICIENTS`, or `out` has room for fewer than `GROUP_NUMBERS`.
pub fn group(source: &Group, temperatures: &[i16], coefficients: &[u32], out: &mut [u64]) -> bool {
    // SAFETY: each pointer and length are those of a slice; all but `out` are only read, and `out`
    // is a slice of its own that may be written.
    unsafe {
        tezhebul_group(
            source.category,
            source.fuel,
            source.flags,
            source.vehicles,
            source.leaving,
            source.share,
            source.running,
            source.warming,
            source.idle,
            source.timed,
            source.distances.as_ptr(),
            source.distances.len(),
            source.days.as_ptr(),
            source.days.len(),
            temperatures.as_ptr(),
            temperatures.len(),
            coefficients.as_ptr(),
            coefficients.len(),
            out.as_mut_ptr(),
            out.len(),
        )
    }
}

/// False, and nothing written, where `out` has room for fewer than `LOCOMOTIVE_NUMBERS`.
pub fn locomotive(source: &Locomotive, out: &mut [u64]) -> bool {
    let [idle, quarter, half, three_quarters, full] = source.shares;
    // SAFETY: as in `bulk`.
    unsafe {
        tezhebul_locomotive(
            source.model,
            idle,
            quarter,
            half,
            three_quarters,
            full,
            source.hours,
            source.old,
            source.zone,
            out.as_mut_ptr(),
            out.len(),
        )
    }
}

/// `tezhebul_handling`, whose last value is the drop, or `tezhebul_standing`, whose last is K6.
type BulkRule<Last> =
    unsafe extern "C" fn(u8, u16, u8, u16, u16, u16, u8, u32, Last, *mut u64, usize) -> bool;

/// # Safety
///
/// `rule` is a function of the header.
unsafe fn bulk<Last>(rule: BulkRule<Last>, bulk: &Bulk, last: Last, out: &mut [u64]) -> bool {
    // SAFETY: the pointer and length are those of a slice that may be written.
    unsafe {
        rule(
            bulk.dust,
            bulk.store,
            bulk.material,
            bulk.wind,
            bulk.moisture,
            bulk.grain,
            bulk.openness,
            bulk.amount,
            last,
            out.as_mut_ptr(),
            out.len(),
        )
    }
}

#[cfg(test)]
mod tests {
    use super::*;

    /// Slot 0 alone: format 1, one slot, no sources.
    fn no_sources() -> [u8; 64] {
        let mut file = [0; 64];
        file[0] = 1;
        file[2] = 1;
        file
    }

    #[test]
    fn too_few_numbers() {
        let mut out = [7; NUMBERS - 1];
        assert!(!answer(&no_sources(), &mut out));
        assert_eq!(out, [7; NUMBERS - 1]);
    }

    #[test]
    fn only_the_first_numbers_are_written() {
        let mut out = [7; NUMBERS + 2];
        assert!(answer(&no_sources(), &mut out));
        assert_eq!(out[..NUMBERS], [0; NUMBERS]);
        assert_eq!(out[NUMBERS..], [7; 2]);
    }

    #[test]
    fn a_listing_without_its_numbers() {
        let mut buffer = [b'~'; crate::LISTING_MOST];
        let mut out = [7; NUMBERS - 1];
        let length = list(&no_sources(), &mut buffer, &mut out);
        assert!(buffer[..length].ends_with(b"\nsources 0 0 0\n"));
        assert_eq!(buffer[length..], [b'~'; crate::LISTING_MOST][length..]);
        assert_eq!(out, [7; NUMBERS - 1]);
    }

    const FAN: Aspiration = Aspiration {
        dust: 1,
        store: 1,
        concentration: 500,
        flow: 2_000,
        capture: 9_500,
        hours: 1_000,
    };

    #[test]
    fn too_few_numbers_of_a_store_record() {
        let mut out = [7; STORE_NUMBERS - 1];
        assert!(!aspiration(&FAN, &mut out));
        assert_eq!(out, [7; STORE_NUMBERS - 1]);
        assert!(!aspiration(&FAN, &mut []));
    }

    #[test]
    fn only_the_first_numbers_of_a_store_record() {
        let mut out = [7; STORE_NUMBERS + 2];
        assert!(aspiration(&FAN, &mut out));
        assert_eq!(out, [0, 0, 152, 180_000, 0, 500_000, 0, 7, 7]);
    }

    const CAR: Group = Group {
        category: 1,
        fuel: 1,
        flags: 0,
        vehicles: 1,
        leaving: 0,
        share: 0,
        running: 0,
        warming: 0,
        idle: 0,
        timed: 0,
        distances: [0; 4],
        days: [0; 12],
    };

    #[test]
    fn wrong_lengths_of_a_group() {
        for (months, numbers, room) in [(11, 42, 32), (13, 42, 32), (12, 41, 32), (12, 42, 31)] {
            let mut out = vec![7; room];
            assert!(!group(&CAR, &vec![0; months], &vec![0; numbers], &mut out));
            assert_eq!(out, vec![7; room]);
        }
    }

    #[test]
    fn only_the_first_numbers_of_a_group() {
        let mut out = [7; GROUP_NUMBERS + 1];
        assert!(group(&CAR, &[0; 12], &[0; COEFFICIENTS], &mut out));
        let codes = [337, 2704, 301, 328, 330, 184];
        assert_eq!(out[..2], [0; 2]);
        for (given, code) in out[2..].chunks_exact(EMISSION_NUMBERS).zip(codes) {
            assert_eq!(given, [code, 0, 0, 0, 0]);
        }
        assert_eq!(out[GROUP_NUMBERS], 7);
    }

    /// All the time at 75 % of the power; a kilogram an hour is 1/3.6 g/s.
    const TGM4: Locomotive = Locomotive {
        model: 2,
        shares: [0, 0, 0, 1_000, 0],
        hours: 10,
        old: 0,
        zone: 2,
    };

    #[test]
    fn too_few_numbers_of_a_locomotive() {
        let mut out = [7; LOCOMOTIVE_NUMBERS - 1];
        assert!(!locomotive(&TGM4, &mut out));
        assert_eq!(out, [7; LOCOMOTIVE_NUMBERS - 1]);
        assert!(!locomotive(&TGM4, &mut []));
    }

    #[test]
    fn only_the_first_numbers_of_a_locomotive() {
        let mut out = [7; LOCOMOTIVE_NUMBERS + 1];
        assert!(locomotive(&TGM4, &mut out));
        assert_eq!(out[..2], [0; 2]);
        assert_eq!(out[2..7], [337, 8_960, 0, 3_555_555, 40_000_000]);
        assert_eq!(out[7..12], [301, 42_000, 0, 16_666_666, 48_000_000]);
        assert_eq!(out[12..17], [328, 1_540, 0, 611_111, 8_000_000]);
        assert_eq!(out[LOCOMOTIVE_NUMBERS], 7);
    }
}

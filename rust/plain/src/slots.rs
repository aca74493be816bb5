//! Reading the fields of a slot (01, "The slot file"; 02, U1 and U2).

use crate::locomotives::Locomotive;
use crate::stores::{Aspiration, Bulk, Handling, Standing, Store};
use crate::vehicles::{Coefficients, Group, Temperatures};

/// "Slots of 64 bytes"
pub const SLOT: usize = 64;

pub type Slot = [u8; SLOT];

fn byte(slot: &Slot, at: usize) -> u32 {
    u32::from(slot[at])
}

/// "numbers are unsigned, little-endian"
fn number2(slot: &Slot, at: usize) -> u16 {
    u16::from_le_bytes([slot[at], slot[at + 1]])
}

fn number4(slot: &Slot, at: usize) -> u32 {
    u32::from_le_bytes([slot[at], slot[at + 1], slot[at + 2], slot[at + 3]])
}

fn wide2(slot: &Slot, at: usize) -> u32 {
    u32::from(number2(slot, at))
}

fn zero(bytes: &[u8]) -> bool {
    bytes.iter().all(|&byte| byte == 0)
}

/// Slot 0, "0..1 format number"
pub fn format(slot: &Slot) -> u16 {
    number2(slot, 0)
}

/// Slot 0, "2..3 count of all slots"
pub fn count(slot: &Slot) -> u16 {
    number2(slot, 2)
}

/// Slot 0, "4..5 first group"
pub fn first_group(slot: &Slot) -> u16 {
    number2(slot, 4)
}

/// Slot 0, "6..7 first store record"
pub fn first_store(slot: &Slot) -> u16 {
    number2(slot, 6)
}

/// Slot 0, "8..31 the twelve monthly mean temperatures as signed 16-bit tenths"
pub fn temperatures(slot: &Slot) -> Temperatures {
    std::array::from_fn(|month| {
        i32::from(i16::from_le_bytes([
            slot[8 + 2 * month],
            slot[9 + 2 * month],
        ]))
    })
}

/// Slot 0, "32..33 become the first locomotive slot"
pub fn first_locomotive(slot: &Slot) -> u16 {
    number2(slot, 32)
}

/// "Are bytes 32..63 of slot 0 zero?", where "question 4 skips the two bytes" of the first
/// locomotive slot.
pub fn head_rest_zero(slot: &Slot) -> bool {
    zero(&slot[34..])
}

/// "each slot's next index (0..1)"
pub fn next(slot: &Slot) -> u16 {
    number2(slot, 0)
}

/// Byte 2: 1 group, 2 coefficients, 3 handling, 4 standing, 5 aspiration, 6 locomotive.
pub fn kind(slot: &Slot) -> u8 {
    slot[2]
}

/// Coefficients, "3 pollutant"
pub fn pollutant(slot: &Slot) -> u8 {
    slot[3]
}

/// Group, "34..35 first coefficient slot"
pub fn first_coefficients(slot: &Slot) -> u16 {
    number2(slot, 34)
}

/// "Group (byte 2 = 1): 3 category", and on to "22..33 days worked per month"; "Group byte 36 holds
/// tenths of a minute".
pub fn group(slot: &Slot) -> Group {
    Group {
        category: byte(slot, 3),
        fuel: byte(slot, 4),
        flags: byte(slot, 5),
        vehicles: wide2(slot, 6),
        leaving: wide2(slot, 8),
        share: byte(slot, 10),
        neutraliser: byte(slot, 11),
        warm_up_neutraliser: byte(slot, 12),
        idle_time: byte(slot, 13),
        timed: byte(slot, 36),
        distances: std::array::from_fn(|i| wide2(slot, 14 + 2 * i)),
        days: std::array::from_fn(|month| byte(slot, 22 + month)),
    }
}

/// "Bytes not named are zero", of a group.
pub fn group_rest_zero(slot: &Slot) -> bool {
    zero(&slot[37..])
}

/// "Then from 4 seven 4-byte numbers": warm-up in three periods, run in three, idle.
pub fn coefficients(slot: &Slot) -> Coefficients {
    Coefficients {
        warm_up: std::array::from_fn(|period| number4(slot, 4 + 4 * period)),
        run: std::array::from_fn(|period| number4(slot, 16 + 4 * period)),
        idle: number4(slot, 28),
    }
}

/// "Bytes not named are zero", of a coefficient slot.
pub fn coefficients_rest_zero(slot: &Slot) -> bool {
    zero(&slot[32..])
}

/// "Store record (byte 2 = 3 handling, 4 standing, 5 aspiration)", or none for another kind.
pub fn store(slot: &Slot) -> Option<Store> {
    match kind(slot) {
        3 => Some(Store::Handling(handling(slot))),
        4 => Some(Store::Standing(standing(slot))),
        5 => Some(Store::Aspiration(aspiration(slot))),
        _ => None,
    }
}

/// "Handling and standing: 6 material" and on.
fn bulk(slot: &Slot) -> Bulk {
    Bulk {
        dust: byte(slot, 3),
        store: wide2(slot, 4),
        material: byte(slot, 6),
        wind: wide2(slot, 8),
        moisture: wide2(slot, 10),
        grain: wide2(slot, 12),
        openness: byte(slot, 14),
        amount: number4(slot, 20),
    }
}

/// "Handling only: 15 drop class".
fn handling(slot: &Slot) -> Handling {
    Handling {
        bulk: bulk(slot),
        drop: byte(slot, 15),
    }
}

/// "Standing only: 16..17 K6".
fn standing(slot: &Slot) -> Standing {
    Standing {
        bulk: bulk(slot),
        k6: wide2(slot, 16),
    }
}

/// "Aspiration: 8..11 dust C", "12..15 gas V", "16..17 capture", "18..19 hours".
fn aspiration(slot: &Slot) -> Aspiration {
    Aspiration {
        dust: byte(slot, 3),
        store: wide2(slot, 4),
        concentration: number4(slot, 8),
        gas: number4(slot, 12),
        capture: wide2(slot, 16),
        hours: wide2(slot, 18),
    }
}

/// "Bytes not named are zero", of a store record of each kind.
pub fn store_rest_zero(slot: &Slot, store: &Store) -> bool {
    match store {
        Store::Handling(_) => slot[7] == 0 && zero(&slot[16..20]) && zero(&slot[24..]),
        Store::Standing(_) => {
            slot[7] == 0 && slot[15] == 0 && zero(&slot[18..20]) && zero(&slot[24..])
        }
        Store::Aspiration(_) => zero(&slot[6..8]) && zero(&slot[20..]),
    }
}

/// "Kind 6 has 3 type", "4..13 five 16-bit time shares", "14..15 hours", 16 the age mark, "17 zone".
pub fn locomotive(slot: &Slot) -> Locomotive {
    Locomotive {
        model: byte(slot, 3),
        shares: std::array::from_fn(|mode| wide2(slot, 4 + 2 * mode)),
        hours: wide2(slot, 14),
        old: byte(slot, 16),
        zone: byte(slot, 17),
    }
}

/// "Bytes not named are zero", of a locomotive.
pub fn locomotive_rest_zero(slot: &Slot) -> bool {
    zero(&slot[18..])
}

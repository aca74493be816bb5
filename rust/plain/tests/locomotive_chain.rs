//! The locomotive chain of a file: its questions, its count and its figures.

use plain::{answer, check, print, Refusal};

const SLOT: usize = 64;

/// TGM6 with the shares of Table 22, 1,000 hours, not old, in zone 2.
const TGM6: [u8; 18] = [
    0, 0, 6, 1, 0xaf, 2, 201, 0, 89, 0, 15, 0, 8, 0, 0xe8, 3, 0, 2,
];

/// A fan of store 1 that gives nothing.
const FAN: [u8; 6] = [0, 0, 5, 1, 1, 0];

fn put(file: &mut [u8], slot: usize, at: usize, bytes: &[u8]) {
    let start = slot * SLOT + at;
    file[start..start + bytes.len()].copy_from_slice(bytes);
}

/// Slot 1 is a fan, slots 2 and 3 are locomotives, the chain going from 3 to 2.
fn yard() -> Vec<u8> {
    let mut file = vec![0; 4 * SLOT];
    put(&mut file, 0, 0, &[1, 0, 4, 0, 0, 0, 1, 0]);
    put(&mut file, 0, 32, &[3, 0]);
    put(&mut file, 1, 0, &FAN);
    put(&mut file, 2, 0, &TGM6);
    put(&mut file, 3, 0, &TGM6);
    put(&mut file, 3, 0, &[2, 0]);
    file
}

/// The yard with some bytes of a slot changed.
fn with(slot: usize, at: usize, bytes: &[u8]) -> Vec<u8> {
    let mut file = yard();
    put(&mut file, slot, at, bytes);
    file
}

#[track_caller]
fn assert_refused(file: &[u8], number: u8, slot: u16) {
    assert_eq!(check(file), Err(Refusal { number, slot }));
    assert_eq!(answer(file), Err(Refusal { number, slot }));
}

#[test]
fn counted_and_summed() {
    let answer = answer(&yard()).unwrap();
    let counts = (answer.groups, answer.stores, answer.locomotives);
    assert_eq!(counts, (0, 1, 2));
    let mut annual = [0; 10];
    let mut peak = [0; 10];
    // 0301, 0328 and 0337, twice what one gives
    (annual[2], annual[3], annual[5]) = (8_588_496, 68_894, 1_326_402);
    (peak[2], peak[3], peak[5]) = (84_500_000, 2_111_111, 22_944_444);
    assert_eq!((answer.annual, answer.peak), (annual, peak));
    assert!(print(&yard()).ends_with(b"\nsources 0 1 2\n"));
}

#[test]
fn six_at_the_slot_that_holds_the_link() {
    assert_refused(&with(0, 32, &[4, 0]), 6, 0);
    assert_refused(&with(0, 32, &[3, 1]), 6, 0);
    assert_refused(&with(3, 0, &[0, 4]), 6, 3);
}

/// A slot that already is a store record or a locomotive on this walk.
#[test]
fn seven() {
    assert_refused(&with(0, 32, &[1]), 7, 1);
    assert_refused(&with(2, 0, &[1]), 7, 1);
    assert_refused(&with(2, 0, &[2]), 7, 2);
    assert_refused(&with(2, 0, &[3]), 7, 3);
}

#[test]
fn eight() {
    assert_refused(&with(2, 2, &[5]), 8, 2);
    assert_refused(&with(2, 2, &[7]), 8, 2);
    // the store chain comes first and has no place for a locomotive
    assert_refused(&with(1, 0, &[2]), 8, 2);
    assert_refused(&with(0, 4, &[3]), 8, 3);
}

#[test]
fn nine_before_fourteen() {
    assert_refused(&with(2, 3, &[5]), 9, 2);
    assert_refused(&with(2, 12, &[0xe9, 3]), 9, 2);
    assert_refused(&with(2, 16, &[2]), 9, 2);
    for at in 18..SLOT {
        assert_refused(&with(2, at, &[1]), 9, 2);
    }
    assert_refused(&with(2, 12, &[9]), 14, 2);
    assert_refused(&with(3, 4, &[0, 0]), 14, 3);
}

#[test]
fn twelve_after_the_three_chains() {
    assert_refused(&with(0, 32, &[2]), 12, 3);
    assert_refused(&with(0, 32, &[0]), 12, 2);
    // slot 1 is not reached, but 14 comes before
    let mut file = with(0, 6, &[0]);
    put(&mut file, 2, 12, &[9]);
    assert_refused(&file, 14, 2);
}

#[test]
fn four_from_byte_34() {
    for at in 34..SLOT {
        assert_refused(&with(0, at, &[1]), 4, 0);
    }
}

//! Slot files: the check, the answer and the listing of the examples in the repository.

use std::fs;
use std::path::Path;

use tezhebul::{answer, check, list, list_and_answer, Answer, Refusal, LISTING_MOST};

fn stored(path: &str) -> Vec<u8> {
    let root = Path::new(env!("CARGO_MANIFEST_DIR")).join("../..");
    fs::read(root.join(path)).expect("the example is in the repository")
}

fn refused<T>(number: u8, slot: u16) -> Result<T, Refusal> {
    Err(Refusal { number, slot })
}

/// Row B of the scope paper: one group that gives CO alone.
fn answer_of_b() -> Answer {
    Answer {
        groups: 1,
        stores: 0,
        locomotives: 0,
        annual: [0, 0, 0, 0, 0, 24_000, 0, 0, 0, 0],
        peak: [0, 0, 0, 0, 0, 177_778, 0, 0, 0, 0],
    }
}

#[test]
fn accepted() {
    let file = stored("crates/inventory/stdin");
    assert_eq!(check(&file), Ok(()));
    assert_eq!(answer(&file), Ok(answer_of_b()));
}

#[test]
fn listed() {
    for (file, listing) in [
        ("crates/inventory/stdin", "crates/inventory/stdout"),
        ("examples/tikhvin.slots", "examples/tikhvin.listing"),
    ] {
        let listing = stored(listing);
        let mut buffer = [b'~'; LISTING_MOST];
        let length = list(&stored(file), &mut buffer).unwrap();
        assert_eq!(buffer[..length], listing, "{file}");
        assert!(buffer[length..].iter().all(|&byte| byte == b'~'), "{file}");
    }
}

#[test]
fn a_buffer_as_long_as_the_listing_and_one_byte_short() {
    let file = stored("crates/inventory/stdin");
    let listing = stored("crates/inventory/stdout");
    let mut buffer = vec![b'~'; listing.len()];
    let listed = list_and_answer(&file, &mut buffer);
    assert_eq!(listed, Ok((listing.len(), answer_of_b())));
    assert_eq!(buffer, listing);
    let mut short = vec![b'~'; listing.len() - 1];
    assert_eq!(list(&file, &mut short), refused(13, 0));
    assert!(short.iter().all(|&byte| byte == b'~'));
    assert_eq!(list(&file, &mut []), refused(13, 0));
}

#[test]
fn an_empty_slice() {
    assert_eq!(check(&[]), refused(1, 0));
    assert_eq!(answer(&[]), refused(1, 0));
    assert_eq!(list(&[], &mut [b'~'; LISTING_MOST]), refused(1, 0));
    assert_eq!(list(&[], &mut []), refused(1, 0));
}

/// Row B with byte 36 of its group, slot 1: 7.0 minutes by 4 g and 4 g more out, 4 g in.
#[test]
fn a_timed_warm_up() {
    let mut file = stored("crates/inventory/stdin");
    file[64 + 36] = 70;
    let mut timed = answer_of_b();
    (timed.annual[5], timed.peak[5]) = (43_200, 355_556);
    assert_eq!(answer(&file), Ok(timed));
    file[64 + 36] = 251;
    assert_eq!(answer(&file), refused(9, 1));
    file[64 + 36..64 + 38].copy_from_slice(&[0, 1]);
    assert_eq!(answer(&file), refused(9, 1));
}

/// The group's category, byte 3 of slot 1, is made 4.
#[test]
fn refused_by_number_and_slot() {
    let mut file = stored("crates/inventory/stdin");
    file[64 + 3] = 4;
    let mut buffer = [b'~'; LISTING_MOST];
    assert_eq!(check(&file), refused(9, 1));
    assert_eq!(answer(&file), refused(9, 1));
    assert_eq!(list(&file, &mut buffer), refused(9, 1));
    assert_eq!(buffer, [b'~'; LISTING_MOST]);
}

//! What the files drawn are refused by, as the plain calculation says.

use std::collections::BTreeSet;

use inputs::{input, Input};
use plain::{answer, check, Refusal};

const SEED: u64 = 1;
const FILES: u64 = 20_000;

const GROUP: u8 = 1;
const COEFFICIENTS: u8 = 2;
const STORES: [u8; 3] = [3, 4, 5];
const LOCOMOTIVE: u8 = 6;

/// In a group: its flags and the one of a heated stand, and its timed warm-up.
const FLAGS: usize = 5;
const HEATED: u8 = 2;
const TIMED: usize = 36;

fn inputs() -> impl Iterator<Item = Input> {
    (0..FILES).map(|index| input(SEED, index))
}

/// Refused files.
fn refused() -> impl Iterator<Item = (Vec<u8>, Refusal)> {
    inputs().filter_map(|input| {
        check(&input.file)
            .err()
            .map(|refusal| (input.file, refusal))
    })
}

/// The kind of the slot that a refusal names; 0 for slot 0.
fn kind(file: &[u8], refusal: Refusal) -> u8 {
    match refusal.slot {
        0 => 0,
        slot => file[64 * usize::from(slot) + 2],
    }
}

/// Whether the refusal comes from the locomotive chain: without it the file has another, or none.
fn on_locomotive_chain(file: &[u8], refusal: Refusal) -> bool {
    let mut without = file.to_vec();
    if let Some(first) = without.get_mut(32..34) {
        first.fill(0);
    }
    check(&without) != Err(refusal)
}

#[test]
fn a_sound_file_is_accepted_and_its_twin_has_the_same_answer() {
    let (mut twins, mut groups, mut stores, mut locomotives) = (0, 0, 0, 0);
    for input in inputs().filter(|input| input.sound) {
        let first = answer(&input.file).expect("a sound file");
        let Some(twin) = input.twin else {
            continue;
        };
        assert_eq!(answer(&twin), Ok(first));
        twins += 1;
        groups += u64::from(first.groups);
        stores += u64::from(first.stores);
        locomotives += u64::from(first.locomotives);
    }
    assert!([twins, groups, stores, locomotives]
        .iter()
        .all(|&count| count > 1_000));
}

#[test]
fn every_number() {
    let numbers: BTreeSet<u8> = refused().map(|(_, refusal)| refusal.number).collect();
    assert_eq!(numbers, (1..=12).chain([14]).collect());
}

/// Of accepted groups, heated and not, half are untimed, and many are timed at an end of the range.
#[test]
fn timed_warm_ups() {
    let mut met = [[0; 256]; 2];
    for input in inputs().filter(|input| input.sound) {
        let slots = input.file.chunks(64).skip(1);
        for group in slots.filter(|slot| slot[2] == GROUP) {
            let heated = usize::from(group[FLAGS] & HEATED != 0);
            met[heated][usize::from(group[TIMED])] += 1;
        }
    }
    for groups in met {
        let all: u32 = groups.iter().sum();
        assert!((4 * all..6 * all).contains(&(10 * groups[0])));
        for edge in [1, 250] {
            assert!(groups[edge] > all / 50, "{} of {all}", groups[edge]);
        }
        assert!(groups[..=250].iter().filter(|&&count| count > 0).count() > 200);
    }
}

/// 9 at a group by a timed warm-up past its range, and by the bytes behind it.
#[test]
fn nine_from_byte_36() {
    let (mut past, mut behind) = (BTreeSet::new(), BTreeSet::new());
    for (file, refusal) in refused() {
        if refusal.number == 9 && kind(&file, refusal) == GROUP {
            let slot = &file[64 * usize::from(refusal.slot)..][..64];
            past.extend((251..=255).filter(|&tenths| tenths == slot[TIMED]));
            behind.extend((37..64).filter(|&at| slot[at] != 0));
        }
    }
    assert_eq!(past, (251..=255).collect());
    assert!(behind.contains(&37) && behind.len() > 20, "{behind:?}");
}

/// Each question of the locomotive chain, 7 with a slot of each chain.
#[test]
fn the_locomotive_chain() {
    let mut met = BTreeSet::new();
    for (file, refusal) in refused() {
        if on_locomotive_chain(&file, refusal) {
            met.insert((refusal.number, kind(&file, refusal)));
        }
    }
    for store in STORES {
        assert!(met.contains(&(7, store)), "7 at kind {store}");
        assert!(met.contains(&(8, store)), "8 at kind {store}");
    }
    for (number, kind) in [
        (6, 0),
        (6, LOCOMOTIVE),
        (7, GROUP),
        (7, LOCOMOTIVE),
        (8, 0),
        (8, GROUP),
        (8, COEFFICIENTS),
        (9, LOCOMOTIVE),
        (14, LOCOMOTIVE),
    ] {
        assert!(met.contains(&(number, kind)), "{number} at kind {kind}");
    }
}

/// A locomotive that no chain reaches, and one that another chain leads to.
#[test]
fn locomotives_of_no_chain_and_of_another() {
    let mut met = BTreeSet::new();
    for (file, refusal) in refused() {
        if kind(&file, refusal) == LOCOMOTIVE && !on_locomotive_chain(&file, refusal) {
            met.insert(refusal.number);
        }
    }
    assert!(met.contains(&8), "8 at a locomotive");
    assert!(met.contains(&12), "12 at a locomotive");
}

//! Slot files by seed: sound ones, and ones damaged in the ways that the questions ask about.

#![forbid(unsafe_code)]

mod damage;
mod fields;
mod layout;
mod locomotives;
mod plant;
mod random;
mod sources;

pub use layout::{lay_out, Layout};
pub use plant::{plant, Size};
pub use random::Random;
pub use sources::Inventory;

/// A file to try.
pub struct Input {
    pub file: Vec<u8>,
    /// The same sources laid out in another way.
    pub twin: Option<Vec<u8>>,
    /// Whether the file is as it was laid out, so that it must be accepted.
    pub sound: bool,
}

/// File `index` of `seed`; it depends on nothing else.
pub fn input(seed: u64, index: u64) -> Input {
    let mut random = Random::new(seed, index);
    let inventory = Inventory::draw(&mut random);
    let mut layout = lay_out(&mut random, &inventory);
    if random.once_in(2) {
        let twin = random
            .once_in(4)
            .then(|| lay_out(&mut random, &inventory).file);
        return Input {
            file: layout.file,
            twin,
            sound: true,
        };
    }
    let times = random.pick(&[1, 1, 1, 1, 1, 2, 2, 3]);
    for _ in 0..times {
        damage::damage(&mut random, &mut layout);
    }
    Input {
        file: layout.file,
        twin: None,
        sound: false,
    }
}

#[cfg(test)]
mod tests {
    use super::*;

    #[test]
    fn a_file_depends_on_seed_and_index_alone() {
        let backward: Vec<Vec<u8>> = (0..200).rev().map(|index| input(7, index).file).collect();
        for (index, file) in backward.iter().rev().enumerate() {
            assert!(*file == input(7, index as u64).file, "index {index}");
        }
        assert!(input(7, 1).file != input(8, 1).file);
    }

    #[test]
    fn a_sound_file_is_of_whole_slots_with_their_count() {
        for input in (0..2_000).map(|index| input(1, index)) {
            for file in [Some(&input.file), input.twin.as_ref()]
                .into_iter()
                .flatten()
            {
                if input.sound {
                    let count = usize::from(file[2]) + 256 * usize::from(file[3]);
                    assert!((1..=1_024).contains(&count));
                    assert_eq!(file.len(), 64 * count);
                }
            }
        }
    }
}

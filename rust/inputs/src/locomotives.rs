//! Sound locomotives.

use crate::fields::{write, Slot, Style, LOCOMOTIVE, SHARES};
use crate::random::Random;
use crate::sources::drawn;

/// Thousandths of the time that make up all of it.
const WHOLE: u32 = 1_000;

/// The two rows of the methodology's Table 22.
const USUAL: [[u32; 5]; 2] = [[687, 201, 89, 15, 8], [701, 194, 85, 13, 7]];

/// A locomotive without a link.
pub fn locomotive(random: &mut Random, style: Style) -> Slot {
    let mut slot = drawn(random, LOCOMOTIVE, style);
    for (field, share) in SHARES.iter().zip(shares(random, style)) {
        write(&mut slot, field.at, field.width, share);
    }
    slot
}

/// Five shares that total 1,000: the usual ones, equal ones, all in one mode, or any.
fn shares(random: &mut Random, style: Style) -> [u32; 5] {
    match (style, random.below(8)) {
        (Style::Largest, _) => [0, 0, 0, 0, WHOLE],
        (_, 0) => random.pick(&USUAL),
        (_, 1) => [WHOLE / 5; 5],
        (_, 2) => {
            let mut shares = [0; 5];
            shares[random.below(5)] = WHOLE;
            shares
        }
        _ => any_shares(random),
    }
}

/// The whole cut in five at four places; up to three times what one mode has goes to another.
fn any_shares(random: &mut Random) -> [u32; 5] {
    let mut cuts: [u32; 4] = std::array::from_fn(|_| random.within(0, WHOLE));
    cuts.sort();
    let [first, second, third, fourth] = cuts;
    let mut shares = [
        first,
        second - first,
        third - second,
        fourth - third,
        WHOLE - fourth,
    ];
    for _ in 0..random.below(4) {
        let share = std::mem::take(&mut shares[random.below(5)]);
        shares[random.below(5)] += share;
    }
    shares
}

#[cfg(test)]
mod tests {
    use super::*;
    use crate::fields::read2;

    #[test]
    fn shares_total_1000_and_any_mode_may_be_unused() {
        let mut random = Random::new(1, 1);
        let mut unused = [false; 5];
        for style in [Style::Mixed, Style::Round, Style::Small, Style::Largest] {
            for _ in 0..500 {
                let slot = locomotive(&mut random, style);
                let shares = SHARES.map(|field| read2(&slot, field.at));
                assert_eq!(shares.iter().sum::<u16>(), 1_000);
                for (unused, share) in unused.iter_mut().zip(shares) {
                    *unused |= share == 0;
                }
            }
        }
        assert_eq!(unused, [true; 5]);
    }
}

//! Nanoseconds of a call.

use std::hint::black_box;
use std::time::Instant;

use crate::work::{repeat, Pair, Side, Work};

/// Places of the stack, enough frames apart to reach over 4,096 bytes.
const PLACES: usize = 29;
/// Rounds at each place.
const ROUNDS: usize = 5;

/// A call's time depends on how its variables lie in memory: so it is measured at several places of
/// the stack, at each the least of some rounds, and what counts is their mean.
pub fn nanoseconds(work: Work, file: &[u8], times: u32) -> Pair {
    let mut sums = Pair {
        library: 0.0,
        plain: 0.0,
    };
    for place in 0..PLACES {
        let (mut library, mut plain) = (f64::INFINITY, f64::INFINITY);
        for _ in 0..ROUNDS {
            library = library.min(deeper(place, &|| batch(Side::Library, work, file, times)));
            plain = plain.min(deeper(place, &|| batch(Side::Plain, work, file, times)));
        }
        sums.library += library;
        sums.plain += plain;
    }
    sums.over(PLACES as f64 * f64::from(times))
}

/// Calls from so many frames further down the stack.
#[inline(never)]
fn deeper(frames: usize, call: &dyn Fn() -> f64) -> f64 {
    let frame = [0_u8; 112];
    black_box(&frame);
    let done = match frames {
        0 => call(),
        _ => deeper(frames - 1, call),
    };
    black_box(&frame);
    done
}

fn batch(side: Side, work: Work, file: &[u8], times: u32) -> f64 {
    let start = Instant::now();
    repeat(side, work, file, times);
    start.elapsed().as_nanos() as f64
}

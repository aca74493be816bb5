//! What is measured: three functions, of the library and of the plain calculation.

use std::hint::black_box;

#[derive(Clone, Copy)]
pub enum Side {
    Library,
    Plain,
}

#[derive(Clone, Copy, PartialEq, Eq)]
pub enum Work {
    Check,
    Answer,
    Listing,
}

/// The same figure of both sides.
#[derive(Clone, Copy)]
pub struct Pair {
    pub library: f64,
    pub plain: f64,
}

/// The length of the buffer lent for a listing.
pub const BUFFER: usize = 640;

impl Side {
    pub fn name(self) -> &'static str {
        match self {
            Side::Library => "library",
            Side::Plain => "plain",
        }
    }

    pub fn named(name: &str) -> Option<Side> {
        [Side::Library, Side::Plain]
            .into_iter()
            .find(|side| side.name() == name)
    }
}

impl Work {
    pub const ALL: [Work; 3] = [Work::Check, Work::Answer, Work::Listing];

    pub fn name(self) -> &'static str {
        match self {
            Work::Check => "check",
            Work::Answer => "answer",
            Work::Listing => "listing",
        }
    }

    pub fn named(name: &str) -> Option<Work> {
        Work::ALL.into_iter().find(|work| work.name() == name)
    }
}

impl Pair {
    /// How many times the plain calculation's figure the library's is.
    pub fn ratio(&self) -> f64 {
        self.library / self.plain
    }

    pub fn over(&self, divisor: f64) -> Pair {
        Pair {
            library: self.library / divisor,
            plain: self.plain / divisor,
        }
    }
}

/// Does the work so many times, with nothing of it left out or moved.
pub fn repeat(side: Side, work: Work, file: &[u8], times: u32) {
    let mut buffer = [0; BUFFER];
    match (side, work) {
        (Side::Library, Work::Check) => again(times, || tezhebul::check(black_box(file))),
        (Side::Plain, Work::Check) => again(times, || plain::check(black_box(file))),
        (Side::Library, Work::Answer) => again(times, || tezhebul::answer(black_box(file))),
        (Side::Plain, Work::Answer) => again(times, || plain::answer(black_box(file))),
        (Side::Library, Work::Listing) => again(times, || {
            tezhebul::list(black_box(file), black_box(&mut buffer))
        }),
        (Side::Plain, Work::Listing) => again(times, || {
            plain::list(black_box(file), black_box(&mut buffer))
        }),
    }
}

fn again<T>(times: u32, mut call: impl FnMut() -> T) {
    for _ in 0..times {
        black_box(call());
    }
}

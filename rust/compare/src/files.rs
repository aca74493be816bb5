//! One file, by the library and by the plain calculation.

use inputs::{Input, Random};

use crate::difference::{equal, or_panic, refusal, Difference};
use crate::tally::Tally;

/// How long a buffer is lent.
#[derive(Clone, Copy)]
pub enum Lent {
    Bytes(usize),
    /// As long as the listing, and this many bytes more.
    Listing(isize),
}

/// A file and how it is tried.
pub struct Trial<'a> {
    pub file: &'a [u8],
    /// The same sources laid out in another way.
    pub twin: Option<&'a [u8]>,
    /// Whether the file must be accepted.
    pub sound: bool,
    pub lent: Lent,
    /// The byte that the lent buffer is filled with.
    pub filling: u8,
}

impl<'a> Trial<'a> {
    pub fn of_input(input: &'a Input, seed: u64, index: u64) -> Trial<'a> {
        // numbers of their own, so that the file is the same whatever buffer is lent
        let mut random = Random::new(!seed, index);
        let lent = match random.below(8) {
            0 => Lent::Listing(-1),
            1 => Lent::Listing(0),
            2 => Lent::Listing(1),
            3 => Lent::Bytes(random.below(plain::LONGEST)),
            4 => Lent::Bytes(0),
            _ => Lent::Bytes(plain::LONGEST + random.below(64)),
        };
        Trial {
            file: &input.file,
            twin: input.twin.as_deref(),
            sound: input.sound,
            lent,
            filling: random.below(256) as u8,
        }
    }
}

/// Compares all that the two say.
pub fn compare(trial: &Trial, tally: &mut Tally) -> Result<(), Difference> {
    or_panic(|| said(trial, tally))
}

fn said(trial: &Trial, tally: &mut Tally) -> Result<(), Difference> {
    let check = plain::check(trial.file);
    equal("check", tezhebul::check(trial.file).map_err(refusal), check)?;
    let answer = plain::answer(trial.file);
    let library = tezhebul::answer(trial.file);
    equal("answer", library.map(figures).map_err(refusal), answer)?;
    equal("answer, by the check", answer.map(|_| ()), check)?;
    if trial.sound {
        equal("a sound file", check, Ok(()))?;
    }
    if let Some(twin) = trial.twin {
        equal("the same sources again", tezhebul::answer(twin), library)?;
        tally.twins += 1;
    }
    let listed = said_of_list(trial, answer)?;
    tally.files += 1;
    tally.slots += (trial.file.len() / 64) as u64;
    match (check, listed) {
        (Err(refusal), _) | (Ok(()), Err(refusal)) => {
            tally.refused[usize::from(refusal.number)] += 1;
        }
        _ => {}
    }
    if check.is_ok() {
        tally.accept(trial.file);
    }
    Ok(())
}

type Listed = Result<(usize, plain::Answer), plain::Refusal>;

/// Compares the listings, and the bytes of the lent buffers after them.
fn said_of_list(
    trial: &Trial,
    answer: Result<plain::Answer, plain::Refusal>,
) -> Result<Listed, Difference> {
    let length = lent_length(trial);
    let mut library_buffer = vec![trial.filling; length];
    let mut plain_buffer = vec![trial.filling; length];
    let library = tezhebul::list_and_answer(trial.file, &mut library_buffer)
        .map(|(length, answer)| (length, figures(answer)))
        .map_err(refusal);
    let plain = plain::list(trial.file, &mut plain_buffer)
        .and_then(|length| answer.map(|answer| (length, answer)));
    equal("list", library, plain)?;
    if library_buffer != plain_buffer {
        return Err(Difference {
            asked: "the buffer after list".to_string(),
            library: format!("{:?}", String::from_utf8_lossy(&library_buffer)),
            plain: format!("{:?}", String::from_utf8_lossy(&plain_buffer)),
        });
    }
    Ok(plain)
}

fn lent_length(trial: &Trial) -> usize {
    match trial.lent {
        Lent::Bytes(length) => length,
        Lent::Listing(more) => plain::list(trial.file, &mut [0; plain::LONGEST])
            .unwrap_or(plain::LONGEST)
            .saturating_add_signed(more),
    }
}

fn figures(answer: tezhebul::Answer) -> plain::Answer {
    plain::Answer {
        groups: answer.groups,
        stores: answer.stores,
        locomotives: answer.locomotives,
        annual: answer.annual,
        peak: answer.peak,
    }
}

//! One source of each kind, by the library's rule and by that of the plain calculation.

use std::fmt::Debug;

use inputs::Random;

use crate::difference::{equal, or_panic, refusal, Difference};
use crate::sources::{self, Yard};
use crate::tally::{Calls, Rules};

/// What a source gives of a code, as parts of the library's denominators.
#[derive(Debug, PartialEq, Eq)]
struct Given {
    code: u16,
    annual: u128,
    peak: u128,
}

type Answer<const COUNT: usize> = Result<[Given; COUNT], plain::Refusal>;

/// The library's parts for one of the plain calculation's: the former count parts of a millionth of
/// a tonne and of a ten-millionth of a gram per second, the latter parts of a tonne and of a gram.
const ANNUAL_SCALE: u128 = scale(
    1_000_000 * tezhebul::ANNUAL_DENOMINATOR as u128,
    plain::ANNUAL_DENOMINATOR,
);
const PEAK_SCALE: u128 = scale(
    10_000_000 * tezhebul::PEAK_DENOMINATOR as u128,
    plain::PEAK_DENOMINATOR,
);

const fn scale(library: u128, plain: u128) -> u128 {
    assert!(library.is_multiple_of(plain));
    library / plain
}

/// Compares a call of each rule, on the values of one index of a seed.
pub fn compare(seed: u64, index: u64, tally: &mut Rules) -> Result<(), Difference> {
    // numbers of their own, so that the file of this index is the same
    let mut random = Random::new(seed ^ (1 << 63), index);
    handling(&mut random, &mut tally.handling)?;
    standing(&mut random, &mut tally.standing)?;
    aspiration(&mut random, &mut tally.aspiration)?;
    group(&mut random, &mut tally.group)?;
    locomotive(&mut random, &mut tally.locomotive)
}

fn handling(random: &mut Random, calls: &mut Calls) -> Result<(), Difference> {
    let source = sources::handling(random);
    let plain = plain::Handling {
        bulk: plain_bulk(&source.bulk),
        drop: source.drop.into(),
    };
    said_of_store(
        "handling",
        &source,
        calls,
        || tezhebul::handling(&source),
        || plain::handling(&plain),
    )
}

fn standing(random: &mut Random, calls: &mut Calls) -> Result<(), Difference> {
    let source = sources::standing(random);
    let plain = plain::Standing {
        bulk: plain_bulk(&source.bulk),
        k6: source.k6.into(),
    };
    said_of_store(
        "standing",
        &source,
        calls,
        || tezhebul::standing(&source),
        || plain::standing(&plain),
    )
}

fn aspiration(random: &mut Random, calls: &mut Calls) -> Result<(), Difference> {
    let source = sources::aspiration(random);
    let plain = plain::Aspiration {
        dust: source.dust.into(),
        store: source.store.into(),
        concentration: source.concentration,
        gas: source.flow,
        capture: source.capture.into(),
        hours: source.hours.into(),
    };
    said_of_store(
        "aspiration",
        &source,
        calls,
        || tezhebul::aspiration(&source),
        || plain::aspiration(&plain),
    )
}

fn group(random: &mut Random, calls: &mut Calls) -> Result<(), Difference> {
    let yard = sources::yard(random);
    said("group", &yard, calls, || {
        let Yard {
            group,
            temperatures,
            coefficients,
        } = &yard;
        let plain_coefficients = coefficients.map(|row| plain::Coefficients {
            warm_up: row.warm_up,
            run: row.run,
            idle: row.idle,
        });
        let plain = plain::group(
            &plain_group(group),
            &temperatures.map(i32::from),
            &plain_coefficients,
        );
        (
            library(tezhebul::group(group, temperatures, coefficients)),
            plain.map(|given| given.map(of_plain)),
        )
    })
}

fn locomotive(random: &mut Random, calls: &mut Calls) -> Result<(), Difference> {
    let source = sources::locomotive(random);
    let plain = plain::Locomotive {
        model: source.model.into(),
        shares: source.shares.map(u32::from),
        hours: source.hours.into(),
        old: source.old.into(),
        zone: source.zone.into(),
    };
    said("locomotive", &source, calls, || {
        (
            library(tezhebul::locomotive(&source)),
            plain::locomotive(&plain).map(|given| given.map(of_plain)),
        )
    })
}

fn plain_bulk(bulk: &tezhebul::Bulk) -> plain::Bulk {
    plain::Bulk {
        dust: bulk.dust.into(),
        store: bulk.store.into(),
        material: bulk.material.into(),
        wind: bulk.wind.into(),
        moisture: bulk.moisture.into(),
        grain: bulk.grain.into(),
        openness: bulk.openness.into(),
        amount: bulk.amount,
    }
}

fn plain_group(group: &tezhebul::Group) -> plain::Group {
    plain::Group {
        category: group.category.into(),
        fuel: group.fuel.into(),
        flags: group.flags.into(),
        vehicles: group.vehicles.into(),
        leaving: group.leaving.into(),
        share: group.share.into(),
        neutraliser: group.running.into(),
        warm_up_neutraliser: group.warming.into(),
        idle_time: group.idle,
        timed: group.timed,
        distances: group.distances,
        days: group.days.map(u32::from),
    }
}

/// Compares what both sides say of a store record, which gives one emission.
fn said_of_store(
    rule: &str,
    source: &impl Debug,
    calls: &mut Calls,
    library_rule: impl FnOnce() -> Result<tezhebul::Emission, tezhebul::Refusal>,
    plain_rule: impl FnOnce() -> Result<plain::Emission, plain::Refusal>,
) -> Result<(), Difference> {
    said(rule, source, calls, || {
        (
            library(library_rule().map(|given| [given])),
            plain_rule().map(|given| [of_plain(given)]),
        )
    })
}

/// Compares what both sides say, the library first.
fn said<const COUNT: usize>(
    rule: &str,
    source: &impl Debug,
    calls: &mut Calls,
    sides: impl FnOnce() -> (Answer<COUNT>, Answer<COUNT>),
) -> Result<(), Difference> {
    let compared = or_panic(|| {
        let (library, plain) = sides();
        calls.count(plain.as_ref().err());
        equal(rule, library, plain)
    });
    compared.map_err(|difference| Difference {
        asked: format!("rule {}\n{source:?}", difference.asked),
        ..difference
    })
}

fn library<const COUNT: usize>(
    answer: Result<[tezhebul::Emission; COUNT], tezhebul::Refusal>,
) -> Answer<COUNT> {
    answer
        .map(|given| {
            given.map(|emission| Given {
                code: emission.code,
                annual: emission.annual.numerator(),
                peak: emission.peak.numerator(),
            })
        })
        .map_err(refusal)
}

fn of_plain(emission: plain::Emission) -> Given {
    let scaled = |sum: u128, scale| sum.checked_mul(scale).expect("a sum is far below 2^128");
    Given {
        code: plain::CODES[emission.code]
            .parse()
            .expect("a code is four digits"),
        annual: scaled(emission.annual, ANNUAL_SCALE),
        peak: scaled(emission.peak, PEAK_SCALE),
    }
}

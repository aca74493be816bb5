//! The rules on their own, by the surveyed examples of 01.

use plain::{
    aspiration, group, handling, standing, Aspiration, Bulk, Coefficients, Group, Handling,
    Refusal, Standing, ANNUAL_DENOMINATOR, PEAK_DENOMINATOR,
};

const CAR: Group = Group {
    category: 1,
    fuel: 1,
    flags: 0,
    vehicles: 10,
    leaving: 4,
    share: 50,
    neutraliser: 100,
    warm_up_neutraliser: 100,
    idle_time: 10,
    timed: 0,
    distances: [100, 300, 100, 300],
    days: [20; 12],
};

const COAL: Handling = Handling {
    bulk: Bulk {
        dust: 2,
        store: 1,
        material: 5,
        wind: 20,
        moisture: 50,
        grain: 10,
        openness: 1,
        amount: 1_200,
    },
    drop: 4,
};

const LIMESTONE: Standing = Standing {
    bulk: Bulk {
        dust: 3,
        store: 1,
        material: 1,
        wind: 30,
        moisture: 5,
        grain: 1,
        openness: 2,
        amount: 100,
    },
    k6: 0,
};

const FAN: Aspiration = Aspiration {
    dust: 1,
    store: 1,
    concentration: 500,
    gas: 2_000,
    capture: 9_500,
    hours: 1_000,
};

fn coal_in_wind(wind: u32) -> Handling {
    Handling {
        bulk: Bulk { wind, ..COAL.bulk },
        ..COAL
    }
}

fn only_co() -> [Coefficients; 6] {
    let mut coefficients = [Coefficients::default(); 6];
    coefficients[0] = Coefficients {
        warm_up: [40_000; 3],
        run: [100_000; 3],
        idle: 20_000,
    };
    coefficients
}

/// Whether an exact sum is the fraction `over / under`.
fn is(sum: u128, denominator: u128, over: u128, under: u128) -> bool {
    sum * under == over * denominator
}

fn refused(number: u8) -> Refusal {
    Refusal { number, slot: 0 }
}

/// Rows B, C and D: CO at 10.0 degrees all year.
#[test]
fn car_with_control_and_heated() {
    for (flags, annual, out) in [(0, 24_000, 160), (1, 20_160, 132), (2, 16_800, 100)] {
        let given = group(&Group { flags, ..CAR }, &[100; 12], &only_co()).unwrap();
        assert_eq!(given[0].code, 5);
        assert!(is(given[0].annual, ANNUAL_DENOMINATOR, annual, 1_000_000));
        assert!(is(given[0].peak, PEAK_DENOMINATOR, out * 4, 36_000));
        assert!(given[1..].iter().all(|e| e.annual == 0 && e.peak == 0));
    }
}

/// Row K: warm-up minutes at the edges, seen in the peak of one car that leaves.
#[test]
fn car_warm_up_edges() {
    let mut coefficients = [Coefficients::default(); 6];
    coefficients[0].warm_up = [10_000; 3];
    let edges = [
        (51, 3),
        (50, 4),
        (-50, 4),
        (-51, 10),
        (-100, 10),
        (-101, 15),
    ];
    for (temperature, minutes) in edges {
        let given = group(&CAR, &[temperature; 12], &coefficients).unwrap();
        assert!(is(given[0].peak, PEAK_DENOMINATOR, minutes * 4, 3_600));
    }
}

/// Rows E and F.
#[test]
fn coal_handling() {
    let given = handling(&COAL).unwrap();
    assert!(is(given.peak, PEAK_DENOMINATOR, 1_764, 10_000));
    let windy = handling(&coal_in_wind(21)).unwrap();
    assert!(is(windy.peak, PEAK_DENOMINATOR, 21_168, 100_000));
    assert!(is(
        windy.annual,
        ANNUAL_DENOMINATOR,
        220_752 * 21_168,
        1_000_000_000
    ));
    assert!(handling(&coal_in_wind(140)).is_ok());
    assert_eq!(handling(&coal_in_wind(141)), Err(refused(9)));
}

/// Row G.
#[test]
fn limestone_standing() {
    let given = standing(&LIMESTONE).unwrap();
    assert!(is(given.peak, PEAK_DENOMINATOR, 234, 1_000));
    let one = standing(&Standing {
        k6: 100,
        ..LIMESTONE
    })
    .unwrap();
    assert_eq!(one.peak * 13, given.peak * 10);
    assert_eq!(
        standing(&Standing {
            k6: 99,
            ..LIMESTONE
        }),
        Err(refused(9))
    );
}

/// Row H.
#[test]
fn fan_aspiration() {
    let given = aspiration(&FAN).unwrap();
    assert!(is(given.peak, PEAK_DENOMINATOR, 5, 100));
    assert!(is(given.annual, ANNUAL_DENOMINATOR, 18, 100));
    assert_eq!(
        aspiration(&Aspiration {
            hours: 8_785,
            ..FAN
        }),
        Err(refused(9))
    );
}

/// "answers 9, then 11 for soot or lead that must be zero"
#[test]
fn nine_before_eleven() {
    let mut soot = only_co();
    soot[3].idle = 1;
    assert_eq!(group(&CAR, &[100; 12], &soot), Err(refused(11)));
    assert_eq!(group(&CAR, &[601; 12], &soot), Err(refused(9)));
    soot[0].idle = 1_000_001;
    assert_eq!(group(&CAR, &[100; 12], &soot), Err(refused(9)));
    let diesel = Group { fuel: 2, ..CAR };
    let mut lead = only_co();
    lead[5].run[2] = 1;
    assert_eq!(group(&diesel, &[100; 12], &lead), Err(refused(11)));
    assert!(group(&CAR, &[100; 12], &lead).is_ok());
}

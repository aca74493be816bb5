//! The rules, by the surveyed examples of the scope paper: rows E to J of stores, B to D of groups;
//! and timed warm-ups by hand.

use tezhebul::{
    aspiration, group, handling, standing, Aspiration, Bulk, Coefficients, Emission, Exact, Group,
    Handling, Refusal, Standing, ANNUAL_DENOMINATOR, CONTROLLED, HEATED, PEAK_DENOMINATOR,
};

const COAL: Handling = Handling {
    bulk: Bulk {
        dust: 2,
        store: 1,
        material: 5,
        wind: 20,
        moisture: 50,
        grain: 10,
        openness: 1,
        amount: 1_200,
    },
    drop: 4,
};

const LIMESTONE: Standing = Standing {
    bulk: Bulk {
        dust: 3,
        store: 1,
        material: 1,
        wind: 30,
        moisture: 5,
        grain: 1,
        openness: 2,
        amount: 100,
    },
    k6: 0,
};

const SLAG: Standing = Standing {
    bulk: Bulk {
        dust: 2,
        store: 1,
        material: 6,
        wind: 20,
        moisture: 110,
        grain: 501,
        openness: 7,
        amount: 5,
    },
    k6: 100,
};

const FAN: Aspiration = Aspiration {
    dust: 1,
    store: 1,
    concentration: 500,
    flow: 2_000,
    capture: 9_500,
    hours: 1_000,
};

const CAR: Group = Group {
    category: 1,
    fuel: 1,
    flags: 0,
    vehicles: 10,
    leaving: 4,
    share: 50,
    running: 100,
    warming: 100,
    idle: 10,
    timed: 0,
    distances: [100, 300, 100, 300],
    days: [20; 12],
};

const OUT_OF_RANGE: Refusal = Refusal { number: 9, slot: 0 };

const MUST_BE_ZERO: Refusal = Refusal {
    number: 11,
    slot: 0,
};

fn coal_in_wind(wind: u16) -> Handling {
    Handling {
        bulk: Bulk { wind, ..COAL.bulk },
        ..COAL
    }
}

fn only_co() -> [Coefficients; 6] {
    let mut coefficients = [Coefficients::default(); 6];
    coefficients[0] = Coefficients {
        warm_up: [40_000; 3],
        run: [100_000; 3],
        idle: 20_000,
    };
    coefficients
}

/// The figure of so many equal fractions added: the largest whole number of units that is not above
/// the sum plus half a unit.
fn figure(times: u128, given: Exact) -> u128 {
    let denominator = u128::from(given.denominator);
    (times * given.numerator() + denominator / 2) / denominator
}

/// Millionths of a tonne, and ten-millionths of a gram per second.
fn figures(given: &Emission) -> (u128, u128) {
    (figure(1, given.annual), figure(1, given.peak))
}

#[test]
fn denominators() {
    // 0.3996 millionths of a tonne, and half a ten-millionth of a gram per second
    let little = Aspiration {
        concentration: 1,
        flow: 1,
        capture: 0,
        hours: 111,
        ..FAN
    };
    let year = aspiration(&little).unwrap().annual;
    assert_eq!((year.whole, year.part), (0, 7_992_000_000_000));
    assert_eq!(year.denominator, 20_000_000_000_000);
    assert_eq!(ANNUAL_DENOMINATOR, 20_000_000_000_000);
    let rate = standing(&SLAG).unwrap().peak;
    assert_eq!((rate.whole, rate.part), (0, 36_000_000));
    assert_eq!(rate.denominator, 72_000_000);
    assert_eq!(PEAK_DENOMINATOR, 72_000_000);
}

/// Rows E and F.
#[test]
fn coal_handling() {
    let calm = handling(&COAL).unwrap();
    assert_eq!(calm.code, 2908);
    assert_eq!(figures(&calm), (3_894_065, 1_764_000));
    let windy = handling(&coal_in_wind(21)).unwrap();
    assert_eq!(figures(&windy), (4_672_878, 2_116_800));
    assert!(handling(&coal_in_wind(140)).is_ok());
    assert_eq!(handling(&coal_in_wind(141)), Err(OUT_OF_RANGE));
}

/// Row G.
#[test]
fn limestone_standing() {
    let given = standing(&LIMESTONE).unwrap();
    assert_eq!(given.code, 2909);
    assert_eq!(figures(&given), (5_165_597, 2_340_000));
    let below = Standing {
        k6: 99,
        ..LIMESTONE
    };
    assert_eq!(standing(&below), Err(OUT_OF_RANGE));
}

/// Row H.
#[test]
fn fan_aspiration() {
    let given = aspiration(&FAN).unwrap();
    assert_eq!(given.code, 152);
    assert_eq!(figures(&given), (180_000, 500_000));
    let longer = Aspiration {
        hours: 8_785,
        ..FAN
    };
    assert_eq!(aspiration(&longer), Err(OUT_OF_RANGE));
}

/// Row I: each source alone is less than half a unit, two are not.
#[test]
fn two_small_fans() {
    let small = Aspiration {
        concentration: 1,
        flow: 1,
        capture: 0,
        hours: 111,
        ..FAN
    };
    let given = aspiration(&small).unwrap();
    assert_eq!(figure(1, given.annual), 0);
    assert_eq!(figure(2, given.annual), 1);
    assert_eq!(figure(2, given.peak), 20);
}

/// Row J: an exact half goes up.
#[test]
fn slag_standing() {
    let five = standing(&SLAG).unwrap();
    assert_eq!(five.peak.whole, 0);
    assert_eq!(five.peak.part, PEAK_DENOMINATOR / 2);
    assert_eq!(figure(1, five.peak), 1);
    let less = Standing {
        bulk: Bulk {
            amount: 4,
            ..SLAG.bulk
        },
        ..SLAG
    };
    let four = standing(&less).unwrap();
    assert_eq!(figure(1, four.peak), 0);
}

/// Rows B, C and D.
#[test]
fn car_with_control_and_heated() {
    let rows = [
        (0, 24_000, 177_778),
        (CONTROLLED, 20_160, 146_667),
        (HEATED, 16_800, 111_111),
    ];
    for (flags, annual, peak) in rows {
        let given = group(&Group { flags, ..CAR }, &[100; 12], &only_co()).unwrap();
        assert_eq!(
            given.map(|e| e.code),
            [337, 2704, 301, 328, 330, 184],
            "flags {flags}"
        );
        assert_eq!(figures(&given[0]), (annual, peak), "flags {flags}");
        assert!(given[1..].iter().all(|e| figures(e) == (0, 0)));
    }
}

/// Row B with warm-up 4, 5, 6 g a minute and run 10, 11, 12 g a kilometre by period. Out is
/// warm-up × minutes + run × 0.2 + 2, in the same without warm-up; 5 cars on 240 days, 4 leave in
/// the hour.
#[test]
fn timed_warm_up() {
    let mut coefficients = only_co();
    coefficients[0].warm_up = [40_000, 50_000, 60_000];
    coefficients[0].run = [100_000, 110_000, 120_000];
    let rows = [
        // warm: out 4.4, 32 and 104, in 4
        (0, 1, 100, 10_080, 48_889),
        (0, 70, 100, 43_200, 355_556),
        (0, 250, 100, 129_600, 1_155_556),
        // cold: out 6 × 20 + 4.4 by the table, 6 × 7 + 4.4 timed, in 4.4
        (0, 0, -300, 154_560, 1_382_222),
        (0, 70, -300, 60_960, 515_556),
        // the heated stand's warm coefficients stay: out 10, then 32, in 4
        (HEATED, 0, -300, 16_800, 111_111),
        (HEATED, 70, -300, 43_200, 355_556),
        // out 28 × 0.8 + 2 + 2 × 0.8, in 3.6
        (CONTROLLED, 70, 100, 35_520, 288_889),
    ];
    for (flags, timed, temperature, annual, peak) in rows {
        let source = Group {
            flags,
            timed,
            ..CAR
        };
        let given = group(&source, &[temperature; 12], &coefficients).unwrap();
        let row = format!("flags {flags}, timed {timed}, at {temperature}");
        assert_eq!(figures(&given[0]), (annual, peak), "{row}");
    }
}

/// 251 and more, also where the lowest byte or two alone are in range.
#[test]
fn timed_out_of_range() {
    for timed in [251, 255, 256, 256 + 15, 65_536 + 15, u32::MAX] {
        for flags in [0, HEATED] {
            let source = Group {
                flags,
                timed,
                ..CAR
            };
            let given = group(&source, &[100; 12], &only_co());
            assert_eq!(given, Err(OUT_OF_RANGE), "{timed}");
        }
    }
}

/// Each coefficient is handed over in its own place.
#[test]
fn coefficients_in_their_places() {
    let mut coefficients = [Coefficients::default(); 6];
    coefficients[4].run = [0, 0, 100_000];
    let warm = group(&CAR, &[100; 12], &coefficients).unwrap();
    assert!(warm.iter().all(|e| figures(e) == (0, 0)));
    let cold = group(&CAR, &[-51; 12], &coefficients).unwrap();
    // 10 g/km over 200 m both ways, 5 cars on 240 days; 4 of them leave in the hour
    assert_eq!(figures(&cold[4]), (4_800, 22_222));
    assert_eq!(
        cold.map(|e| e.peak.whole > 0),
        [false, false, false, false, true, false]
    );
}

/// "answers 9, then 11 for soot or lead that must be zero"
#[test]
fn nine_before_eleven() {
    let mut soot = only_co();
    soot[3].idle = 1;
    assert_eq!(group(&CAR, &[100; 12], &soot), Err(MUST_BE_ZERO));
    assert_eq!(group(&CAR, &[601; 12], &soot), Err(OUT_OF_RANGE));
    let timed = Group { timed: 251, ..CAR };
    assert_eq!(group(&timed, &[100; 12], &soot), Err(OUT_OF_RANGE));
    let diesel = Group { fuel: 2, ..CAR };
    assert_eq!(group(&diesel, &[100; 12], &soot).unwrap()[1].code, 2754);
    let mut lead = only_co();
    lead[5].run[2] = 1;
    assert_eq!(group(&diesel, &[100; 12], &lead), Err(MUST_BE_ZERO));
    assert!(group(&CAR, &[100; 12], &lead).is_ok());
}

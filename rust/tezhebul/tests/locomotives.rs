//! Shunting locomotives, by the rule alone and in a slot file, worked by hand from Tables 21 and 22
//! of the methodology.

use tezhebul::{answer, check, list, locomotive, Exact, Locomotive, Refusal, LISTING_MOST};

/// TGM6 with the shares of Table 22: 68.7, 20.1, 8.9, 1.5 and 0.8 %.
const TGM6: Locomotive = Locomotive {
    model: 1,
    shares: [687, 201, 89, 15, 8],
    hours: 1_000,
    old: 0,
    zone: 2,
};

fn refused<T>(number: u8, slot: u16) -> Result<T, Refusal> {
    Err(Refusal { number, slot })
}

fn mixed(given: Exact) -> (u64, u64) {
    (given.whole, given.part)
}

/// CO 0.84 × 0.687 + 0.92 × 0.201 + 1.36 × 0.089 + 2.09 × 0.015 + 4.13 × 0.008 = 0.94743 kg/h,
/// NO2 6.13464, soot 0.04921; in 1,000 hours by 0.7 as many tonnes. Over 3.6 the rates at full power
/// are 4.13, 15.21 and 0.38 kg/h.
#[test]
fn table_22() {
    let given = locomotive(&TGM6).unwrap();
    assert_eq!(given.map(|e| e.code), [337, 301, 328]);
    let annual = [(663_201, 0), (4_294_248, 0), (34_447, 0)];
    assert_eq!(given.map(|e| mixed(e.annual)), annual);
    let peak = [
        (11_472_222, 16_000_000),
        (42_250_000, 0),
        (1_055_555, 40_000_000),
    ];
    assert_eq!(given.map(|e| mixed(e.peak)), peak);
}

/// 1.44 times the year in the south and 0.96 times in the north where it is old; the peak stays.
#[test]
fn age_and_zone() {
    let first = locomotive(&TGM6).unwrap();
    for (zone, hundredths) in [(1, 144), (2, 120), (3, 96)] {
        let source = Locomotive {
            old: 1,
            zone,
            ..TGM6
        };
        for (new, old) in first.iter().zip(locomotive(&source).unwrap()) {
            assert_eq!(
                old.annual.numerator() * 100,
                new.annual.numerator() * hundredths
            );
            assert_eq!(old.peak, new.peak);
        }
    }
}

/// Only modes with a share count: TU4 at idle and at a quarter of its power, 0.22, 0.88 and
/// 0.02 kg/h, whatever the hours.
#[test]
fn peak_of_the_modes_used() {
    let source = Locomotive {
        model: 4,
        shares: [999, 1, 0, 0, 0],
        hours: 0,
        ..TGM6
    };
    let given = locomotive(&source).unwrap();
    assert!(given.iter().all(|e| mixed(e.annual) == (0, 0)));
    let peak = [
        (611_111, 8_000_000),
        (2_444_444, 32_000_000),
        (55_555, 40_000_000),
    ];
    assert_eq!(given.map(|e| mixed(e.peak)), peak);
}

/// Each share is handed over in its own place: with all the time in one mode the peak of CO is that
/// mode's, 0.84, 0.92, 1.36, 2.09 or 4.13 kg/h.
#[test]
fn shares_in_their_places() {
    for (mode, grams) in [840, 920, 1_360, 2_090, 4_130].into_iter().enumerate() {
        let mut shares = [0; 5];
        shares[mode] = 1_000;
        let [co, _, _] = locomotive(&Locomotive { shares, ..TGM6 }).unwrap();
        assert_eq!(
            co.peak.numerator() * 3_600,
            grams * 10_000_000 * 72_000_000,
            "mode {mode}"
        );
    }
}

#[test]
fn nine_before_fourteen() {
    let short = Locomotive {
        shares: [687, 201, 89, 15, 7],
        ..TGM6
    };
    assert_eq!(locomotive(&short), refused(14, 0));
    let wrong = [
        Locomotive { model: 0, ..short },
        Locomotive { model: 5, ..short },
        Locomotive {
            shares: [1_001, 0, 0, 0, 0],
            ..short
        },
        Locomotive {
            shares: [0, 0, 0, 0, 65_535],
            ..short
        },
        Locomotive {
            hours: 8_785,
            ..short
        },
        Locomotive { old: 2, ..short },
        Locomotive { zone: 0, ..short },
        Locomotive { zone: 4, ..short },
    ];
    for source in wrong {
        assert_eq!(locomotive(&source), refused(9, 0), "{source:?}");
    }
}

/// Slot 1 has the locomotive above.
fn file() -> [u8; 128] {
    let mut file = [0; 128];
    file[..4].copy_from_slice(&[1, 0, 2, 0]);
    file[32] = 1;
    let slot = [
        0, 0, 6, 1, 0xaf, 2, 201, 0, 89, 0, 15, 0, 8, 0, 0xe8, 3, 0, 2,
    ];
    file[64..82].copy_from_slice(&slot);
    file
}

#[test]
fn counted_and_listed() {
    let answer = answer(&file()).unwrap();
    let counts = (answer.groups, answer.stores, answer.locomotives);
    assert_eq!(counts, (0, 0, 1));
    assert_eq!(
        answer.annual,
        [0, 0, 4_294_248, 34_447, 0, 663_201, 0, 0, 0, 0]
    );
    assert_eq!(
        answer.peak,
        [0, 0, 42_250_000, 1_055_556, 0, 11_472_222, 0, 0, 0, 0]
    );
    let mut buffer = [b'~'; LISTING_MOST];
    let length = list(&file(), &mut buffer).unwrap();
    assert!(buffer[..length].ends_with(b"\nsources 0 0 1\n"));
}

#[test]
fn shares_that_do_not_total() {
    let mut short = file();
    short[64 + 12] = 7;
    assert_eq!(check(&short), refused(14, 1));
    assert_eq!(answer(&short), refused(14, 1));
    assert_eq!(list(&short, &mut []), refused(14, 1));
}

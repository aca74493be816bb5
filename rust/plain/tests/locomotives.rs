//! The rule of locomotives on its own, worked by hand from Tables 21 and 22 of the methodology.

use plain::{
    locomotive, Emission, Locomotive, Refusal, ANNUAL_DENOMINATOR, CODES, PEAK_DENOMINATOR,
};

/// TGM6 with the shares of Table 22: 68.7, 20.1, 8.9, 1.5 and 0.8 %.
const TGM6: Locomotive = Locomotive {
    model: 1,
    shares: [687, 201, 89, 15, 8],
    hours: 1_000,
    old: 0,
    zone: 2,
};

/// TU4 with the shares of Table 22: 70.1, 19.4, 8.5, 1.3 and 0.7 %.
const TU4: Locomotive = Locomotive {
    model: 4,
    shares: [701, 194, 85, 13, 7],
    ..TGM6
};

/// Grams an hour of CO, nitrogen oxides and soot: Table 21 by type and mode.
const TABLE_21: [[[u128; 3]; 5]; 4] = [
    [
        [840, 4_110, 20],
        [920, 9_860, 60],
        [1_360, 11_370, 180],
        [2_090, 13_040, 290],
        [4_130, 15_210, 380],
    ],
    [
        [640, 1_500, 10],
        [750, 2_990, 60],
        [930, 5_240, 170],
        [1_280, 6_000, 220],
        [2_630, 7_020, 230],
    ],
    [
        [540, 2_060, 10],
        [580, 4_010, 30],
        [910, 7_220, 130],
        [1_340, 8_240, 150],
        [2_660, 9_210, 260],
    ],
    [
        [170, 450, 4],
        [220, 880, 20],
        [280, 1_540, 50],
        [390, 1_750, 60],
        [780, 2_010, 70],
    ],
];

fn refused(number: u8) -> Result<[Emission; 3], Refusal> {
    Err(Refusal { number, slot: 0 })
}

/// Exact units of hundred-millionths of a tonne, and of a gram an hour.
fn year(hundred_millionths: u128) -> u128 {
    hundred_millionths * (ANNUAL_DENOMINATOR / 100_000_000)
}

fn rate(grams_an_hour: u128) -> u128 {
    grams_an_hour * (PEAK_DENOMINATOR / 3_600)
}

fn assert_given(source: &Locomotive, annual: [u128; 3], grams_an_hour: [u128; 3]) {
    let given = locomotive(source).unwrap();
    assert_eq!(given.map(|e| CODES[e.code]), ["0337", "0301", "0328"]);
    assert_eq!(given.map(|e| e.annual), annual.map(year), "{source:?}");
    assert_eq!(given.map(|e| e.peak), grams_an_hour.map(rate), "{source:?}");
}

/// CO 0.84 × 0.687 + 0.92 × 0.201 + 1.36 × 0.089 + 2.09 × 0.015 + 4.13 × 0.008 = 0.94743 kg/h,
/// nitrogen oxides 6.13464, soot 0.04921; in 1,000 hours by 0.7 as many tonnes: 0.663201, 4.294248
/// and 0.034447.
#[test]
fn table_22() {
    let peaks = [4_130, 15_210, 380];
    assert_given(&TGM6, [66_320_100, 429_424_800, 3_444_700], peaks);
    // 0.19618, 0.65389 and 0.012204 kg/h
    let tu4 = [13_732_600, 45_772_300, 854_280];
    assert_given(&TU4, tu4, [780, 2_010, 70]);
}

/// The year by age and zone: 1.2, 1.44, 1 and 0.96 times the first. The peak stays.
#[test]
fn age_and_zone() {
    let rows = [
        (0, 1, [79_584_120, 515_309_760, 4_133_640]),
        (1, 1, [95_500_944, 618_371_712, 4_960_368]),
        (1, 2, [79_584_120, 515_309_760, 4_133_640]),
        (0, 3, [53_056_080, 343_539_840, 2_755_760]),
        (1, 3, [63_667_296, 412_247_808, 3_306_912]),
    ];
    for (old, zone, annual) in rows {
        let source = Locomotive { old, zone, ..TGM6 };
        assert_given(&source, annual, [4_130, 15_210, 380]);
    }
}

/// "the greatest kg/h among modes with a nonzero share": with all the time in one mode it is that
/// mode's, whatever the hours, and so is the mean.
#[test]
fn every_entry_of_table_21() {
    for (model, modes) in (1..).zip(TABLE_21) {
        for (mode, rates) in modes.into_iter().enumerate() {
            let mut shares = [0; 5];
            shares[mode] = 1_000;
            let source = Locomotive {
                model,
                shares,
                ..TGM6
            };
            // a gram an hour in 1,000 hours is a kilogram, and by 0.7 it is 70,000 × 10^-8 t
            assert_given(&source, rates.map(|rate| rate * 70_000), rates);
        }
    }
}

#[test]
fn no_hours_have_a_peak() {
    let still = Locomotive { hours: 0, ..TGM6 };
    assert_given(&still, [0; 3], [4_130, 15_210, 380]);
}

/// "given a value outside its field's range such a rule answers 9"
#[test]
fn nine() {
    let with_share = |mode: usize, share| {
        let mut source = TGM6;
        source.shares[mode] = share;
        source
    };
    let wrong = [
        Locomotive { model: 0, ..TGM6 },
        Locomotive { model: 5, ..TGM6 },
        Locomotive {
            hours: 8_785,
            ..TGM6
        },
        Locomotive { old: 2, ..TGM6 },
        Locomotive { zone: 0, ..TGM6 },
        Locomotive { zone: 4, ..TGM6 },
    ];
    for source in wrong {
        assert_eq!(locomotive(&source), refused(9), "{source:?}");
    }
    for mode in 0..5 {
        assert_eq!(locomotive(&with_share(mode, 1_001)), refused(9));
    }
    let longest = Locomotive {
        hours: 8_784,
        ..TGM6
    };
    assert!(locomotive(&longest).is_ok());
}

/// "14 when a locomotive's shares don't total 1,000, asked after its 9, by its source rule too"
#[test]
fn fourteen_after_nine() {
    for shares in [
        [687, 201, 89, 15, 7],
        [687, 201, 89, 15, 9],
        [0; 5],
        [1_000; 5],
        [1_000, 0, 0, 0, 1],
    ] {
        let source = Locomotive { shares, ..TGM6 };
        assert_eq!(locomotive(&source), refused(14), "{shares:?}");
        let both = Locomotive { zone: 4, ..source };
        assert_eq!(locomotive(&both), refused(9), "{shares:?}");
    }
}

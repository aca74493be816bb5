//! Timed warm-ups (02, U2): a group's rule and byte 36 of its slot, worked by hand.

use plain::{
    answer, check, group, Coefficients, Group, Refusal, Temperatures, ANNUAL_DENOMINATOR,
    PEAK_DENOMINATOR,
};

const CONTROLLED: u32 = 1;
const HEATED: u32 = 2;

/// The car of 01's example B: 5 of 10 leave on 240 days, 200 metres each way, idle 1 minute.
const CAR: Group = Group {
    category: 1,
    fuel: 1,
    flags: 0,
    vehicles: 10,
    leaving: 4,
    share: 50,
    neutraliser: 100,
    warm_up_neutraliser: 100,
    idle_time: 10,
    timed: 0,
    distances: [100, 300, 100, 300],
    days: [20; 12],
};

/// Each period's own: warm-up 4, 5, 6 g a minute, run 10, 11, 12 g a kilometre; idle 2 g a minute.
const CO: Coefficients = Coefficients {
    warm_up: [40_000, 50_000, 60_000],
    run: [100_000, 110_000, 120_000],
    idle: 20_000,
};

/// Tenths of a degree in each band of the table, and its minutes for a car, for a truck or bus.
const TABLE_9: [(i32, u32, u32); 7] = [
    (51, 3, 4),
    (50, 4, 6),
    (-100, 10, 12),
    (-150, 15, 20),
    (-200, 15, 25),
    (-250, 20, 30),
    (-251, 20, 30),
];

fn only_co() -> [Coefficients; 6] {
    let mut coefficients = [Coefficients::default(); 6];
    coefficients[0] = CO;
    coefficients
}

fn timed(flags: u32, timed: u32) -> Group {
    Group {
        flags,
        timed,
        ..CAR
    }
}

/// The group gives so many grams a year, and one vehicle so many tenths of a gram on its way out in
/// the coldest month; 4 of them leave in that hour.
#[track_caller]
fn assert_given(source: &Group, temperatures: &Temperatures, grams: u128, out_tenths: u128) {
    let given = group(source, temperatures, &only_co()).unwrap();
    assert_eq!(given[0].annual * 1_000_000, grams * ANNUAL_DENOMINATOR);
    assert_eq!(given[0].peak * 36_000, out_tenths * 4 * PEAK_DENOMINATOR);
    assert!(given[1..].iter().all(|e| e.annual == 0 && e.peak == 0));
}

/// At 10.0 degrees out is 4 × minutes + 2 + 2 and in is 4: by 3 minutes of the table, then timed.
#[test]
fn minutes_at_the_edges() {
    assert_given(&timed(0, 0), &[100; 12], 24_000, 160);
    assert_given(&timed(0, 1), &[100; 12], 10_080, 44);
    assert_given(&timed(0, 15), &[100; 12], 16_800, 100);
    assert_given(&timed(0, 70), &[100; 12], 43_200, 320);
    assert_given(&timed(0, 250), &[100; 12], 129_600, 1_040);
}

/// 251 and more is out of range, also where the lowest byte or two alone are not.
#[test]
fn nine_above_250() {
    for past in [251, 252, 255, 256, 256 + 15, 65_536 + 15, u32::MAX] {
        for flags in [0, HEATED] {
            let given = group(&timed(flags, past), &[100; 12], &only_co());
            assert_eq!(given, Err(Refusal { number: 9, slot: 0 }), "{past}");
        }
    }
    let mut soot = only_co();
    soot[3].idle = 1;
    let number = |source: &Group| group(source, &[100; 12], &soot).unwrap_err().number;
    assert_eq!(number(&timed(0, 251)), 9);
    assert_eq!(number(&timed(0, 250)), 11);
}

/// Timed at 7.0 minutes, the period still chooses the coefficients. Out and in are 32 and 4 warm,
/// 5 × 7 + 2.2 + 2 = 39.2 and 4.2 transitional, 6 × 7 + 2.4 + 2 = 46.4 and 4.4 cold.
#[test]
fn the_same_minutes_at_every_temperature() {
    for (temperature, grams, out_tenths) in [
        (51, 43_200, 320),
        (50, 52_080, 392),
        (-50, 52_080, 392),
        (-51, 60_960, 464),
        (-101, 60_960, 464),
        (-600, 60_960, 464),
    ] {
        assert_given(&timed(0, 70), &[temperature; 12], grams, out_tenths);
    }
    // six months warm, four transitional, two cold: 100 × (6 × 36 + 4 × 43.4 + 2 × 50.8)
    let year = [-300, -60, -50, 0, 60, 100, 150, 160, 90, 51, 50, -10];
    assert_given(&timed(0, 70), &year, 49_120, 464);
}

/// The stand's warm-period coefficients stay, whatever the cold: out 32 and in 4 at 7.0 minutes,
/// out 10 and in 4 at 1.5.
#[test]
fn heated_and_timed() {
    for cold in [[-51; 12], [-300; 12], [-600; 12]] {
        assert_given(&timed(HEATED, 0), &cold, 16_800, 100);
        assert_given(&timed(HEATED, 70), &cold, 43_200, 320);
        assert_given(&timed(HEATED, 1), &cold, 10_080, 44);
        assert_given(&timed(HEATED, 250), &cold, 129_600, 1_040);
    }
}

/// The control factor of petrol CO is 0.8: out 28 × 0.8 + 2 + 2 × 0.8 = 26, in 3.6; cold out
/// 42 × 0.8 + 2.4 + 1.6 = 37.6, in 4.
#[test]
fn controlled_and_timed() {
    assert_given(&timed(CONTROLLED, 70), &[100; 12], 35_520, 260);
    assert_given(&timed(CONTROLLED, 70), &[-300; 12], 49_920, 376);
    let both = timed(CONTROLLED | HEATED, 70);
    assert_given(&both, &[-300; 12], 35_520, 260);
}

/// The neutraliser's factor for warm-up is that of a timed one too: out 28 / 4 + 4 = 11, in 4.
#[test]
fn neutraliser_and_timed() {
    let source = Group {
        warm_up_neutraliser: 25,
        ..timed(0, 70)
    };
    assert_given(&source, &[100; 12], 18_000, 110);
}

#[test]
fn timed_at_what_the_table_says() {
    for (temperature, car, truck_or_bus) in TABLE_9 {
        for (category, minutes) in [(1, car), (2, truck_or_bus), (3, truck_or_bus)] {
            // 30 minutes are more than can be timed
            if minutes > 25 {
                continue;
            }
            let untimed = Group { category, ..CAR };
            let timed = Group {
                timed: minutes * 10,
                ..untimed
            };
            let given = |source: &Group| group(source, &[temperature; 12], &only_co());
            assert_eq!(given(&timed), given(&untimed), "{category} {temperature}");
        }
    }
    let year = [-300, -200, -100, -50, 0, 50, 51, 100, 200, 0, -60, -110];
    let given = |source: &Group| group(source, &year, &only_co());
    assert_eq!(given(&timed(HEATED, 15)), given(&timed(HEATED, 0)));
    assert_ne!(given(&timed(0, 15)), given(&timed(0, 0)));
}

const SLOT: usize = 64;

/// 01's example B in eight slots: the group in slot 1, its coefficients in 2 to 7.
fn yard() -> Vec<u8> {
    let mut file = vec![0; 8 * SLOT];
    file[..6].copy_from_slice(&[1, 0, 8, 0, 1, 0]);
    for month in 0..12 {
        file[8 + 2 * month] = 100;
    }
    let group = &mut file[SLOT..2 * SLOT];
    group[2..14].copy_from_slice(&[1, 1, 1, 0, 10, 0, 4, 0, 50, 100, 100, 10]);
    group[14..22].copy_from_slice(&[100, 0, 44, 1, 100, 0, 44, 1]);
    group[22..34].fill(20);
    group[34] = 2;
    for pollutant in 1..=6 {
        let at = (1 + pollutant) * SLOT;
        let next = if pollutant == 6 { 0 } else { pollutant + 2 };
        file[at..at + 4].copy_from_slice(&[next as u8, 0, 2, pollutant as u8]);
    }
    let numbers = [40_000u32, 50_000, 60_000, 100_000, 110_000, 120_000, 20_000];
    for (place, number) in file[2 * SLOT + 4..].chunks_mut(4).zip(numbers) {
        place.copy_from_slice(&number.to_le_bytes());
    }
    file
}

/// The yard with some bytes of the group changed.
fn with(at: usize, bytes: &[u8]) -> Vec<u8> {
    let mut file = yard();
    file[SLOT + at..SLOT + at + bytes.len()].copy_from_slice(bytes);
    file
}

/// Figures of 0337, the others being zero.
#[track_caller]
fn assert_figures(file: &[u8], annual: u64, peak: u64) {
    let answer = answer(file).unwrap();
    let counts = (answer.groups, answer.stores, answer.locomotives);
    assert_eq!(counts, (1, 0, 0));
    assert_eq!((answer.annual[5], answer.peak[5]), (annual, peak));
    let rest = answer.annual.iter().chain(&answer.peak).sum::<u64>();
    assert_eq!(rest, annual + peak);
}

#[track_caller]
fn assert_nine(file: &[u8]) {
    assert_eq!(check(file), Err(Refusal { number: 9, slot: 1 }));
    assert_eq!(answer(file), Err(Refusal { number: 9, slot: 1 }));
}

#[test]
fn byte_36() {
    assert_figures(&with(36, &[0]), 24_000, 177_778);
    assert_figures(&with(36, &[1]), 10_080, 48_889);
    assert_figures(&with(36, &[70]), 43_200, 355_556);
    assert_figures(&with(36, &[250]), 129_600, 1_155_556);
    for past in 251..=255 {
        assert_nine(&with(36, &[past]));
    }
}

/// The peak and the year of a cold file, heated or not.
#[test]
fn byte_36_in_a_cold_year() {
    let cold = |flags, tenths| {
        let mut file = with(36, &[tenths]);
        file[SLOT + 5] = flags;
        for month in 0..12 {
            file[8 + 2 * month..10 + 2 * month].copy_from_slice(&(-300i16).to_le_bytes());
        }
        file
    };
    // 6 × 20 + 4.4 out and 4.4 in by the table
    assert_figures(&cold(0, 0), 154_560, 1_382_222);
    assert_figures(&cold(0, 70), 60_960, 515_556);
    assert_figures(&cold(2, 0), 16_800, 111_111);
    assert_figures(&cold(2, 70), 43_200, 355_556);
}

/// "Bytes not named are zero", now from 37.
#[test]
fn nine_from_byte_37() {
    for at in 37..SLOT {
        assert_nine(&with(at, &[1]));
        let mut timed = with(at, &[1]);
        timed[SLOT + 36] = 70;
        assert_nine(&timed);
    }
}

/// "After a group's own 9 come its six coefficient links", and 11 last.
#[test]
fn nine_before_ten_and_eleven() {
    let number = |file: &[u8]| check(file).unwrap_err().number;
    assert_eq!(number(&with(34, &[0, 0, 251])), 9);
    assert_eq!(number(&with(34, &[0, 0, 250])), 10);
    let mut soot = with(36, &[251]);
    soot[5 * SLOT + 4] = 1;
    assert_eq!(number(&soot), 9);
    soot[SLOT + 36] = 250;
    assert_eq!(number(&soot), 11);
}

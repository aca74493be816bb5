"""The cases that the test program is run on: named, and the same at each run.

An edge's verdict is typed beside it, from the ranges of 01, "The slot file", and must be the one
that papers.py works out.
"""
import sys
from dataclasses import dataclass, replace
from typing import Optional

import papers
from papers import Aspiration, Coefficients, Group, Handling, Standing
from papers import BUS, CAR, CO, DIESEL, LEAD, PETROL, SOOT, TRUCK

OK, OUT, BARRED = papers.ACCEPTED, papers.OUT_OF_RANGE, papers.MUST_BE_ZERO

# 01: a file has at most 1,024 slots, so at most 1,023 store records, or 1,017 groups that share
# their six coefficient slots
MOST_RECORDS = 1_023
MOST_GROUPS = 1_017


@dataclass(frozen=True)
class Sums:
    """Two sums of exact units, each of 128 bits, and a factor of 32."""

    units: int
    other: int
    factor: int


@dataclass(frozen=True)
class Case:
    label: str
    source: object
    repeat: int = 0
    verdict: Optional[int] = None  # None where no verdict was typed


def edges(label, source, field, values):
    """A case for each value of a field, with its verdict."""
    return [
        Case(f"{label} {field.replace('_', ' ')} {value}", replace(source, **{field: value}), 0, verdict)
        for value, verdict in values
    ]


def accepted(*values):
    return [(v, OK) for v in values]


def out_of_range(*values):
    return [(v, OUT) for v in values]


# Store records

COAL_HANDLED = Handling(
    dust=2, store=1, material=5, wind=20, moisture=50, grain=10, openness=1, amount=1_200, drop=4
)
LIMESTONE_STANDING = Standing(
    dust=3, store=7, material=1, wind=30, moisture=5, grain=1, openness=2, amount=100, k6=0
)
SLAG_STANDING = Standing(
    dust=2, store=2, material=6, wind=20, moisture=110, grain=501, openness=7, amount=5, k6=100
)
DUSTY_AIR = Aspiration(dust=1, store=3, concentration=500, flow=2_000, capture=9_500, hours=1_000)
THIN_AIR = Aspiration(dust=2, store=1, concentration=1, flow=1, capture=0, hours=111)

WIND = accepted(0, 1, 20, 21, 50, 51, 70, 71, 100, 101, 120, 121, 140) + out_of_range(141, 65_535)
MOISTURE = accepted(
    0, 5, 6, 10, 11, 30, 31, 50, 51, 70, 71, 80, 81, 90, 91, 100, 101, 1_000
) + out_of_range(1_001, 65_535)
GRAIN = accepted(0, 1, 2, 3, 4, 5, 6, 10, 11, 50, 51, 100, 101, 500, 501, 65_535)
OPENNESS = out_of_range(0) + accepted(1, 2, 3, 4, 5, 6, 7) + out_of_range(8, 255)
MATERIAL = out_of_range(0) + accepted(1, 2, 3, 4, 5, 6, 7, 8, 9) + out_of_range(10, 255)
DROP = out_of_range(0) + accepted(1, 2, 3, 4, 5, 6, 7, 8) + out_of_range(9, 255)
K6 = accepted(0) + out_of_range(1, 99) + accepted(100, 101, 130, 199, 200) + out_of_range(201, 65_535)
AMOUNT = accepted(0, 1, 1_000_000) + out_of_range(1_000_001, 2**32 - 1)
DUST = out_of_range(0) + accepted(1, 2, 3) + out_of_range(4, 255)
STORE = out_of_range(0) + accepted(1, 65_535)


def bulk_edges(label, source):
    fields = dict(
        dust=DUST,
        store=STORE,
        material=MATERIAL,
        wind=WIND,
        moisture=MOISTURE,
        grain=GRAIN,
        openness=OPENNESS,
        amount=AMOUNT,
    )
    return [c for field, values in fields.items() for c in edges(label, source, field, values)]


def store_edges():
    most = 1_000_000
    too_much = accepted(0, 1, most) + out_of_range(most + 1, 2**32 - 1)
    air = "air"
    return (
        bulk_edges("handling", COAL_HANDLED)
        + edges("handling", COAL_HANDLED, "drop", DROP)
        + bulk_edges("standing", replace(LIMESTONE_STANDING, k6=117))
        + edges("standing", LIMESTONE_STANDING, "k6", K6)
        + edges(air, DUSTY_AIR, "dust", DUST)
        + edges(air, DUSTY_AIR, "store", STORE)
        + edges(air, DUSTY_AIR, "concentration", too_much)
        + edges(air, DUSTY_AIR, "flow", too_much)
        + edges(air, DUSTY_AIR, "capture", accepted(0, 1, 9_999, 10_000) + out_of_range(10_001, 65_535))
        + edges(air, DUSTY_AIR, "hours", accepted(0, 1, 8_784) + out_of_range(8_785, 65_535))
    )


def largest_sources():
    """The largest of each kind, as often as a file can hold it, and nearly the largest, whose sums
    are no whole units."""
    sand = dict(dust=3, store=65_535, material=8, wind=140, moisture=0, grain=0, openness=1)
    lime = dict(sand, material=3)
    air = Aspiration(dust=1, store=1, concentration=1_000_000, flow=1_000_000, capture=0, hours=8_784)
    nearly = replace(air, concentration=999_999, flow=999_997, capture=1, hours=8_783)
    return [
        Case("largest handling", Handling(**sand, amount=1_000_000, drop=8), MOST_RECORDS, OK),
        Case("largest standing", Standing(**lime, amount=1_000_000, k6=200), MOST_RECORDS, OK),
        Case("largest aspiration", air, MOST_RECORDS, OK),
        Case("nearly the largest aspiration", nearly, MOST_RECORDS, OK),
        Case("largest diesel group", largest_group(DIESEL), MOST_GROUPS, OK),
        Case("largest petrol group", largest_group(PETROL), MOST_GROUPS, OK),
        Case("nearly the largest group", nearly_largest_group(), MOST_GROUPS, OK),
    ]


# Groups

NO_COEFFICIENTS = Coefficients((0, 0, 0), (0, 0, 0), 0)


def distinct(pollutant):
    """Seven coefficients that no other pollutant has, and that differ from period to period."""
    base = 1_009 * pollutant
    return Coefficients(
        (base + 1, base + 20_003, base + 400_009),
        (base + 7, base + 30_011, base + 500_009),
        base + 70_001,
    )


def coefficients_for(fuel, of):
    """Those of the six pollutants, with the one zero that question 11 asks for."""
    held = SOOT if fuel == PETROL else LEAD
    return tuple(NO_COEFFICIENTS if p == held else of(p) for p in papers.POLLUTANTS)


def with_coefficients(g, pollutant, k):
    at = pollutant - 1
    return replace(g, coefficients=g.coefficients[:at] + (k,) + g.coefficients[at + 1 :])


def with_place(k, place, value):
    """k with one of its seven numbers changed."""
    seven = list(k.all_seven())
    seven[place] = value
    return Coefficients(tuple(seven[0:3]), tuple(seven[3:6]), seven[6])


def put(values, at, value):
    return values[:at] + (value,) + values[at + 1 :]


# A winter of five cold months, and each month with other days
YEAR = (-187, -152, -63, 41, 118, 169, 193, 176, 110, 38, -55, -131)
WORKED = (17, 20, 21, 22, 18, 20, 23, 21, 22, 19, 20, 22)

FLEET = Group(
    category=CAR,
    fuel=PETROL,
    controlled=True,
    heated=False,
    vehicles=137,
    leaving=41,
    share=83,
    neutraliser=71,
    warm_up_neutraliser=59,
    idle=17,
    timed=0,
    out_nearest=103,
    out_farthest=1_210,
    in_nearest=97,
    in_farthest=1_404,
    days=WORKED,
    temperatures=YEAR,
    coefficients=coefficients_for(PETROL, distinct),
)
DIESEL_FLEET = replace(
    FLEET, category=TRUCK, fuel=DIESEL, coefficients=coefficients_for(DIESEL, distinct)
)


def largest_group(fuel):
    most = Coefficients((1_000_000,) * 3, (1_000_000,) * 3, 1_000_000)
    return Group(
        category=TRUCK,
        fuel=fuel,
        controlled=False,
        heated=False,
        vehicles=10_000,
        leaving=10_000,
        share=100,
        neutraliser=100,
        warm_up_neutraliser=100,
        idle=250,
        timed=0,
        out_nearest=20_000,
        out_farthest=20_000,
        in_nearest=20_000,
        in_farthest=20_000,
        days=papers.MONTH_LENGTHS,
        temperatures=(-600,) * 12,
        coefficients=coefficients_for(fuel, lambda _: most),
    )


def nearly_largest_group():
    less = Coefficients((999_983,) * 3, (999_979,) * 3, 999_961)
    return replace(
        largest_group(DIESEL),
        controlled=True,
        vehicles=9_999,
        leaving=9_998,
        share=99,
        neutraliser=99,
        warm_up_neutraliser=97,
        idle=249,
        out_nearest=19_999,
        in_farthest=19_999,
        coefficients=coefficients_for(DIESEL, lambda _: less),
    )


BAND_EDGES = (51, 50, 0, -50, -51, -100, -101, -150, -151, -200, -201, -250, -251, -600, 600)


def degrees(tenths):
    return f"{tenths / 10:.1f}"


def all_year(g, tenths):
    return replace(g, temperatures=(tenths,) * 12)


def warm_up_cases():
    """Each side of each edge of table 9 and of the periods, for each category; the coefficients
    differ from period to period."""
    fleets = (
        ("car", replace(FLEET, category=CAR)),
        ("truck", replace(DIESEL_FLEET, category=TRUCK)),
        ("bus", replace(DIESEL_FLEET, category=BUS)),
    )
    cases = []
    for name, g in fleets:
        for t in BAND_EDGES:
            cases.append(Case(f"{name} at {degrees(t)}", all_year(g, t), 0, OK))
        for t in (-601, 601, -32_768, 32_767):
            cases.append(Case(f"{name} at {degrees(t)}", all_year(g, t), 0, OUT))
        for t in (600, 51, 50, -50, -51, -251):
            heated = replace(all_year(g, t), heated=True)
            cases.append(Case(f"{name} heated at {degrees(t)}", heated, 0, OK))
    cases.append(Case("heated over a year", replace(FLEET, heated=True), 0, OK))
    return cases


def one_month_other(tenths, month, other):
    return put((tenths,) * 12, month, other)


def coldest_month_cases():
    still = replace(FLEET, temperatures=one_month_other(100, 1, -260), days=put(WORKED, 1, 0))
    rising = tuple(range(-300, 300, 50))
    cases = [
        Case("no days in the coldest month", still, 0, OK),
        Case("no days at all", replace(FLEET, days=(0,) * 12), 0, OK),
        Case("twelve temperatures rising", replace(FLEET, temperatures=rising), 0, OK),
        Case("twelve temperatures falling", replace(FLEET, temperatures=rising[::-1]), 0, OK),
        Case("two coldest months", replace(FLEET, temperatures=put(YEAR, 10, -187)), 0, OK),
        Case("coldest just above zero", replace(FLEET, temperatures=one_month_other(60, 5, 1)), 0, OK),
        Case("coldest just below zero", replace(FLEET, temperatures=one_month_other(0, 5, -1)), 0, OK),
    ]
    for month in range(12):
        lone = one_month_other(-40, month, -201 - month)
        cases.append(Case(f"coldest in month {month + 1}", replace(FLEET, temperatures=lone), 0, OK))
        only = replace(FLEET, days=put((0,) * 12, month, 7))
        cases.append(Case(f"days in month {month + 1} only", only, 0, OK))
        wild = one_month_other(0, month, 601 if month % 2 else -601)
        cases.append(Case(f"temperature {month + 1} refused", replace(FLEET, temperatures=wild), 0, OUT))
    return cases


def control_cases():
    cases = []
    for fuel, g in (("petrol", FLEET), ("diesel", DIESEL_FLEET)):
        for control in (False, True):
            for category in (CAR, TRUCK, BUS):
                name = f"{fuel} {'with' if control else 'no'} control, {category}"
                cases.append(Case(name, replace(g, controlled=control, category=category), 0, OK))
    return cases


def held_at_zero_cases():
    """Question 11, in each of the seven places; 9 comes first."""
    cases = []
    for name, g, pollutant in (("petrol soot", FLEET, SOOT), ("diesel lead", DIESEL_FLEET, LEAD)):
        for place in range(7):
            one = with_coefficients(g, pollutant, with_place(NO_COEFFICIENTS, place, 1))
            cases.append(Case(f"{name} in place {place}", one, 0, BARRED))
            much = with_coefficients(g, pollutant, with_place(NO_COEFFICIENTS, place, 1_000_001))
            cases.append(Case(f"{name} {place} above range", much, 0, OUT))
        soiled = with_coefficients(g, pollutant, distinct(pollutant))
        cases.append(Case(f"{name} everywhere", soiled, 0, BARRED))
        cases.append(Case(f"{name} heated", replace(soiled, heated=True), 0, BARRED))
        cases.append(Case(f"{name} and share 101", replace(soiled, share=101), 0, OUT))
        cases.append(Case(f"{name} and 60.1 degrees", all_year(soiled, 601), 0, OUT))
        cases.append(Case(f"{name} and no vehicle", replace(soiled, vehicles=0, leaving=0), 0, OUT))
        co = with_coefficients(soiled, CO, with_place(distinct(CO), 6, 1_000_001))
        cases.append(Case(f"{name} and CO above range", co, 0, OUT))
    other_fuel = replace(DIESEL_FLEET, fuel=PETROL)
    cases.append(Case("diesel's coefficients, petrol", other_fuel, 0, BARRED))
    cases.append(Case("petrol's coefficients, diesel", replace(FLEET, fuel=DIESEL), 0, BARRED))
    return cases


def group_edges():
    percent = accepted(0, 1, 99, 100) + out_of_range(101, 255)
    metres = accepted(0, 1, 20_000) + out_of_range(20_001, 2**32 - 1)
    fields = dict(
        category=out_of_range(0) + accepted(1, 2, 3) + out_of_range(4, 255),
        fuel=out_of_range(0) + accepted(1) + out_of_range(3, 255),
        vehicles=out_of_range(0, 40) + accepted(41, 10_000) + out_of_range(10_001, 65_535),
        leaving=accepted(0, 1, 137) + out_of_range(138, 65_535),
        share=percent,
        neutraliser=percent,
        warm_up_neutraliser=percent,
        idle=accepted(0, 1, 250) + out_of_range(251, 2**32 - 1),
        out_nearest=metres,
        out_farthest=metres,
        in_nearest=metres,
        in_farthest=metres,
    )
    cases = [c for field, values in fields.items() for c in edges("group", FLEET, field, values)]
    one = replace(FLEET, vehicles=1)
    most = replace(FLEET, vehicles=10_000)
    pairs = ((one, 0, OK), (one, 1, OK), (one, 2, OUT), (most, 10_000, OK), (most, 10_001, OUT))
    for g, leaving, verdict in pairs:
        label = f"{leaving} leaving of {g.vehicles}"
        cases.append(Case(label, replace(g, leaving=leaving), 0, verdict))
    return cases + day_edges() + coefficient_edges()


def day_edges():
    cases = []
    for month, length in enumerate(papers.MONTH_LENGTHS):
        for days, verdict in ((length, OK), (length + 1, OUT)):
            g = replace(FLEET, days=put(WORKED, month, days))
            cases.append(Case(f"{days} days in month {month + 1}", g, 0, verdict))
    cases.append(Case("days all 255", replace(FLEET, days=(255,) * 12), 0, OUT))
    return cases


def coefficient_edges():
    """The most in each of the seven places, and one more there for each pollutant. The months of
    FLEET are of all three periods, so that each place counts."""
    cases = []
    for place in range(7):
        for pollutant in (CO, LEAD):
            k = distinct(pollutant)
            g = with_coefficients(FLEET, pollutant, with_place(k, place, 1_000_000))
            cases.append(Case(f"most of {pollutant} in place {place}", g, 0, OK))
        for pollutant in papers.POLLUTANTS:
            g = DIESEL_FLEET if pollutant == SOOT else FLEET
            k = with_place(distinct(pollutant), place, 1_000_001)
            label = f"more of {pollutant} in place {place}"
            cases.append(Case(label, with_coefficients(g, pollutant, k), 0, OUT))
    wide = with_place(distinct(CO), 3, 2**32 - 1)
    cases.append(Case("CO run of 2^32 - 1", with_coefficients(FLEET, CO, wide), 0, OUT))
    return cases


def half_metre_cases():
    """Half of 101 + 200 metres is no whole metre: 150.5."""
    outward = replace(FLEET, out_nearest=101, out_farthest=200)
    inward = replace(FLEET, in_nearest=200, in_farthest=101)
    one_run = Coefficients((0, 0, 0), (1, 1, 1), 0)
    least = replace(
        with_coefficients(inward, CO, one_run),
        out_nearest=101,
        out_farthest=200,
        vehicles=1,
        leaving=1,
        share=1,
        neutraliser=1,
        days=put((0,) * 12, 0, 1),
    )
    return [
        Case("101 + 200 metres out", outward, 0, OK),
        Case("200 + 101 metres in", inward, 0, OK),
        Case("101 + 200 metres, least of all", least, 0, OK),
    ]


# 01, "Surveyed examples". The figures are those that 01 prints, of the source as often as it is
# repeated: annual tonnes and peak grams per second.


def surveyed_group(controlled=False, heated=False):
    co = Coefficients((40_000,) * 3, (100_000,) * 3, 20_000)
    return Group(
        category=CAR,
        fuel=PETROL,
        controlled=controlled,
        heated=heated,
        vehicles=10,
        leaving=4,
        share=50,
        neutraliser=100,
        warm_up_neutraliser=100,
        idle=10,
        timed=0,
        out_nearest=100,
        out_farthest=300,
        in_nearest=100,
        in_farthest=300,
        days=(20,) * 12,
        temperatures=(100,) * 12,
        coefficients=(co,) + (NO_COEFFICIENTS,) * 5,
    )


SURVEYED = [
    (Case("example B", surveyed_group(), 1, OK), "0.024000", "0.0177778"),
    (Case("example C", surveyed_group(controlled=True), 1, OK), "0.020160", "0.0146667"),
    (Case("example D", surveyed_group(heated=True), 1, OK), "0.016800", "0.0111111"),
    (Case("example E", COAL_HANDLED, 1, OK), "3.894065", "0.1764000"),
    (Case("example F", replace(COAL_HANDLED, wind=21), 1, OK), "4.672878", "0.2116800"),
    (Case("example F, 14.1", replace(COAL_HANDLED, wind=141), 1, OUT), "0.000000", "0.0000000"),
    (Case("example G", LIMESTONE_STANDING, 1, OK), "5.165597", "0.2340000"),
    (Case("example H", DUSTY_AIR, 1, OK), "0.180000", "0.0500000"),
    (Case("example I, one", THIN_AIR, 1, OK), "0.000000", "0.0000010"),
    (Case("example I, two", THIN_AIR, 2, OK), "0.000001", "0.0000020"),
    (Case("example J, 5 m2", SLAG_STANDING, 1, OK), None, "0.0000001"),
    (Case("example J, 4 m2", replace(SLAG_STANDING, amount=4), 1, OK), None, "0.0000000"),
]

# Example K: a car's warm-up minutes
SURVEYED_MINUTES = ((51, 3), (50, 4), (-50, 4), (-51, 10), (-100, 10), (-101, 15))


# The sums themselves

# The most that a sum holds, that one of its words holds, and that a factor can be
ALL = 2**128 - 1
WORD = 2**64 - 1
FACTOR = 2**32 - 1


def sums_cases(denominators):
    edge = [
        ("nothing", Sums(0, 0, 0)),
        ("anything by 0", Sums(ALL, 1, 0)),
        ("last of a word", Sums(WORD, 1, FACTOR)),
        ("a word and one", Sums(WORD + 1, WORD, FACTOR)),
        ("two last of a word", Sums(WORD, WORD, 2)),
        ("high word alone", Sums(WORD << 64, WORD << 64, FACTOR)),
        ("half of the range", Sums(2**127, 2**127, 2)),
        ("largest of all", Sums(ALL, ALL, FACTOR)),
        ("largest and one", Sums(ALL, 1, 1)),
        ("2^112 by 65535", Sums(2**112 + WORD, 2**112 - 1, 65_535)),
        ("2^96 by 2^32 - 1", Sums(2**96 - 1, 2**96, FACTOR)),
        ("2^32 - 1 by 2^32 - 1", Sums(2**32 - 1, 2**32, FACTOR)),
        ("halves of the low word", Sums(2**64 + 2**32 - 1, 2**64 + (FACTOR << 32), FACTOR)),
    ]
    for name, d in denominators:
        half = d // 2
        top = WORD * d
        edge += [
            (f"{name} one unit less than half", Sums(5 * d + half - 1, 0, 1)),
            (f"{name} half", Sums(5 * d + half, 1, 2)),
            (f"{name} half and one unit", Sums(5 * d + half + 1, 5 * d + half - 1, 3)),
            (f"{name} last unit", Sums(d - 1, 1, 65_535)),
            (f"{name} two last units", Sums(7 * d + d - 1, 8 * d + d - 1, 65_534)),
            (f"{name} one printed", Sums(d, d, 1)),
            (f"{name} past a word, and half", Sums(2**64 // d * d + d + half, d, 10)),
            (f"{name} quotient of 16 bits", Sums(d << 16, (d << 16) - 1, 65_536)),
            (f"{name} quotient of 32 bits", Sums(d << 32, (d << 32) - 1, 65_537)),
            (f"{name} quotient of 48 bits", Sums(d << 48, (d << 48) - 1, FACTOR)),
            (f"{name} high word a multiple", Sums((d << 64) + half, (d << 64) - 1, 3)),
            (f"{name} last printed and half", Sums(top + half, half, 1)),
            (f"{name} last printed, below half", Sums(top + half - 1, d, 2)),
            (f"{name} last printed, last unit", Sums(top + d - 1, 1, 65_535)),
            (f"{name} past 2^64 printed", Sums(top + d, top + d - 1, 256)),
        ]
    return [Case(label, s) for label, s in edge]


# Pseudo-random sources


class Dice:
    """A linear congruential generator (Knuth's MMIX numbers), so that every Python throws alike."""

    def __init__(self, seed):
        self.state = seed

    def below(self, n):
        self.state = (self.state * 6364136223846793005 + 1442695040888963407) % 2**64
        return (self.state >> 24) % n

    def between(self, low, high):
        return low + self.below(high - low + 1)

    def pick(self, values):
        return values[self.below(len(values))]


def any_bulk(dice):
    return dict(
        dust=dice.between(1, 3),
        store=dice.between(1, 65_535),
        material=dice.between(1, 9),
        wind=dice.between(0, 140),
        moisture=dice.pick((dice.between(0, 110), dice.between(0, 1_000))),
        grain=dice.pick((dice.between(0, 12), dice.between(0, 600), dice.between(0, 65_535))),
        openness=dice.between(1, 7),
        amount=dice.pick((dice.between(0, 5_000), dice.between(0, 1_000_000))),
    )


def any_handling(dice):
    return Handling(**any_bulk(dice), drop=dice.between(1, 8))


def any_standing(dice):
    return Standing(**any_bulk(dice), k6=dice.pick((0, dice.between(100, 200))))


def any_aspiration(dice):
    return Aspiration(
        dust=dice.between(1, 3),
        store=dice.between(1, 65_535),
        concentration=dice.between(0, 1_000_000),
        flow=dice.between(0, 1_000_000),
        capture=dice.between(0, 10_000),
        hours=dice.between(0, 8_784),
    )


def any_coefficients(dice):
    most = dice.pick((1_000, 100_000, 1_000_000))
    k = [dice.between(0, most) for _ in range(7)]
    return Coefficients(tuple(k[0:3]), tuple(k[3:6]), k[6])


def any_group(dice):
    fuel = dice.between(1, 2)
    vehicles = dice.pick((dice.between(1, 300), dice.between(1, 10_000)))
    return Group(
        category=dice.between(1, 3),
        fuel=fuel,
        controlled=dice.below(2) == 1,
        heated=dice.below(4) == 0,
        vehicles=vehicles,
        leaving=dice.between(0, vehicles),
        share=dice.between(0, 100),
        neutraliser=dice.between(0, 100),
        warm_up_neutraliser=dice.between(0, 100),
        idle=dice.between(0, 250),
        timed=0,
        out_nearest=dice.between(0, 20_000),
        out_farthest=dice.between(0, 20_000),
        in_nearest=dice.between(0, 20_000),
        in_farthest=dice.between(0, 20_000),
        days=tuple(dice.between(0, length) for length in papers.MONTH_LENGTHS),
        temperatures=tuple(dice.between(-320, 250) for _ in range(12)),
        coefficients=coefficients_for(fuel, lambda _: any_coefficients(dice)),
    )


def spoiled_bulk(dice, source):
    return replace(
        source,
        **dice.pick((
            {"dust": dice.pick((0, dice.between(4, 255)))},
            {"store": 0},
            {"material": dice.pick((0, dice.between(10, 255)))},
            {"wind": dice.between(141, 65_535)},
            {"moisture": dice.between(1_001, 65_535)},
            {"openness": dice.pick((0, dice.between(8, 255)))},
            {"amount": dice.between(1_000_001, 2**32 - 1)},
        )),
    )


def spoiled_handling(dice):
    source = any_handling(dice)
    if dice.below(4) == 0:
        return replace(source, drop=dice.pick((0, dice.between(9, 255))))
    return spoiled_bulk(dice, source)


def spoiled_standing(dice):
    source = any_standing(dice)
    if dice.below(4) == 0:
        return replace(source, k6=dice.pick((dice.between(1, 99), dice.between(201, 65_535))))
    return spoiled_bulk(dice, source)


def spoiled_aspiration(dice):
    return replace(
        any_aspiration(dice),
        **dice.pick((
            {"dust": dice.pick((0, dice.between(4, 255)))},
            {"store": 0},
            {"concentration": dice.between(1_000_001, 2**32 - 1)},
            {"flow": dice.between(1_000_001, 2**32 - 1)},
            {"capture": dice.between(10_001, 65_535)},
            {"hours": dice.between(8_785, 65_535)},
        )),
    )


def spoiled_group(dice):
    g = any_group(dice)
    month = dice.below(12)
    wild = dice.pick((dice.between(601, 32_767), dice.between(-32_768, -601)))
    long = dice.between(papers.MONTH_LENGTHS[month] + 1, 255)
    pollutant = dice.between(1, 6)
    k = with_place(distinct(pollutant), dice.below(7), dice.between(1_000_001, 2**32 - 1))
    field = dice.pick(("out_nearest", "out_farthest", "in_nearest", "in_farthest"))
    percent = dice.pick(("share", "neutraliser", "warm_up_neutraliser"))
    return dice.pick((
        replace(g, category=dice.pick((0, dice.between(4, 255)))),
        replace(g, fuel=dice.pick((0, dice.between(3, 255)))),
        replace(g, vehicles=dice.between(10_001, 65_535)),
        replace(g, leaving=dice.between(g.vehicles + 1, 65_535)),
        replace(g, **{percent: dice.between(101, 255)}),
        replace(g, idle=dice.between(251, 2**32 - 1)),
        replace(g, **{field: dice.between(20_001, 2**32 - 1)}),
        replace(g, days=put(g.days, month, long)),
        replace(g, temperatures=put(g.temperatures, month, wild)),
        with_coefficients(g, pollutant, k),
    ))


def any_sums(dice):
    def word():
        return dice.pick((dice.below(2**32), WORD - dice.below(2**32), dice.below(2**64)))

    def units():
        return (word() << 64) + word()

    return Sums(units(), units(), dice.pick((dice.below(65_536), dice.below(2**32))))


def random_cases():
    """Two dozen of each kind and more, each in range added up to nine times to the totals."""
    dice = Dice(153_34_02_317_2003)
    kinds = (
        ("handling", any_handling, spoiled_handling),
        ("standing", any_standing, spoiled_standing),
        ("aspiration", any_aspiration, spoiled_aspiration),
        ("group", any_group, spoiled_group),
    )
    cases = []
    for name, good, bad in kinds:
        for i in range(30):
            cases.append(Case(f"some {name} {i}", good(dice), dice.below(10), OK))
        for i in range(15):
            cases.append(Case(f"some {name} refused {i}", bad(dice), dice.below(3), OUT))
    return cases + [Case(f"some sums {i}", any_sums(dice)) for i in range(24)]


def all_cases(denominators):
    return (
        [case for case, _, _ in SURVEYED]
        + store_edges()
        + warm_up_cases()
        + coldest_month_cases()
        + control_cases()
        + held_at_zero_cases()
        + group_edges()
        + half_metre_cases()
        + sums_cases(denominators)
        + random_cases()
        + largest_sources()
    )


def write_side(script, stdin, stdout):
    """Writes the side of a test program's cases that the command names; only that one is made."""
    sides = {"stdin": stdin, "stdout": stdout}
    if len(sys.argv) != 2 or sys.argv[1] not in sides:
        sys.exit(f"usage: {script} stdin|stdout")
    sys.stdout.buffer.write(sides[sys.argv[1]]())

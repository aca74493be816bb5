"""The cases of timed warm-ups (02, U2): named, and the same at each run.

An edge's verdict is typed beside it, from the range of 02, and must be the one that papers.py works
out.
"""
from dataclasses import replace
from fractions import Fraction

import cases
import papers
from cases import BARRED, BAND_EDGES, DIESEL_FLEET, FLEET, MOST_GROUPS, OK, OUT, WORKED
from cases import Case, Dice, accepted, all_year, degrees, edges, out_of_range
from papers import BUS, CAR, CO, PETROL, SOOT, TRUCK, Coefficients

# No number of FLEET, and no minutes of 000 table 9 or of a heated stand
TENTHS = 47

NAMES = {CAR: "car", TRUCK: "truck", BUS: "bus"}

# A year with each of the seven columns of table 9 but the last but one
SEVERE = (-386, -338, -181, -48, 75, 160, 195, 152, 61, -78, -142, -376)

TIMED = replace(FLEET, timed=TENTHS, temperatures=SEVERE)
TIMED_DIESEL = replace(DIESEL_FLEET, timed=TENTHS, temperatures=SEVERE)


# Worked by hand: 01's example B with other minutes, 200 m of 10 g/km and 1 min of 2 g each way,
# 1,200 ways out in a year, 4 in the hour.
#
# 0.1 min: out 4 × 0.1 + 2 + 2 = 4.4, in 4, together 8.4 × 1,200 = 10,080 g; 4.4 × 4 / 3600 g/s.
# 2.5 min: out 4 × 2.5 + 2 + 2 = 14, in 4, together 18 × 1,200 = 21,600 g; 14 × 4 / 3600 g/s. The
# same on a heated stand, since B's coefficients are those of each period.
# 2.5 min with control: out 10 × 0.8 + 2 + 2 × 0.8 = 11.6, in 3.6, together 15.2 × 1,200 = 18,240 g;
# 11.6 × 4 / 3600 g/s.
# 25 min: out 4 × 25 + 2 + 2 = 104, in 4, together 108 × 1,200 = 129,600 g; 104 × 4 / 3600 g/s.
#
# At -20.0 with 1, 2 and 3 g a minute of warm-up, 10, 20 and 30 g/km and 1 g a minute idle, 4 min:
# out 3 × 4 + 30 × 0.2 + 1 = 19, in 7, together 26 × 1,200 = 31,200 g; 19 × 4 / 3600 g/s. Heated:
# out 1 × 4 + 10 × 0.2 + 1 = 7, in 3, together 10 × 1,200 = 12,000 g; 7 × 4 / 3600 g/s.


def surveyed(timed, **flags):
    return replace(cases.surveyed_group(**flags), timed=timed)


def surveyed_cold(heated):
    k = Coefficients((10_000, 20_000, 30_000), (100_000, 200_000, 300_000), 10_000)
    return cases.with_coefficients(all_year(surveyed(40, heated=heated), -200), CO, k)


BY_HAND = [
    (Case("B timed 0.1", surveyed(1), 1, OK), "0.010080", "0.0048889"),
    (Case("B timed 2.5", surveyed(25), 1, OK), "0.021600", "0.0155556"),
    (Case("B timed 25.0", surveyed(250), 1, OK), "0.129600", "0.1155556"),
    (Case("B timed as in the table", surveyed(30), 1, OK), "0.024000", "0.0177778"),
    (Case("C timed 2.5", surveyed(25, controlled=True), 1, OK), "0.018240", "0.0128889"),
    (Case("D timed 2.5", surveyed(25, heated=True), 1, OK), "0.021600", "0.0155556"),
    (Case("D timed 1.5", surveyed(15, heated=True), 1, OK), "0.016800", "0.0111111"),
    (Case("timed 4.0, all cold", surveyed_cold(False), 1, OK), "0.031200", "0.0211111"),
    (Case("timed 4.0, heated, all cold", surveyed_cold(True), 1, OK), "0.012000", "0.0077778"),
]


# Edges


def value_edges():
    """The ends of the range, in a group without and in one with a heated stand."""
    heated = replace(TIMED_DIESEL, heated=True)
    petrol = accepted(0, 1, 249, 250) + out_of_range(251, 255)
    diesel = accepted(1, 250) + out_of_range(251)
    return edges("group", TIMED, "timed", petrol) + edges("heated", heated, "timed", diesel)


def wide_edges():
    """Those that only the rule can be handed: a slot has a byte for them. The low byte, or the low
    two, of some would be in range."""
    values = out_of_range(256, 257, 65_536 + 15, 2**24 + TENTHS, 2**32 - 1)
    heated = replace(TIMED_DIESEL, heated=True)
    return edges("group", TIMED, "timed", values) + edges("heated", heated, "timed", values[1:2])


def band_cases():
    """Each side of each edge of table 9 and of the periods: the minutes stay, and the coefficients
    go by the month where the stand is not heated."""
    found = []
    for t in BAND_EDGES:
        found.append(Case(f"timed at {degrees(t)}", all_year(TIMED, t), 0, OK))
    for t, category in ((51, TRUCK), (50, BUS), (-51, BUS), (-251, TRUCK)):
        g = replace(all_year(TIMED_DIESEL, t), category=category)
        found.append(Case(f"timed {NAMES[category]} at {degrees(t)}", g, 0, OK))
    for t in (51, -50, -251):
        g = replace(all_year(TIMED, t), heated=True)
        found.append(Case(f"timed, heated at {degrees(t)}", g, 0, OK))
    return found


def flag_cases():
    """Each fuel and both flags, over a severe year, and each category among them."""
    found = []
    for name, g in (("petrol", TIMED), ("diesel", TIMED_DIESEL)):
        for flags in range(4):
            both = dict(controlled=flags % 2 == 1, heated=flags >= 2)
            category = (CAR, TRUCK, BUS)[flags % 3]
            label = f"timed {name}, flags {flags}"
            found.append(Case(label, replace(g, category=category, **both), 0, OK))
    return found


def month_cases():
    """Days in some months, and N' of zero: what is left of the annual mass and of the peak."""
    july, winter = cases.put((0,) * 12, 6, 23), WORKED[:3] + (0,) * 8 + WORKED[11:]
    lone = cases.one_month_other(100, 1, -260)
    return [
        Case("timed, days in July only", replace(TIMED, days=july), 0, OK),
        Case("timed, days in the winter only", replace(TIMED, days=winter), 0, OK),
        Case("timed, no days", replace(TIMED, days=(0,) * 12), 0, OK),
        Case("timed, coldest in February", replace(TIMED, temperatures=lone), 0, OK),
        Case("timed, nobody leaving", replace(TIMED, leaving=0), 0, OK),
        Case("timed, warm-up neutralised", replace(TIMED, warm_up_neutraliser=0), 0, OK),
    ]


def refusal_cases():
    """The byte beside other fields, and 9 before 11."""
    soot = cases.with_coefficients(TIMED, SOOT, cases.distinct(SOOT))
    return [
        Case("timed, with soot", soot, 0, BARRED),
        Case("timed 251, with soot", replace(soot, timed=251), 0, OUT),
        Case("timed 251, idle 250", replace(TIMED, timed=251, idle=250), 0, OUT),
        Case("timed 250, idle 251", replace(TIMED, timed=250, idle=251), 0, OUT),
        Case("timed at 60.1", all_year(TIMED, 601), 0, OUT),
    ]


# 000 table 9 in tenths of a minute, and a temperature of each column. The last two of a truck and a
# bus, 30 minutes, are above what can be timed.
TABLE = [
    (600, {CAR: 30, TRUCK: 40}),
    (50, {CAR: 40, BUS: 60}),
    (-51, {CAR: 100, TRUCK: 120}),
    (-101, {CAR: 150, BUS: 200}),
    (-151, {CAR: 150, TRUCK: 250, BUS: 250}),
    (-201, {CAR: 200}),
    (-251, {CAR: 200}),
]


def as_in_table():
    """Groups timed at what they would have untimed, in a year of one column: label and group."""
    found = []
    for t, column in TABLE:
        for category, tenths in column.items():
            fleet = TIMED if category == CAR else TIMED_DIESEL
            g = replace(all_year(fleet, t), category=category, timed=tenths)
            found.append((f"{NAMES[category]} timed {tenths} at {degrees(t)}", g))
    for name, g in (("petrol", TIMED), ("diesel", TIMED_DIESEL)):
        found.append((f"{name} heated, timed 15", replace(g, heated=True, timed=15)))
    return found


def as_in_table_cases():
    return [Case(label, g, 0, OK) for label, g in as_in_table()]


def source_edges():
    """All that a slot can hold."""
    return (
        value_edges()
        + band_cases()
        + flag_cases()
        + month_cases()
        + refusal_cases()
        + as_in_table_cases()
    )


# The largest


def largest_timed():
    """A truck's 30 minutes are above these."""
    most = replace(cases.largest_group(PETROL), heated=True, timed=250)
    nearly = replace(cases.nearly_largest_group(), timed=249)
    return [
        Case("largest timed group", most, MOST_GROUPS, OK),
        Case("nearly the largest timed group", nearly, MOST_GROUPS, OK),
    ]


# Pseudo-random ones


def any_timing(dice):
    """Half of them untimed."""
    return dice.pick((0, dice.between(1, 250)))


def any_group(dice):
    return replace(cases.any_group(dice), timed=any_timing(dice))


def spoiled_group(dice):
    """Out of range in this field alone, or in another beside it."""
    wild = dice.pick((251, dice.between(251, 300), dice.between(251, 2**32 - 1)))
    if dice.below(2) == 0:
        return replace(cases.any_group(dice), timed=wild)
    return replace(cases.spoiled_group(dice), timed=dice.pick((wild, dice.between(1, 250))))


def random_cases():
    dice = Dice(36)
    good = [Case(f"any timing {i}", any_group(dice), dice.below(10), OK) for i in range(7)]
    bad = [Case(f"any timing refused {i}", spoiled_group(dice), 0, OUT) for i in range(4)]
    return good + bad


def all_cases():
    return (
        [case for case, _, _ in BY_HAND]
        + source_edges()
        + wide_edges()
        + random_cases()
        + largest_timed()
    )


# What must hold of them


def assert_minutes():
    """The minutes of a timed group are the timed ones at every temperature, whatever its category
    and its stand, and its category has no other part in what it gives."""
    for t in BAND_EDGES:
        for category in NAMES:
            for heated in (False, True):
                g = replace(TIMED, category=category, heated=heated)
                assert papers.warm_up_minutes(g, Fraction(t, 10)) * 10 == TENTHS, (g, t)
    for g in (TIMED, TIMED_DIESEL, replace(TIMED_DIESEL, heated=True)):
        answers = {papers.group(replace(g, category=category)) for category in NAMES}
        assert len(answers) == 1, g


def assert_as_in_table():
    """Timed at the table's minutes, or a heated stand at 1.5, a group gives what it gives untimed;
    a tenth more or less, it does not."""
    for label, g in as_in_table():
        untimed = papers.group(replace(g, timed=0))
        assert papers.group(g) == untimed, label
        for off in (g.timed - 1, g.timed + 1):
            other = papers.group(replace(g, timed=off))
            assert other != untimed and (other.verdict == OUT) == (off > 250), (label, off)

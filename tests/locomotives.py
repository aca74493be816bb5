"""The cases of locomotives (02, U1): named, and the same at each run.

An edge's verdict is typed beside it, from the ranges of 02, and must be the one that papers.py
works out.
"""
from dataclasses import replace

import papers
from cases import MOST_RECORDS, OK, OUT, Case, Dice, accepted, edges, out_of_range
from papers import Locomotive

UNEVEN = papers.SHARES_NOT_WHOLE

MODES = ("idle", "quarter", "half", "three_quarters", "full")
MODELS = (1, 2, 3, 4)

# 000 table 22, percent of the time: the first line is that of ТГМ6 and ТГМ4, the second that of
# ТГМ3, ТГК2 and ТУ4
HEAVY = dict(idle=687, quarter=201, half=89, three_quarters=15, full=8)
LIGHT = dict(idle=701, quarter=194, half=85, three_quarters=13, full=7)

SHUNTER = Locomotive(model=1, **HEAVY, hours=3_000, old=1, zone=2)
SMALL = Locomotive(model=4, **LIGHT, hours=1_234, old=0, zone=3)


def with_shares(source, **shares):
    """The locomotive with these shares, and zero in every mode that is not named."""
    return replace(source, **{mode: shares.get(mode, 0) for mode in MODES})


IDLING = with_shares(replace(SMALL, hours=1, zone=2), idle=1_000)


# Worked by hand from 000: the tonnes in a year, exactly, and the kg/h that make the peak, of CO,
# NO2 and soot.
#
# ТГМ6, table 22's shares, 3,000 hours, over two years old, zone 2.
# CO    0.84 × 0.687 = 0.57708    NO2   4.11 × 0.687 = 2.82357    soot  0.02 × 0.687 = 0.01374
#       0.92 × 0.201 = 0.18492          9.86 × 0.201 = 1.98186          0.06 × 0.201 = 0.01206
#       1.36 × 0.089 = 0.12104         11.37 × 0.089 = 1.01193          0.18 × 0.089 = 0.01602
#       2.09 × 0.015 = 0.03135         13.04 × 0.015 = 0.19560          0.29 × 0.015 = 0.00435
#       4.13 × 0.008 = 0.03304         15.21 × 0.008 = 0.12168          0.38 × 0.008 = 0.00304
#               sum    0.94743                  sum    6.13464                  sum    0.04921
# Each × 3,000 × 1.2 × 1 × 0.7 / 1000 = × 2.52: 2.3875236, 15.4592928, 0.1240092 t.
# Peaks: 4.13 / 3.6 = 1.14722.., 15.21 / 3.6 = 4.225, 0.38 / 3.6 = 0.10555.. g/s.
#
# ТУ4, idle for one hour, not old, zone 2: × 1 × 0.7 / 1000: 0.17, 0.45 and 0.004 kg are 0.000119,
# 0.000315 and 0.0000028 t. Peaks: 0.17 / 3.6 = 0.04722.., 0.45 / 3.6 = 0.125, 0.004 / 3.6 =
# 0.00111.. g/s.
BY_HAND = [
    (
        Case("TGM6 by hand", SHUNTER, 1, OK),
        (("2.3875236", "4.13"), ("15.4592928", "15.21"), ("0.1240092", "0.38")),
    ),
    (
        Case("TU4 idle by hand", IDLING, 1, OK),
        (("0.000119", "0.17"), ("0.000315", "0.45"), ("0.0000028", "0.004")),
    ),
]


# Edges


def table_cases():
    """Each model in each mode alone, and in each mode beside idling for a thousandth of the time:
    the greater kg/h of the modes above it are not reached."""
    found = []
    for model in MODELS:
        for place, mode in enumerate(MODES):
            alone = with_shares(replace(SHUNTER, model=model), **{mode: 1_000})
            found.append(Case(f"model {model} {mode} alone", alone, 0, OK))
            if place > 0:
                seldom = with_shares(replace(SMALL, model=model), idle=999, **{mode: 1})
                found.append(Case(f"model {model} {mode} seldom", seldom, 0, OK))
    return found


def share_edges():
    """What is left of the time is that of the next mode."""
    found = []
    for place, mode in enumerate(MODES):
        rest = MODES[(place + 1) % len(MODES)]
        for share in (0, 1, 999, 1_000):
            both = with_shares(SHUNTER, **{mode: share, rest: 1_000 - share})
            found.append(Case(f"{mode} share {share}", both, 0, OK))
        for share in (1_001, 65_535):
            more = with_shares(SHUNTER, **{mode: share})
            found.append(Case(f"{mode} share {share}", more, 0, OUT))
    round_again = with_shares(SHUNTER, idle=65_535, full=1_001)
    return found + [Case("shares of 65,536 and 1,000", round_again, 0, OUT)]


def total_cases():
    """Question 14: each share one off, and other totals."""
    found = []
    for mode, share in HEAVY.items():
        for off in (-1, 1):
            source = replace(SHUNTER, **{mode: share + off})
            found.append(Case(f"{mode} {off:+} of the total", source, 0, UNEVEN))
    others = ((0,) * 5, (1_000,) * 5, (999, 0, 0, 0, 0), (0, 0, 0, 1, 1_000), (200, 200, 200, 200, 456))
    for shares in others:
        source = replace(SHUNTER, **dict(zip(MODES, shares)))
        found.append(Case(f"shares total {sum(shares)}", source, 0, UNEVEN))
    return found


def both_refusals():
    """9 with 14: 9 comes first."""
    short = replace(SHUNTER, idle=686)
    fields = dict(model=(0, 5), hours=(8_785,), old=(2,), zone=(0, 4), full=(1_001,))
    return [
        case
        for field, values in fields.items()
        for case in edges("uneven", short, field, out_of_range(*values))
    ]


def field_edges():
    fields = dict(
        model=out_of_range(0) + accepted(*MODELS) + out_of_range(5, 255),
        hours=accepted(0, 1, 8_783, 8_784) + out_of_range(8_785, 65_535),
        old=accepted(0, 1) + out_of_range(2, 255),
        zone=out_of_range(0) + accepted(1, 2, 3) + out_of_range(4, 255),
    )
    return [c for field, values in fields.items() for c in edges("engine", SHUNTER, field, values)]


def factor_cases():
    """Either age in each zone; the peak is that of all six."""
    return [
        Case(f"age {old} in zone {zone}", replace(SMALL, old=old, zone=zone), 0, OK)
        for old in (0, 1)
        for zone in (1, 2, 3)
    ]


def source_edges():
    return (
        table_cases()
        + share_edges()
        + total_cases()
        + both_refusals()
        + field_edges()
        + factor_cases()
    )


# The most kg/h of each substance are those of ТГМ6 at full power
LARGEST = with_shares(Locomotive(1, 0, 0, 0, 0, 0, hours=8_784, old=1, zone=1), full=1_000)
NEARLY = replace(with_shares(LARGEST, half=1, full=999), hours=8_783)


# Pseudo-random ones


def any_shares(dice):
    """Five that total 1,000: the modes between some cuts of the whole."""
    cuts = sorted(dice.pick((0, 1_000, dice.below(1_001), dice.below(1_001))) for _ in range(4))
    return [high - low for low, high in zip([0] + cuts, cuts + [1_000])]


def any_locomotive(dice):
    return Locomotive(
        dice.between(1, 4),
        *any_shares(dice),
        hours=dice.between(0, 8_784),
        old=dice.below(2),
        zone=dice.between(1, 3),
    )


def out_of_range_locomotive(dice):
    field, values = dice.pick((
        ("model", (0, dice.between(5, 255))),
        (dice.pick(MODES), (1_001, dice.between(1_001, 65_535))),
        ("hours", (8_785, dice.between(8_785, 65_535))),
        ("old", (2, dice.between(2, 255))),
        ("zone", (0, dice.between(4, 255))),
    ))
    return replace(any_locomotive(dice), **{field: dice.pick(values)})


def uneven_locomotive(dice):
    """One share changed, within its range."""
    source = any_locomotive(dice)
    mode = dice.pick(MODES)
    share = (getattr(source, mode) + dice.between(1, 1_000)) % 1_001
    return replace(source, **{mode: share})


def random_cases():
    dice = Dice(21_22)
    kinds = (
        ("", any_locomotive, 25, OK),
        (" refused", out_of_range_locomotive, 10, OUT),
        (" uneven", uneven_locomotive, 10, UNEVEN),
    )
    return [
        Case(f"some locomotive{name} {i}", make(dice), dice.below(10), verdict)
        for name, make, number, verdict in kinds
        for i in range(number)
    ]


def all_cases():
    return (
        [case for case, _ in BY_HAND]
        + source_edges()
        + random_cases()
        + [
            Case("largest locomotive", LARGEST, MOST_RECORDS, OK),
            Case("nearly the largest locomotive", NEARLY, MOST_RECORDS, OK),
        ]
    )

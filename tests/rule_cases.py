"""Writes what the program rule_cases reads, or what it must print.

    python3 tests/rule_cases.py stdin  > crates/rule_cases/stdin
    python3 tests/rule_cases.py stdout > crates/rule_cases/stdout

The cases are those of cases.py, locomotives.py and timed.py, and what must be printed is worked out
by papers.py.

A case is a record of 320 bytes, numbers little-endian, other bytes zero:

    0..31   label, ASCII, padded with spaces
    32      kind: 1 handling, 2 standing, 3 aspiration, 4 group, 5 sums, 6 locomotive
    34..35  how often the answer is added to the totals
    1, 2:   40 dust, 41 material, 42..43 store, 44..45 wind, 46..47 moisture, 48..49 grain,
            50 openness, 51 drop class, 52..55 amount, 56..57 K6
    3:      40 dust, 42..43 store, 44..47 concentration, 48..51 flow, 52..53 capture, 54..55 hours
    4:      40 category, 41 fuel, 42 control, 43 heated, 44..45 N, 46..47 N', 48 share,
            49 neutraliser for run and idle, 50 for warm-up, 52..55 idle time,
            56..59 timed warm-up, 60..75 four distances, 76..87 days, 88..111 temperatures
            (signed), 112..279 six pollutants of seven coefficients
    5:      40..55 exact units of a sum and 56..71 of another, 72..75 factor
    6:      40 model, 41 old, 42 zone, 44..53 five shares, 54..55 hours

Of a source the program prints its label, verdict and slot, then a line for each emission: code,
annual whole and part, peak whole and part, annual and peak figure; one line for a store record, six
for a group, three for a locomotive. Where the source is added to the totals, the lines follow of
its emissions added up so often, with no code. Of sums it prints, for either type, `of` the first's
low word, the sum, the product of the first and the factor, each as high word, low word, whole and
part, and the figure of the first. The totals come last: six lines, each with the emissions that
stand in its place, so that a locomotive's are in the first three. A record that is cut off is left
out.
"""
import sys

sys.dont_write_bytecode = True

import struct
from fractions import Fraction
from math import floor

import cases
import locomotives
import papers
import timed

# Every exact unit has one denominator (01, "Figures"): parts in a printed unit
ANNUAL_PARTS = 20_000_000_000_000
PEAK_PARTS = 72_000_000

# A sum is exact units in two words of 64 bits; a figure, and the whole of a printed sum, is one
WORDS = 2**128
WHOLES = 2**64

DENOMINATORS = (("annual", ANNUAL_PARTS), ("peak", PEAK_PARTS))

RULES = {
    papers.Handling: papers.handling,
    papers.Standing: papers.standing,
    papers.Aspiration: papers.aspiration,
    papers.Group: papers.group,
    papers.Locomotive: papers.locomotive,
}


# The program's input


def bulk_fields(r, drop, k6):
    heads = struct.pack("<BBHHHH", r.dust, r.material, r.store, r.wind, r.moisture, r.grain)
    return heads + struct.pack("<BBIH", r.openness, drop, r.amount, k6)


def aspiration_fields(r):
    return struct.pack("<BxHIIHH", r.dust, r.store, r.concentration, r.flow, r.capture, r.hours)


def group_fields(g):
    flags = struct.pack("<BBBB", g.category, g.fuel, g.controlled, g.heated)
    vehicles = struct.pack("<HH", g.vehicles, g.leaving)
    percents = struct.pack("<BBBx", g.share, g.neutraliser, g.warm_up_neutraliser)
    times = struct.pack("<II", g.idle, g.timed)
    ways = struct.pack("<IIII", g.out_nearest, g.out_farthest, g.in_nearest, g.in_farthest)
    months = struct.pack("<12B12h", *g.days, *g.temperatures)
    coefficients = [k for c in g.coefficients for k in c.all_seven()]
    numbers = flags + vehicles + percents + times + ways + months
    return numbers + struct.pack("<42I", *coefficients)


def sums_fields(s):
    return s.units.to_bytes(16, "little") + s.other.to_bytes(16, "little") + struct.pack("<I", s.factor)


def locomotive_fields(r):
    return struct.pack("<BBBx6H", r.model, r.old, r.zone, *r.shares(), r.hours)


FIELDS = {
    papers.Handling: (1, lambda r: bulk_fields(r, r.drop, 0)),
    papers.Standing: (2, lambda r: bulk_fields(r, 0, r.k6)),
    papers.Aspiration: (3, aspiration_fields),
    papers.Group: (4, group_fields),
    cases.Sums: (5, sums_fields),
    papers.Locomotive: (6, locomotive_fields),
}


def label_of(case):
    label = case.label.encode("ascii")
    assert len(label) <= 32, case.label
    return label.ljust(32)


def record(case):
    kind, fields = FIELDS[type(case.source)]
    assert 0 <= case.repeat <= cases.MOST_RECORDS
    head = label_of(case) + struct.pack("<BxH4x", kind, case.repeat)
    return (head + fields(case.source)).ljust(320, b"\0")


def all_records(every):
    """All cases, and at the end a record that is cut off, which the program leaves out."""
    return b"".join(map(record, every)) + record(every[0])[:160]


# What the program must print


def mixed(units, parts):
    """Whole units and parts of one. The denominator must hold the fraction exactly."""
    whole = floor(units)
    part = (units - whole) * parts
    assert part.denominator == 1, units
    assert whole < WHOLES, units
    return f"{whole} {part.numerator}"


def sums_line(tonnes, rate):
    annual = mixed(tonnes * papers.ANNUAL_UNITS, ANNUAL_PARTS)
    peak = mixed(rate * papers.PEAK_UNITS, PEAK_PARTS)
    return f"{annual} {peak} {papers.annual_figure(tonnes)} {papers.peak_figure(rate)}"


def source_lines(case, totals):
    answer = RULES[type(case.source)](case.source)
    assert answer.verdict == case.verdict, case
    yield f"{answer.verdict} {answer.slot}"
    for e in answer.emissions:
        yield f"{e.code} {sums_line(e.tonnes, e.rate)}"
    if case.repeat == 0:
        return
    yield f"added {case.repeat}"
    for place, e in enumerate(answer.emissions):
        tonnes, rate = case.repeat * e.tonnes, case.repeat * e.rate
        yield sums_line(tonnes, rate)
        totals[place] = (totals[place][0] + tonnes, totals[place][1] + rate)


def sum_words(units, denominator):
    """A sum of so many units holds them modulo 2^128: its words, and its whole and part."""
    held = units % WORDS
    words = f"{held // WHOLES} {held % WHOLES}"
    return f"{words} {held // denominator % WHOLES} {held % denominator}"


def sums_lines(s):
    yield "sums"
    for name, denominator in DENOMINATORS:
        yield f"{name} of {sum_words(s.units % WHOLES, denominator)}"
        yield f"{name} plus {sum_words(s.units + s.other, denominator)}"
        yield f"{name} times {sum_words(s.units * s.factor, denominator)}"
        yield f"{name} rounded {papers.figure(Fraction(s.units, denominator)) % WHOLES}"


def printed(case, totals):
    is_sums = isinstance(case.source, cases.Sums)
    lines = sums_lines(case.source) if is_sums else source_lines(case, totals)
    text = "".join(line + "\n" for line in lines)
    return label_of(case) + b" " + text.encode("ascii")


def all_printed(every):
    totals = [(Fraction(0), Fraction(0))] * 6
    text = [printed(case, totals) for case in every]
    text.append(b"totals\n")
    text += [f"{sums_line(*total)}\n".encode("ascii") for total in totals]
    return b"".join(text)


# What 01 prints of its surveyed examples, and what was worked out by hand of timed ones


def assert_surveyed():
    for case, tonnes, rate in cases.SURVEYED + timed.BY_HAND:
        first = RULES[type(case.source)](case.source).emissions[0]
        annual = papers.annual_figure(case.repeat * first.tonnes)
        peak = papers.peak_figure(case.repeat * first.rate)
        assert tonnes is None or annual == Fraction(tonnes) * papers.ANNUAL_UNITS, case.label
        assert peak == Fraction(rate) * papers.PEAK_UNITS, case.label
    car = cases.surveyed_group()
    for tenths, minutes in cases.SURVEYED_MINUTES:
        assert papers.warm_up_minutes(car, Fraction(tenths, 10)) == minutes, tenths


def assert_by_hand():
    """The locomotives that were worked out by hand: nothing is rounded."""
    for case, figures in locomotives.BY_HAND:
        emissions = papers.locomotive(case.source).emissions
        assert [e.code for e in emissions] == [337, 301, 328], case.label
        for e, (tonnes, kilograms) in zip(emissions, figures):
            assert e.tonnes == Fraction(tonnes), (case.label, e)
            assert e.rate == Fraction(kilograms) / Fraction("3.6"), (case.label, e)


def main():
    assert_surveyed()
    assert_by_hand()
    timed.assert_minutes()
    timed.assert_as_in_table()
    every = cases.all_cases(DENOMINATORS) + locomotives.all_cases() + timed.all_cases()
    labels = [case.label for case in every]
    assert len(set(labels)) == len(labels), [x for x in labels if labels.count(x) > 1]
    cases.write_side("rule_cases.py", lambda: all_records(every), lambda: all_printed(every))


if __name__ == "__main__":
    main()

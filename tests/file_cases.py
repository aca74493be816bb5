"""Writes what the test program of whole files reads, or what it must print.

    python3 tests/file_cases.py stdin
    python3 tests/file_cases.py stdout

The files are those of file_edges.py, file_locomotives.py, file_timed.py, file_faults.py and
file_mixes.py, and what must be printed is worked out by slot_file.py.

The input is one record after another: 4 bytes, the length n of the file; 2 bytes, a number b; the n
bytes of the file. Numbers are little-endian. Where b is 65,535 the program prints what the program
inventory prints for this file. Otherwise it checks the file and prints `checked`, number and slot,
parted by spaces, and a line feed; lends a buffer of b bytes, each a tilde, and prints `listed`,
number, slot and length in the same way; then the b bytes of the buffer as they are after the call,
and a line feed. After the last record it prints nothing more.
"""
import sys

sys.dont_write_bytecode = True

import struct
from collections import Counter
from dataclasses import replace
from fractions import Fraction

import cases
import file_edges
import file_faults
import file_locomotives
import file_mixes
import file_timed
import files
import inventory
import papers
import slot_file
import tikhvin
import timed
from cases import Dice
from files import ACCEPTED, FileCase

PRINTED = 65_535
LONGEST = 65_600
MOST_LENT = 700


# Lent buffers


def lent_to(dice, case):
    """Buffers as long as the listing, a byte short and a byte longer, and one of another length."""
    exact = len(slot_file.printed(case.data))
    others = (0, dice.below(exact), exact + dice.between(2, 20), dice.between(exact, MOST_LENT))
    sizes = (exact, exact - 1, exact + 1, dice.pick(others))
    return [replace(case, lent=size) for size in sizes]


def lent():
    dice = Dice(13)
    found = []
    good = file_edges.surveyed() + file_mixes.valid()[:70] + file_mixes.halves()[:10]
    for case in good:
        if case.expected == ACCEPTED:
            found += lent_to(dice, case)
    bad = file_edges.lone_faults()[100:230:2] + file_edges.lengths()[:12]
    bad += file_edges.wrong_words()[:24] + file_edges.temperatures()[10:20]
    for case in bad:
        size = dice.pick((0, 1, 11, dice.below(300), 300, MOST_LENT))
        found.append(replace(case, lent=size))
    for size in (0, 1, 266, 267, 268, 269, 270, 271, MOST_LENT):
        found.append(FileCase("no sources", files.build().data, ACCEPTED, size))
    return found + lent_with_locomotives() + lent_with_timings()


def lent_with_locomotives():
    dice = Dice(14)
    found = []
    for case in file_locomotives.by_hand() + file_mixes.valid_with_locomotives()[:10]:
        found += lent_to(dice, case)
    for case in file_locomotives.lone_faults()[20:100:4]:
        found.append(replace(case, lent=dice.pick((0, dice.below(300), 300, MOST_LENT))))
    return found


def lent_with_timings():
    dice = Dice(15)
    found = []
    for case in file_timed.by_hand()[1::4] + file_mixes.valid_timed()[:3]:
        found += lent_to(dice, case)
    for case in file_timed.values()[8:13]:
        found.append(replace(case, lent=dice.pick((0, dice.below(300), MOST_LENT))))
    return found


def textbook():
    """The worked example of document 003 (tikhvin.py)."""
    return [FileCase("car park in Tikhvin", tikhvin.inventory(tikhvin.PARK, tikhvin.ROAD), ACCEPTED)]


def all_files():
    edges = file_edges.edge_files() + file_locomotives.edge_files() + file_timed.edge_files()
    edges += file_faults.faulty_pairs()
    full = file_mixes.full() + file_mixes.full_of_locomotives() + file_mixes.full_of_timed_groups()
    return edges + textbook() + file_mixes.mixed_files() + lent() + full


# The program's input and output


def record(case):
    b = PRINTED if case.lent is None else case.lent
    assert len(case.data) <= LONGEST and (b == PRINTED or b <= MOST_LENT), case.label
    return struct.pack("<IH", len(case.data), b) + case.data


def output(case):
    if case.lent is None:
        return slot_file.printed(case.data)
    a = slot_file.answer(case.data)
    number, slot, length, buffer = slot_file.listed(case.data, b"~" * case.lent)
    lines = f"checked {a.number} {a.slot}\nlisted {number} {slot} {length}\n"
    return lines.encode("ascii") + buffer + b"\n"


# What 01 prints of its surveyed examples


def expected_listing(source, tonnes, rate, repeat):
    """The listing of an example: zero but for the line of its first substance."""
    first = slot_file.given(source)[0].code
    lines = ["code t/year g/s"]
    for code in slot_file.CODES:
        figures = f"{tonnes} {rate}" if code == first else "0.000000 0.0000000"
        lines.append(f"{code:04} {figures}")
    groups = repeat if isinstance(source, papers.Group) else 0
    lines.append(f"sources {groups} {repeat - groups} 0")
    return "".join(line + "\n" for line in lines).encode("ascii")


def assert_surveyed():
    """Examples A to J. Of J 01 prints the peak only."""
    by_label = {case.label: case for case in file_edges.surveyed()}
    nothing = inventory.LISTING.replace(b"0.024000 0.0177778", b"0.000000 0.0000000")
    nothing = nothing.replace(b"sources 1 0 0", b"sources 0 0 0")
    assert output(by_label["example A"]) == nothing
    assert output(by_label["example B"]) == inventory.LISTING
    assert output(by_label["example F, 14.1"]) == b"refused 9 1\n"
    for case, tonnes, rate in cases.SURVEYED:
        text = output(by_label[case.label])
        if tonnes is None:
            assert f" {rate}\n2909" in text.decode(), case.label
        elif case.verdict == cases.OK:
            assert text == expected_listing(case.source, tonnes, rate, case.repeat), case.label


# The first of the locomotives that were worked out by hand, rounded: 15.4592928, 0.1240092 and
# 2.3875236 t; 4.225, 0.10555.. and 1.14722.. g/s
BY_HAND = b"""\
code t/year g/s
0152 0.000000 0.0000000
0184 0.000000 0.0000000
0301 15.459293 4.2250000
0328 0.124009 0.1055556
0330 0.000000 0.0000000
0337 2.387524 1.1472222
2704 0.000000 0.0000000
2754 0.000000 0.0000000
2908 0.000000 0.0000000
2909 0.000000 0.0000000
sources 0 0 1
"""


def assert_by_hand():
    assert output(file_locomotives.by_hand()[0]) == BY_HAND
    for case, (source, tonnes, rate) in zip(file_timed.by_hand(), timed.BY_HAND):
        assert output(case) == expected_listing(source.source, tonnes, rate, 1), case.label


def assert_minutes():
    """Example K, in files: B's 4 g a minute, 2 g of run and 2 g of idle, four cars in an hour."""
    for tenths, minutes in cases.SURVEYED_MINUTES:
        f = files.build([cases.surveyed_group()], months=(tenths,) * 12)
        peak = papers.peak_figure(Fraction(4 * (4 * minutes + 2 + 2), 3_600))
        at = slot_file.CODES.index(337)
        assert slot_file.answer(f.data).figures[at][1] == peak, tenths


def only_figures(f):
    """The annual and the peak figure of a file that has one substance."""
    return tuple(map(sum, zip(*slot_file.answer(f.data).figures)))


def assert_halves():
    """The letter, 3: "an exact half goes up"; 01: "Rounding happens once"."""
    for capture, times, peak in ((9_501, 1, 0), (9_500, 1, 1), (9_500, 2, 1), (9_500, 3, 2)):
        f = files.build(stores=[file_mixes.half_air(capture)] * times)
        assert only_figures(f) == (0, peak), (capture, times)
    for coefficient, times, annual in ((2_499, 1, 0), (2_500, 1, 1), (2_500, 2, 1), (2_500, 3, 2)):
        f = files.build([file_mixes.idle_group(coefficient, 10)] * times)
        assert only_figures(f)[0] == annual, (coefficient, times)
    assert_half_locomotives()


def assert_half_locomotives():
    """17.5 and 19.25 g of soot; 122.5 g of CO, and 0.5 g from each of the cars."""
    half, quarter = file_mixes.HALF_SOOT, file_mixes.QUARTER_SOOT
    soots = ((half, 1, 18), (half, 2, 35), (half, 3, 53), (quarter, 1, 19), (quarter, 2, 39))
    for engine, times, annual in soots:
        f = files.build(locomotives=[engine] * times)
        assert slot_file.answer(f.data).figures[slot_file.CODES.index(328)][0] == annual, times
    for cars, annual in ((0, 123), (1, 123), (2, 124)):
        groups = [file_mixes.idle_group(2_500, 10)] * cars
        f = files.build(groups, locomotives=[file_mixes.HALF_CO])
        assert slot_file.answer(f.data).figures[slot_file.CODES.index(337)][0] == annual, cars


def assert_buffers():
    """01: "A refused listing has length 0 and changes no byte of the buffer"; an accepted one
    "changes nothing beyond it"."""
    data = file_edges.YARD.data
    text = slot_file.printed(data)
    size = len(text)
    assert slot_file.listed(data, b"x" * (size - 1)) == (13, 0, 0, b"x" * (size - 1))
    assert slot_file.listed(data, b"x" * size) == (0, 0, size, text)
    assert slot_file.listed(data, b"x" * (size + 3)) == (0, 0, size, text + b"xxx")
    assert slot_file.listed(data[:-1], b"x" * size) == (1, 0, 0, b"x" * size)


# What the cases must reach

# The numbers of a file's refusals: 01's questions but for 13, which only a listing asks, and 02's
REFUSALS = (*range(1, 13), 14)


def assert_expected(every):
    """The number and slot that were typed beside a case."""
    typed = [case for case in every if case.expected is not None]
    assert len(typed) > 3_000, len(typed)
    for case in typed:
        a = slot_file.answer(case.data)
        assert (a.number, a.slot) == case.expected, (case.label, case.expected, a.number, a.slot)


def print_refusals(every):
    """The slots of each refusal number among the records that are printed."""
    slots = {number: [] for number in (0, *REFUSALS)}
    for case in every:
        if case.lent is None:
            a = slot_file.answer(case.data)
            slots[a.number].append(a.slot)
    return slots


def list_numbers(every):
    return Counter(
        slot_file.listed(case.data, bytes(case.lent))[0] for case in every if case.lent is not None
    )


def assert_reached(every):
    assert 3_000 <= len(every) <= 7_500, len(every)
    slots = print_refusals(every)
    for number in REFUSALS:
        assert len(slots[number]) >= 20, number
        different = 1 if number <= 5 else 5
        assert len(set(slots[number])) >= different, number
    assert len(slots[0]) >= 500
    lists = list_numbers(every)
    assert lists[13] >= 20 and lists[0] >= 20, lists
    assert all(lists[number] >= 1 for number in REFUSALS), lists


def main():
    assert_surveyed()
    assert_by_hand()
    assert_minutes()
    file_timed.assert_as_in_table()
    assert_halves()
    assert_buffers()
    every = all_files()
    assert_expected(every)
    assert_reached(every)
    sides = (lambda: b"".join(map(record, every)), lambda: b"".join(map(output, every)))
    cases.write_side("file_cases.py", *sides)


if __name__ == "__main__":
    main()

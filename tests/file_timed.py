"""Files at the edges of 02, U2: each value of a group's byte 36 and the bytes behind it, timed and
untimed groups together, and the questions around the group's 9."""
from dataclasses import replace
from itertools import combinations

import slot_file
import timed
from cases import COAL_HANDLED, Dice
from file_edges import Fault, each_alone, group_edge, pair_expected, surveyed_file
from file_edges import unnamed_in_slot
from files import ACCEPTED, FileCase, always, build, byte, changed, long, never, shuffled, word
from locomotives import SMALL
from timed import SEVERE, TIMED, TIMED_DIESEL

HEATED = replace(TIMED_DIESEL, heated=True)

# Two groups, which share no rows
YARD = build([TIMED, HEATED], months=SEVERE)


# Edges of the sources, as whole files


def by_hand():
    return [
        FileCase(case.label, surveyed_file(case.source, case.repeat).data, ACCEPTED)
        for case, _, _ in timed.BY_HAND
    ]


def source_edges():
    dice = Dice(36)
    return [group_edge(dice, case) for case in timed.source_edges()]


def values():
    """Byte 36 of either group: 0, in range, and each value above it."""
    found = []
    for slot in YARD.groups:
        for tenths in (0, 1, 2, 15, 127, 128, 249, 250, 251, 252, 253, 254, 255):
            expected = ACCEPTED if tenths <= 250 else (9, slot)
            data = changed(YARD.data, byte(slot, 36, tenths))
            found.append(FileCase(f"{tenths} tenths in {slot}", data, expected))
    return found


def each_value():
    """All that can be timed, each in a group of its own, and with one above it."""
    every = [replace(HEATED if tenths % 3 == 0 else TIMED, timed=tenths) for tenths in range(251)]
    f = build(every, (), SEVERE, Dice(250), always)
    last = f.groups[-1]
    more = changed(f.data, byte(last, 36, 251))
    return [
        FileCase("250 timings", f.data, ACCEPTED),
        FileCase("250 timings, and 251", more, (9, last)),
    ]


def unnamed_bytes():
    """Those behind the field stay unnamed, in timed groups too."""
    dice = Dice(37)
    found = []
    for slot in YARD.groups:
        some = (37, 38, 39, 40, 48, 62, 63)
        found += unnamed_in_slot(dice, f"timed group {slot}", YARD, slot, (9, slot), some)
    return found


def other_kinds():
    """Byte 36 has no name in slots of another kind, nor in slot 0."""
    f = build([TIMED], [COAL_HANDLED], SEVERE, locomotives=[SMALL])
    found = [FileCase("47 in slot 0", changed(f.data, byte(0, 36, 47)), (4, 0))]
    for slot in f.rows[0][:2] + f.stores + f.locomotives:
        data = changed(f.data, byte(slot, 36, 47))
        found.append(FileCase(f"47 in {slot}", data, (9, slot)))
    return found


# Groups together


def assert_alike(files):
    """Demand 3."""
    assert len({slot_file.answer(f.data) for f in files}) == 1


def assert_unlike(files):
    assert len({slot_file.answer(f.data) for f in files}) == len(files)


def together():
    """Timed and untimed, heated and not, in several orders."""
    dice = Dice(2)
    groups = [
        replace(g, heated=heated, timed=tenths)
        for g in (TIMED, TIMED_DIESEL)
        for heated in (False, True)
        for tenths in (0, 15, 250)
    ]
    files = [build(groups, (), SEVERE, None, share) for share in (never, always)]
    for _ in range(4):
        files.append(build(shuffled(dice, groups), [], SEVERE, dice, always))
    assert_alike(files)
    return [FileCase(f"timed and untimed {i}", f.data, ACCEPTED) for i, f in enumerate(files)]


def alike_but_for_timing():
    """Two groups that differ in the byte alone, in either order; and each of the two twice, which
    is another answer."""
    found = []
    for g in (TIMED, HEATED):
        for one, other in ((0, 47), (47, 48), (1, 0), (250, 249), (14, 15)):
            kinds = ((one, other), (other, one), (one, one), (other, other))
            files = [
                build([replace(g, timed=tenths) for tenths in kind], (), SEVERE, None, always)
                for kind in kinds
            ]
            assert_alike(files[:2])
            assert_unlike(files[1:])
            for kind, f in zip(kinds, files):
                found.append(FileCase(f"alike but for {kind}", f.data, ACCEPTED))
    return found


def exchanged():
    """Two groups that differ besides: their timings exchanged are another answer."""
    few = replace(TIMED, vehicles=20, leaving=3)
    files = [
        build([replace(TIMED, timed=one), replace(few, timed=other)], (), SEVERE, None, share)
        for one, other in ((0, 30), (30, 0))
        for share in (never, always)
    ]
    assert_alike(files[:2])
    assert_alike(files[2:])
    assert_unlike(files[1:3])
    return [FileCase(f"timings exchanged {i}", f.data, ACCEPTED) for i, f in enumerate(files)]


def assert_as_in_table():
    """Timed as the table has it, or a heated stand at 1.5 minutes, a file prints what it prints
    untimed."""
    for label, g in timed.as_in_table():
        both = [surveyed_file(replace(g, timed=tenths), 1).data for tenths in (g.timed, 0)]
        first, second = map(slot_file.printed, both)
        assert first == second and first.startswith(b"code"), label


def untimed():
    """The files that those timed as the table has it print alike."""
    return [
        FileCase(f"{label}, untimed", surveyed_file(replace(g, timed=0), 1).data, ACCEPTED)
        for label, g in timed.as_in_table()
    ]


# Faults, in the order in which the walk asks about them: groups g and h, g timed, with their rows r
# and s, and a store record a


def base(dice):
    groups = [TIMED, replace(TIMED_DIESEL, timed=0)]
    return build(groups, [COAL_HANDLED], SEVERE, dice)


def timings(name, slot):
    """The byte alone."""
    return [
        Fault(f"{name} timed 251", 9, slot, byte(slot, 36, 251)),
        Fault(f"{name} timed 255", 9, slot, byte(slot, 36, 255)),
    ]


def group_faults(name, slot, n):
    """A group's own, and the link to its rows."""
    return (
        [Fault(f"{name} kind 2", 8, slot, byte(slot, 2, 2))]
        + timings(name, slot)
        + [
            Fault(f"{name} idle 251", 9, slot, byte(slot, 13, 251)),
            Fault(f"{name} byte 37", 9, slot, byte(slot, 37, 1)),
            Fault(f"{name} byte 63", 9, slot, byte(slot, 63, 36)),
            Fault(f"{name} without rows", 10, slot, word(slot, 34, 0)),
            Fault(f"{name} rows beyond", 6, slot, word(slot, 34, n)),
            Fault(f"{name} rows are itself", 8, slot, word(slot, 34, slot)),
        ]
    )


def header_faults(f, n):
    a = f.stores[0]
    return [
        Fault("count", 3, 0, word(0, 2, n + 1)),
        Fault("unnamed in slot 0", 4, 0, byte(0, 36, 47)),
        Fault("temperature", 5, 0, word(0, 30, 601)),
        Fault("first group beyond", 6, 0, word(0, 4, n)),
        Fault("first group is a store", 8, a, word(0, 4, a)),
    ]


def row_faults(f, n):
    g, r = f.groups[0], f.rows[0]
    return [
        Fault("row 1 kind 5", 8, r[0], byte(r[0], 2, 5)),
        Fault("row 1 byte 36", 9, r[0], byte(r[0], 36, 47)),
        Fault("row 1 pollutant 2", 10, r[0], byte(r[0], 3, 2)),
        Fault("row 1 next beyond", 6, r[0], word(r[0], 0, n)),
        Fault("row 6 next itself", 10, r[5], word(r[5], 0, r[5])),
        Fault("soot of petrol", 11, g, long(r[3], 8, 1)),
        Fault("g next beyond", 6, g, word(g, 0, n)),
        Fault("g next itself", 7, g, word(g, 0, g)),
        Fault("g next a row", 8, r[2], word(g, 0, r[2])),
    ]


def late_faults(f, n):
    (g, h), s, a = f.groups, f.rows[1], f.stores[0]
    return [
        Fault("lead of diesel", 11, h, long(s[5], 28, 1)),
        Fault("h next g", 7, g, word(h, 0, g)),
        Fault("h next beyond", 6, h, word(h, 0, n)),
        Fault("a kind 1", 8, a, byte(a, 2, 1)),
        Fault("a byte 36", 9, a, byte(a, 36, 47)),
        Fault("a next g", 7, g, word(a, 0, g)),
        Fault("no first store", 12, a, word(0, 6, 0)),
    ]


def faults(f):
    n = f.count()
    return (
        header_faults(f, n)
        + group_faults("g", f.groups[0], n)
        + row_faults(f, n)
        + group_faults("h", f.groups[1], n)
        + late_faults(f, n)
    )


def lone_faults():
    return each_alone(Dice(9), 1, base, faults)


def is_timing(fault):
    return "timed" in fault.label


# What is asked before a group's 9 and after it, at its own slot and at others
BEFORE, AFTER = (5, 6, 8, 10, 11), (6, 7, 8, 10, 11, 12)


def fault_pairs():
    """The byte out of range and each other fault, in other places of the slots each time."""
    dice, found, met = Dice(79), [], set()
    for i, j in combinations(range(len(faults(base(None)))), 2):
        f = base(dice)
        first, second = faults(f)[i], faults(f)[j]
        apart = not first.changes.keys() & second.changes.keys()
        if apart and (is_timing(first) or is_timing(second)):
            data = changed(f.data, {**first.changes, **second.changes})
            label = f"{first.label}, {second.label}"
            found.append(FileCase(label, data, pair_expected(first, second)))
            met.add((first.number, second.number))
    assert met >= {(number, 9) for number in BEFORE} | {(9, number) for number in AFTER}, met
    return found


def edge_files():
    return (
        by_hand()
        + source_edges()
        + values()
        + each_value()
        + unnamed_bytes()
        + other_kinds()
        + together()
        + alike_but_for_timing()
        + exchanged()
        + untimed()
        + lone_faults()
        + fault_pairs()
    )

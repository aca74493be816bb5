"""Files at the edges of 02, U1: each range, byte and link of a locomotive, and each question that
is asked on the locomotive chain."""
from dataclasses import replace

import cases
import locomotives
from cases import COAL_HANDLED, DUSTY_AIR, FLEET, Dice
from file_edges import Fault, each_alone, pairs_of, unnamed_in_slot
from files import ACCEPTED, FileCase, build, byte, changed, word
from locomotives import SHUNTER, SMALL

THIRD = locomotives.with_shares(replace(SMALL, model=3, hours=8_784, zone=1), idle=400, full=600)

# A file with locomotives only
RAILS = build(locomotives=[SHUNTER, SMALL, THIRD])


# Edges of the sources, as whole files


def locomotive_edge(dice, case):
    """The locomotive between others."""
    before = [SMALL, THIRD][: dice.below(3)]
    after = [SHUNTER, THIRD][: dice.below(3)]
    f = build(locomotives=before + [case.source] + after, dice=dice)
    expected = ACCEPTED if case.verdict == cases.OK else (case.verdict, f.locomotives[len(before)])
    return FileCase(case.label, f.data, expected)


def by_hand():
    return [
        FileCase(case.label, build(locomotives=[case.source]).data, ACCEPTED)
        for case, _ in locomotives.BY_HAND
    ]


def source_edges():
    dice = Dice(21)
    return [locomotive_edge(dice, case) for case in locomotives.source_edges()]


# Bytes that have no name, and kinds


def unnamed_bytes():
    dice = Dice(18)
    slot = RAILS.locomotives[1]
    found = unnamed_in_slot(dice, "locomotive", RAILS, slot, (9, slot), range(18, 64))
    return found + unnamed_in_slot(dice, "slot 0 of rails", RAILS, 0, (4, 0), (34, 35, 36, 62, 63))


def kinds():
    """Each place of the chain, with other kinds."""
    return [
        FileCase(f"kind {kind} in {slot}", changed(RAILS.data, byte(slot, 2, kind)), (8, slot))
        for kind in (0, 1, 2, 3, 4, 5, 7, 38, 128, 134, 255)
        for slot in RAILS.locomotives
    ]


# Links


def links():
    """Each link of the chain to each slot of the file, and at and above the slot count."""
    found = []
    numbers, n = RAILS.locomotives, RAILS.count()
    for place, (holder, at) in enumerate([(0, 32)] + [(number, 0) for number in numbers]):
        for link in (n, n + 1, n + 255, 256, 256 + n - 1, 512, 1_024, 32_768, 65_535):
            data = changed(RAILS.data, word(holder, at, link))
            found.append(FileCase(f"{holder} leads to {link} of {n}", data, (6, holder)))
        for link in numbers[:place]:
            data = changed(RAILS.data, word(holder, at, link))
            found.append(FileCase(f"{holder} leads back to {link}", data, (7, link)))
        for link in numbers[place:]:
            left_out = numbers[place : numbers.index(link)]
            expected = (12, min(left_out)) if left_out else ACCEPTED
            data = changed(RAILS.data, word(holder, at, link))
            found.append(FileCase(f"{holder} leads on to {link}", data, expected))
        data = changed(RAILS.data, word(holder, at, 0))
        expected = (12, numbers[place]) if place < len(numbers) else ACCEPTED
        found.append(FileCase(f"{holder} ends the chain", data, expected))
    return found


# Faults, in the order in which the walk asks about them: a group g with its rows r, store records a
# and b, and locomotives l and m


def base(dice):
    return build([FLEET], [COAL_HANDLED, DUSTY_AIR], dice=dice, locomotives=[SHUNTER, SMALL])


def misled_faults(f):
    """The links of the other chains that lead to locomotives."""
    (g,), (r,), (a, b), (l, m) = f.groups, f.rows, f.stores, f.locomotives
    return [
        Fault("unnamed in slot 0", 4, 0, byte(0, 34, 1)),
        Fault("temperature", 5, 0, word(0, 8, -601)),
        Fault("first group is l", 8, l, word(0, 4, l)),
        Fault("g share 101", 9, g, byte(g, 10, 101)),
        Fault("g rows are m", 8, m, word(g, 34, m)),
        Fault("row 2 next l", 8, l, word(r[1], 0, l)),
        Fault("row 6 next l", 10, r[5], word(r[5], 0, l)),
        Fault("g next l", 8, l, word(g, 0, l)),
        Fault("first store is l", 8, l, word(0, 6, l)),
        Fault("a kind 6", 8, a, byte(a, 2, 6)),
        Fault("a next m", 8, m, word(a, 0, m)),
        Fault("b has a material", 9, b, byte(b, 6, 1)),
        Fault("b next l", 8, l, word(b, 0, l)),
        Fault("b next g", 7, g, word(b, 0, g)),
    ]


def first_link_faults(f, n):
    (g,), (r,), (a, b) = f.groups, f.rows, f.stores
    return [
        Fault("first locomotive beyond", 6, 0, word(0, 32, n)),
        Fault("first locomotive is g", 7, g, word(0, 32, g)),
        Fault("first locomotive is a", 7, a, word(0, 32, a)),
        Fault("first locomotive is b", 7, b, word(0, 32, b)),
        Fault("first locomotive is a row", 8, r[0], word(0, 32, r[0])),
    ]


def locomotive_faults(name, slot):
    """A locomotive's own."""
    return [
        Fault(f"{name} kind 5", 8, slot, byte(slot, 2, 5)),
        Fault(f"{name} zone 0", 9, slot, byte(slot, 17, 0)),
        Fault(f"{name} unnamed", 9, slot, byte(slot, 18, 1)),
        Fault(f"{name} uneven", 14, slot, word(slot, 6, 333)),
    ]


def next_faults(f, n, name, slot, met):
    """A locomotive's link: beyond, to the others of the three chains, and to a row."""
    (g,), (r,), (a, _) = f.groups, f.rows, f.stores
    found = [Fault(f"{name} next beyond", 6, slot, word(slot, 0, n))]
    for other, source in [("g", g), ("a", a)] + met:
        found.append(Fault(f"{name} next {other}", 7, source, word(slot, 0, source)))
    return found + [Fault(f"{name} next a row", 8, r[3], word(slot, 0, r[3]))]


def faults(f):
    n, met = f.count(), []
    found = misled_faults(f) + first_link_faults(f, n)
    for name, slot in zip("lm", f.locomotives):
        met.append((name, slot))
        found += locomotive_faults(name, slot) + next_faults(f, n, name, slot, met)
    return found


def unreached_faults(f):
    """Links that leave slots out."""
    (a, b), (l, m) = f.stores, f.locomotives
    nothing = {**word(0, 4, 0), **word(0, 6, 0), **word(0, 32, 0)}
    return [
        Fault("no first locomotive", 12, min(l, m), word(0, 32, 0)),
        Fault("none of the three chains", 12, 1, nothing),
        Fault("a and l left out", 12, min(a, l), {**word(0, 6, b), **word(0, 32, m)}),
        Fault("l left out", 12, l, word(0, 32, m)),
        Fault("l the last", 12, m, word(l, 0, 0)),
    ]


def lone_faults():
    return each_alone(Dice(66), 2, base, lambda f: faults(f) + unreached_faults(f))


def fault_pairs():
    return pairs_of(Dice(77), base, faults)


def edge_files():
    return (
        by_hand()
        + source_edges()
        + unnamed_bytes()
        + kinds()
        + links()
        + lone_faults()
        + fault_pairs()
    )

"""Files with two faults at once, for each two questions that follow each other in 01's table or on
its walk, and for 02's question 14 and each of 4 to 13: both are answered no, so that what is
printed goes by the order of asking.

A set has files in which the one fault is met before the other. Where 01 asks both questions at
several places there is a set for either order: 9 of the first group and 8 of the second, and 8 of
the first and 9 of the second. These can't stand so:

- 1 and 2 in fewer than two bytes: there is no format number.
- 2 before 1, 3 before 2, 4 before 3, 5 before 4, 6 before 5, 12 before 11 or 14, 13 before 12 or
  14: each of 1 to 5 is asked once, before the walk, and 12 and 13 once, after it.
- 14 before 10 or 11: locomotives are walked last.
- 6 and 7, 6 and 8 or 6 and 9 of one link: no slot, so no met one either, has a number as high as
  the slot count. 10 and 6 of one link: zero is below the slot count.
- 6 or 7 before another fault on one chain: a link that is refused leads to no more of it. So the
  other fault is in a later chain, or in rows that a later group has too.
- 7 and 8 of one link but from a later chain to a source of an earlier one: a slot that was met on
  its own chain has a kind that this chain carries.
"""
from dataclasses import replace
from itertools import combinations

import cases
import slot_file
from cases import COAL_HANDLED, DUSTY_AIR, FLEET, LIMESTONE_STANDING, Dice
from file_edges import Fault, touched
from file_locomotives import THIRD
from files import FileCase, always, build, byte, changed, long, shuffled, word
from locomotives import SHUNTER, SMALL
from papers import BUS, CO, DIESEL, LEAD
from slot_file import SLOT

# In each set
LEAST = 20


# Files without a fault

PETROL_GROUP = cases.with_coefficients(FLEET, LEAD, cases.NO_COEFFICIENTS)
DIESEL_GROUP = cases.with_coefficients(
    replace(PETROL_GROUP, category=BUS, fuel=DIESEL), CO, cases.distinct(9)
)


def nothing(dice):
    """Slot 0 alone."""
    return build()


def bulk(dice):
    """Store records alone: four slots."""
    return build(stores=[COAL_HANDLED, LIMESTONE_STANDING, DUSTY_AIR], dice=dice)


def both(dice):
    """Groups g and h, which share all rows but their first, and a store record: eleven slots."""
    f = build([PETROL_GROUP, DIESEL_GROUP], [COAL_HANDLED], dice=dice, may_share=always)
    assert f.count() == 11
    return f


def rails(dice):
    """Locomotives alone: five slots."""
    return build(dice=dice, locomotives=[SHUNTER, SMALL, THIRD, SHUNTER])


def all_three(dice):
    """The sources of both, and two locomotives: thirteen slots."""
    groups, tracks = [PETROL_GROUP, DIESEL_GROUP], [SHUNTER, SMALL]
    return build(groups, [COAL_HANDLED], dice=dice, may_share=always, locomotives=tracks)


# Faults in the order in which 01 and 02 ask about them


def slot_0_faults(f):
    n = f.count()
    return (
        [Fault(f"format {x}", 2, 0, word(0, 0, x)) for x in (0, 2, 256, 257, 65_535)]
        + [Fault(f"count {x}", 3, 0, word(0, 2, x)) for x in (0, n + 1, n + 2, n + 256, 65_535)]
        + [Fault(f"byte {x} of slot 0", 4, 0, byte(0, x, 1 + x)) for x in (34, 35, 40, 55, 62, 63)]
        + [Fault(f"January {x}", 5, 0, word(0, 8, x)) for x in (601, -601)]
        + [Fault(f"June {x}", 5, 0, word(0, 18, x)) for x in (-32_768, 700)]
        + [Fault(f"December {x}", 5, 0, word(0, 30, x)) for x in (-601, 32_767)]
    )


def first_link_faults(f, n):
    """The link to the first group."""
    a, r = f.stores[0], f.rows[0]
    every = frozenset(f.groups + f.rows[0] + f.rows[1])
    return [
        Fault("first group beyond", 6, 0, word(0, 4, n), every),
        Fault("first group far beyond", 6, 0, word(0, 4, 65_535), every),
        Fault("first group a store", 8, a, word(0, 4, a), every),
        Fault("first group a row", 8, r[0], word(0, 4, r[0]), every),
    ]


def group_faults(name, g, first_row, beyond):
    """A group's own: its kind and its fields; then the link to its rows."""
    hidden = frozenset([first_row])
    return [
        Fault(f"{name} kind 0", 8, g, byte(g, 2, 0)),
        Fault(f"{name} kind 3", 8, g, byte(g, 2, 3)),
        Fault(f"{name} fuel 3", 9, g, byte(g, 4, 3)),
        Fault(f"{name} unnamed", 9, g, byte(g, 63, 1)),
        Fault(f"{name} without rows", 10, g, word(g, 34, 0), hidden),
        Fault(f"{name} rows beyond", 6, g, word(g, 34, beyond), hidden),
        Fault(f"{name} rows are itself", 8, g, word(g, 34, g), hidden),
    ]


def row_faults(name, row, n, hidden):
    """A row's own, then its link to the next, which leaves the hidden slots out."""
    return [
        Fault(f"{name} kind 5", 8, row, byte(row, 2, 5)),
        Fault(f"{name} out of range", 9, row, long(row, 4, 1_000_001)),
        Fault(f"{name} unnamed", 9, row, byte(row, 32, 7)),
        Fault(f"{name} pollutant 0", 10, row, byte(row, 3, 0)),
        Fault(f"{name} pollutant 7", 10, row, byte(row, 3, 7)),
        Fault(f"{name} the last", 10, row, word(row, 0, 0), hidden),
        Fault(f"{name} next beyond", 6, row, word(row, 0, n), hidden),
    ]


def last_row_faults(r, n):
    """The sixth row's; "after the sixth, next is zero (10)"."""
    six = r[5]
    return [
        Fault("row 6 kind 1", 8, six, byte(six, 2, 1)),
        Fault("row 6 out of range", 9, six, long(six, 28, 1_000_001)),
        Fault("row 6 pollutant 5", 10, six, byte(six, 3, 5)),
        Fault("row 6 next row 1", 10, six, word(six, 0, r[0])),
        Fault("row 6 next itself", 10, six, word(six, 0, six)),
        Fault("row 6 next beyond", 10, six, word(six, 0, n)),
    ]


def barred_faults(name, group, row):
    """Question 11, in two of the seven places."""
    return [
        Fault(f"{name} per minute", 11, group, long(row, 8, 1)),
        Fault(f"{name} per kilometre", 11, group, long(row, 16, 1_000_000)),
    ]


def all_row_faults(f, n):
    """Of g's first, third, fifth and sixth row. The rows after the first are h's too, so that a
    link of the first leaves none of them out."""
    r = f.rows[0]
    return (
        row_faults("row 1", r[0], n, frozenset())
        + row_faults("row 3", r[2], n, frozenset(r[3:]))
        + row_faults("row 5", r[4], n, frozenset(r[5:]))
        + last_row_faults(r, n)
    )


def next_group_faults(f, n):
    """The links of g and h, and between them h with its own row."""
    (g, h), (r, s), a = f.groups, f.rows, f.stores[0]
    hidden = frozenset([h, s[0]])
    return (
        [
            Fault("g next beyond", 6, g, word(g, 0, n), hidden),
            Fault("g next itself", 7, g, word(g, 0, g), hidden),
            Fault("g next a row", 8, r[1], word(g, 0, r[1]), hidden),
            Fault("g next a store", 8, a, word(g, 0, a), hidden),
        ]
        + group_faults("h", h, s[0], n + 1)
        + row_faults("h row 1", s[0], n, frozenset())
        + barred_faults("lead of h", h, r[5])
        + [
            Fault("h next beyond", 6, h, word(h, 0, 32_768)),
            Fault("h next g", 7, g, word(h, 0, g)),
            Fault("h next itself", 7, h, word(h, 0, h)),
            Fault("h next a row", 8, s[0], word(h, 0, s[0])),
        ]
    )


def group_chain_faults(f, n):
    g, r = f.groups[0], f.rows[0]
    return (
        first_link_faults(f, n)
        + group_faults("g", g, r[0], n)
        + all_row_faults(f, n)
        + barred_faults("soot of g", g, r[3])
        + next_group_faults(f, n)
    )


def link_faults(f, n, holder, at, label, met, hidden):
    """A link of a later chain: beyond, to each source that was met before, to a row."""
    found = [Fault(f"{label} beyond", 6, holder, word(holder, at, n), hidden)]
    for source in met:
        found.append(Fault(f"{label} is {source}", 7, source, word(holder, at, source), hidden))
    for row in f.rows[0][:1] if f.rows else ():
        found.append(Fault(f"{label} a row", 8, row, word(holder, at, row), hidden))
    return found


def store_faults(name, store):
    """A record's kind and fields."""
    return [
        Fault(f"{name} kind 1", 8, store, byte(store, 2, 1)),
        Fault(f"{name} kind 6", 8, store, byte(store, 2, 6)),
        Fault(f"{name} dust 4", 9, store, byte(store, 3, 4)),
        Fault(f"{name} unnamed", 9, store, byte(store, 63, 1)),
    ]


def locomotive_faults(name, slot):
    """A locomotive's kind and fields, and the total of its shares."""
    return [
        Fault(f"{name} kind 1", 8, slot, byte(slot, 2, 1)),
        Fault(f"{name} kind 5", 8, slot, byte(slot, 2, 5)),
        Fault(f"{name} type 0", 9, slot, byte(slot, 3, 0)),
        Fault(f"{name} half 1,001", 9, slot, word(slot, 8, 1_001)),
        Fault(f"{name} hours 8,785", 9, slot, word(slot, 14, 8_785)),
        Fault(f"{name} unnamed", 9, slot, byte(slot, 63, 1)),
        Fault(f"{name} idle 0", 14, slot, word(slot, 4, 0)),
        Fault(f"{name} full 1,000", 14, slot, word(slot, 12, 1_000)),
    ]


def chain_faults(f, n, name, at, chain, met, own):
    """Each link of a later chain, and each of its slots' own."""
    met = list(met)
    found = link_faults(f, n, 0, at, f"first {name}", met, frozenset(chain))
    for place, slot in enumerate(chain):
        found += own(f"{name} {place}", slot)
        met.append(slot)
        after = frozenset(chain[place + 1 :])
        found += link_faults(f, n, slot, 0, f"{name} {place} next", met, after)
    return found


def unreached(label, hidden, changes):
    return Fault(label, 12, min(hidden), changes, frozenset(hidden))


def unreached_faults(f):
    """Links that leave slots out."""
    found = []
    if f.stores:
        found.append(unreached("no first store", f.stores, word(0, 6, 0)))
    if f.groups:
        g, h = f.groups
        found.append(unreached("h left out", (h, f.rows[1][0]), word(g, 0, 0)))
    elif f.stores:
        found.append(unreached("one store alone", f.stores[1:], word(f.stores[0], 0, 0)))
    if f.locomotives:
        l, *others = f.locomotives
        found.append(unreached("no first locomotive", f.locomotives, word(0, 32, 0)))
        found.append(unreached("one locomotive alone", others, word(l, 0, 0)))
    return found


def faults(f):
    n = f.count()
    found = slot_0_faults(f)
    if n == 1:
        links = [(at, x) for at in (4, 6) for x in (n, 9)]
        return found + [Fault(f"link at {at} beyond", 6, 0, word(0, at, x)) for at, x in links]
    if f.groups:
        found += group_chain_faults(f, n)
    if f.stores:
        found += chain_faults(f, n, "store", 6, f.stores, f.groups, store_faults)
    if f.locomotives:
        met = f.groups + f.stores
        found += chain_faults(f, n, "locomotive", 32, f.locomotives, met, locomotive_faults)
    return found + unreached_faults(f)


# Pairs of faults


def only_next(fault):
    """Whether it changes next indexes alone, which no question about the slot itself reads."""
    return all(at % SLOT < 2 for at in fault.changes)


def stays(fault, other):
    """Whether the one's question is still asked, and answered no, with the other's changes."""
    if other.hidden & (touched(fault) | {fault.slot}):
        return False
    return fault.slot in touched(fault) or fault.slot not in touched(other) or only_next(other)


def stand_together(first, second):
    apart = not first.changes.keys() & second.changes.keys()
    return apart and stays(first, second) and stays(second, first)


def assert_lone(f, fault):
    """The fault alone is refused by its own number, at its own slot."""
    a = slot_file.answer(changed(f.data, fault.changes))
    assert (a.number, a.slot) == (fault.number, fault.slot), (fault, a.number, a.slot)


def two_faults(f, i, j):
    """The file with faults number i and j: the first is met first."""
    first, second = faults(f)[i], faults(f)[j]
    assert_lone(f, first)
    assert_lone(f, second)
    data = changed(f.data, {**first.changes, **second.changes})
    return FileCase(f"{first.label}, {second.label}", data, (first.number, first.slot))


def pairs(base, dice, size, earlier, later, keep=lambda first, second: True):
    """So many files of a base, each with other places of its slots, where a fault of one of the
    numbers in earlier is met before one of those in later."""
    every = faults(base(None))
    found = [
        (i, j)
        for i, j in combinations(range(len(every)), 2)
        if every[i].number in earlier
        and every[j].number in later
        and stand_together(every[i], every[j])
        and keep(every[i], every[j])
    ]
    chosen = shuffled(dice, found)
    return [two_faults(base(dice), *chosen[turn % len(chosen)]) for turn in range(size)]


def from_both(dice, earlier, later):
    """Files of store records alone, and of both chains."""
    return pairs(bulk, dice, 12, earlier, later) + pairs(both, dice, 10, earlier, later)


def with_rails(dice, earlier, later, keep=lambda first, second: True):
    """Files of locomotives alone, and of all three chains."""
    alone = pairs(rails, dice, 14, earlier, later, keep)
    return alone + pairs(all_three, dice, LEAST - 14, earlier, later, keep)


# Which pairs


def of_one_slot(first, second):
    return touched(first) == touched(second) and first.slot == second.slot


def of_one_pollutant(first, second):
    return of_one_slot(first, second) and "pollutant" in second.label


def of_one_slots_link(first, second):
    return of_one_slot(first, second) and "pollutant" not in second.label


# Of a group's rows, or of the link to them
ROWS = ("row", "g rows", "g without rows", "h row", "h without rows")


def of_rows(first, second):
    return first.label.startswith(ROWS) and second.label.startswith(ROWS)


def of_one_group(first, second):
    return first.label.startswith("row 6 next") and second.label.startswith("soot of g")


def of_next_link(first, second):
    return second.label.startswith("g next")


def of_next_group(first, second):
    return second.label.startswith("h ")


def of_link_after(first, second):
    """Of one locomotive and of the link that it holds."""
    return touched(first) == touched(second) and "next" in second.label


# Of the chains before the locomotives
GROUPS = ("first group", "g ", "h ", "row", "soot", "lead")
STORES = ("first store", "store")


def group_before_locomotive(first, second):
    return first.label.startswith(GROUPS) and "locomotive" in second.label


def store_before_locomotive(first, second):
    return first.label.startswith(STORES) and "locomotive" in second.label


def locomotive_first(first, second):
    return "locomotive" in first.label


# Sets that are not pairs of changes


def lengths_and_formats():
    """1 and 2: slot 0 cut off, or with bytes after it, under a wrong format number."""
    found = []
    data = build().data + bytes(2 * SLOT)
    lengths = (2, 3, 8, 31, 32, 62, 63, 65, 66, 96, 127, 129, 160, 191)
    for place, n in enumerate(lengths):
        for x in ((0, 65_535), (2, 257))[place % 2]:
            wrong = changed(data, word(0, 0, x))[:n]
            found.append(FileCase(f"{n} bytes, format {x}", wrong, (1, 0)))
    return found


def slot_0_and_locomotive(number):
    """One of 3 to 5, and a first locomotive beyond the file: bytes 32..33 of slot 0 are no part of
    question 4."""
    f, found = nothing(None), []
    for fault in slot_0_faults(f):
        for link in (1, 33, 34 << 8, 65_535):
            if fault.number == number:
                data = changed(f.data, {**fault.changes, **word(0, 32, link)})
                found.append(FileCase(f"{fault.label}, locomotive {link}", data, (number, 0)))
    return found


def met_and_of_another_kind(f, holders, met):
    """7 and 8 of one link: to a source of an earlier chain."""
    found = []
    for holder, at in holders:
        for source in met:
            data = changed(f.data, word(holder, at, source))
            found.append(FileCase(f"{holder} leads to source {source}", data, (7, source)))
    return found


def stores_to_groups(dice):
    found = []
    for _ in range(LEAST // 4):
        f = both(dice)
        found += met_and_of_another_kind(f, ((0, 6), (f.stores[0], 0)), f.groups)
    return found


def locomotives_to_others(dice):
    found = []
    for _ in range(LEAST // 6 + 1):
        f = all_three(dice)
        holders = ((0, 32), (f.locomotives[0], 0))
        found += met_and_of_another_kind(f, holders, f.groups + f.stores)
    return found


def refused_and_short(dice, small, large, refusing):
    """A refused file, and 13: a buffer shorter than any listing."""
    found = []
    for turn in range(LEAST + 2):
        f = small(dice) if turn % 6 else large(dice)
        fault = refusing(f)[turn % 2]
        assert_lone(f, fault)
        data = changed(f.data, fault.changes)
        label = f"{fault.label}, {turn} lent"
        found.append(FileCase(label, data, (fault.number, fault.slot), turn))
    return found


def uneven_faults(f):
    return [fault for fault in faults(f) if fault.number == 14]


# The sets


def slot_0_sets(dice):
    found = {"1, then 2": lengths_and_formats()}
    for number in (2, 3, 4, 5):
        few = pairs(nothing, dice, 18, (number,), (number + 1,))
        found[f"{number}, then {number + 1}"] = few + pairs(bulk, dice, 6, (number,), (number + 1,))
    return found


def walk_sets(dice):
    """Each two neighbours, in either order."""
    found = {}
    for one, other in ((8, 7), (8, 9), (9, 8)):
        found[f"{one}, then {other}"] = from_both(dice, (one,), (other,))
    for one, other in ((6, 7), (7, 6), (7, 8), (9, 10), (10, 9), (10, 11), (11, 10), (11, 12)):
        found[f"{one}, then {other}"] = pairs(both, dice, LEAST, (one,), (other,))
    return found


def one_slot_sets(dice):
    """Where exchanging two questions at one slot, or in one group, would show."""
    bulk_slots = pairs(bulk, dice, 10, (8,), (9,), of_one_slot)
    return {
        "7 and 8 of one link": stores_to_groups(dice),
        "8 and 9 of one slot": bulk_slots + pairs(both, dice, 12, (8,), (9,), of_one_slot),
        "9 and 10 of one row": pairs(both, dice, LEAST, (9,), (10,), of_one_pollutant),
        "9 of a slot, 10 of its link": pairs(both, dice, LEAST, (9,), (10,), of_one_slots_link),
        "10 and 11 of one group": pairs(both, dice, LEAST, (10,), (11,), of_one_group),
    }


def row_sets(dice):
    """Among a group's rows: 6, 8, 9 and 10."""
    half = LEAST // 2
    return {
        "rows: 10, then 9": pairs(both, dice, LEAST, (10,), (9,), of_rows),
        "rows: 6 and 8": pairs(both, dice, half, (6,), (8,), of_rows)
        + pairs(both, dice, half, (8,), (6,), of_rows),
        "rows: 6 and 9": pairs(both, dice, half, (6,), (9,), of_rows)
        + pairs(both, dice, half, (9,), (6,), of_rows),
    }


def late_sets(dice):
    """11 is asked in its group, before the next one; 12 after all of the walk."""
    half = LEAST // 2
    return {
        "11, then the next group": pairs(both, dice, half, (11,), (6, 7, 8), of_next_link)
        + pairs(both, dice, half, (11,), (6, 8, 9, 10), of_next_group),
        "6 to 10, then 12": pairs(both, dice, LEAST, (6, 7, 8, 9, 10), (12,)),
        "12 and 13": refused_and_short(dice, bulk, both, unreached_faults),
    }


def uneven_sets(dice):
    """14 and each of 4 to 13, in either order where they can stand so."""
    found = {}
    for one, other in ((4, 14), (5, 14), (6, 14), (7, 14), (10, 14), (11, 14), (14, 12)):
        found[f"{one}, then {other}"] = pairs(all_three, dice, LEAST, (one,), (other,))
    for one, other in ((8, 14), (9, 14), (14, 6), (14, 7), (14, 8), (14, 9)):
        found[f"{one}, then {other}"] = with_rails(dice, (one,), (other,))
    return {
        **found,
        "8 and 14 of one slot": with_rails(dice, (8,), (14,), of_one_slot),
        "9 and 14 of one slot": with_rails(dice, (9,), (14,), of_one_slot),
        "14, then 6 or 7 of its link": with_rails(dice, (14,), (6, 7), of_link_after),
        "14 and 13": refused_and_short(dice, rails, all_three, uneven_faults),
    }


def locomotive_sets(dice):
    """The locomotive chain after slot 0 and the other two, and before 12."""
    own, others = (6, 7, 8, 9, 14), (6, 7, 8, 9, 10, 11)
    return {
        "3, then a locomotive beyond": slot_0_and_locomotive(3),
        "4, then a locomotive beyond": slot_0_and_locomotive(4),
        "5, then a locomotive beyond": slot_0_and_locomotive(5),
        "7 and 8 of one locomotive link": locomotives_to_others(dice),
        "groups, then locomotives": pairs(
            all_three, dice, LEAST, others, own, group_before_locomotive
        ),
        "stores, then locomotives": pairs(
            all_three, dice, LEAST, others, own, store_before_locomotive
        ),
        "locomotives, then 12": pairs(all_three, dice, LEAST, own, (12,), locomotive_first),
    }


def all_sets():
    dice = Dice(45)
    sets = {}
    parts = (slot_0_sets, walk_sets, one_slot_sets, row_sets, late_sets, uneven_sets, locomotive_sets)
    for part in parts:
        sets.update(part(dice))
    for name, found in sets.items():
        different = {(case.data, case.lent) for case in found}
        assert len(different) == len(found) >= LEAST, (name, len(found), len(different))
    return sets


def faulty_pairs():
    return [case for found in all_sets().values() for case in found]

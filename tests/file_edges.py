"""Files at the edges of 01: its examples, each range, each byte and link, and each question. Those
of the locomotives are in file_locomotives.py, and those of timed warm-ups in file_timed.py."""
import struct
from dataclasses import dataclass, replace

import cases
import papers
import slot_file
from cases import COAL_HANDLED, DUSTY_AIR, LIMESTONE_STANDING, SLAG_STANDING, THIN_AIR
from cases import DIESEL_FLEET, FLEET, YEAR, Dice
from files import ACCEPTED, FileCase, build, byte, changed, long, word
from slot_file import SLOT, ASPIRATION, COEFFICIENTS, GROUP, HANDLING, STANDING

# A file with a group only, and a file with store records only
YARD = build([FLEET])
BULK = build(stores=[COAL_HANDLED, replace(LIMESTONE_STANDING, k6=117), DUSTY_AIR])


# 01, "Surveyed examples"


def surveyed_file(source, repeat):
    if isinstance(source, papers.Group):
        return build([source] * repeat, months=source.temperatures)
    return build(stores=[source] * repeat)


def surveyed():
    nothing = slot_file.header(1, 0, 0, (0,) * 12)
    found = [FileCase("example A", nothing, ACCEPTED)]
    for case, _, _ in cases.SURVEYED:
        expected = ACCEPTED if case.verdict == cases.OK else (9, 1)
        found.append(FileCase(case.label, surveyed_file(case.source, case.repeat).data, expected))
    at_14 = replace(COAL_HANDLED, wind=140)
    found.append(FileCase("example F, 14.0", build(stores=[at_14]).data, ACCEPTED))
    return found


# Edges of the sources, as whole files


def temperatures_in_range(g):
    return all(-600 <= t <= 600 for t in g.temperatures)


def first_refused_row(g):
    """The first of a group's six rows with a number above its range."""
    for at, k in enumerate(g.coefficients):
        if max(k.all_seven()) > 1_000_000:
            return at
    raise ValueError("no row is out of range")


def group_expected(case, f, at):
    """What the verdict of the case's group, which is the file's group number at, comes to."""
    g = case.source
    if not temperatures_in_range(g):
        return (5, 0)
    if case.verdict == cases.OK:
        return ACCEPTED
    if case.verdict == cases.BARRED:
        return (11, f.groups[at])
    if not papers.group_in_range(replace(g, temperatures=(), coefficients=())):
        return (9, f.groups[at])
    return (9, f.rows[at][first_refused_row(g)])


def group_edge(dice, case):
    """The group alone, or after another one."""
    g = case.source
    before = [FLEET] if dice.below(4) == 0 else []
    f = build(before + [g], months=g.temperatures, dice=dice)
    return FileCase(case.label, f.data, group_expected(case, f, len(before)))


def store_edge(dice, case):
    """The record between others."""
    before = [DUSTY_AIR, COAL_HANDLED, SLAG_STANDING][: dice.below(4)]
    after = [LIMESTONE_STANDING, THIN_AIR][: dice.below(3)]
    f = build(stores=before + [case.source] + after, dice=dice)
    expected = ACCEPTED if case.verdict == cases.OK else (9, f.stores[len(before)])
    return FileCase(case.label, f.data, expected)


# Five of group_edges are wider than the slot's field: an idle time and four distances of 2^32 - 1
TOO_WIDE = 5


def source_edges():
    dice = Dice(9)
    groups = (
        cases.warm_up_cases()
        + cases.coldest_month_cases()
        + cases.control_cases()
        + cases.held_at_zero_cases()
        + cases.half_metre_cases()
    )
    found = [store_edge(dice, case) for case in cases.store_edges()]
    found += [group_edge(dice, case) for case in groups]
    too_wide = 0
    for case in cases.group_edges():
        try:
            found.append(group_edge(dice, case))
        except struct.error:
            too_wide += 1
    assert too_wide == TOO_WIDE, too_wide
    return found


# Bytes that have no name, and flags

UNNAMED = {
    GROUP: (*range(37, 64),),
    COEFFICIENTS: (*range(32, 64),),
    HANDLING: (7, 16, 17, 18, 19, *range(24, 64)),
    STANDING: (7, 15, 18, 19, *range(24, 64)),
    ASPIRATION: (6, 7, *range(20, 64)),
}


def unnamed_in_slot(dice, label, f, slot, expected, positions):
    """Each of the bytes set: to 1, to its highest bit alone, or to any other value."""
    found = []
    for at in positions:
        data = changed(f.data, byte(slot, at, dice.pick((1, 128, dice.between(2, 255)))))
        found.append(FileCase(f"{label} byte {at}", data, expected))
    return found


def unnamed_bytes():
    """Bytes 32..33 of slot 0 are a link by 02, U1: with any other value than 0 it leads beyond these
    files. Byte 36 of a group is a field by 02, U2, and what is thrown for it is in its range."""
    dice = Dice(4)
    found = unnamed_in_slot(dice, "slot 0", build(), 0, (6, 0), (32, 33))
    found += unnamed_in_slot(dice, "slot 0", build(), 0, (4, 0), range(34, 64))
    found += unnamed_in_slot(dice, "slot 0 of stores", BULK, 0, (6, 0), (32,))
    found += unnamed_in_slot(dice, "slot 0 of stores", BULK, 0, (4, 0), range(35, 64, 3))
    slot = YARD.groups[0]
    found += unnamed_in_slot(dice, "group", YARD, slot, ACCEPTED, (36,))
    found += unnamed_in_slot(dice, "group", YARD, slot, (9, slot), UNNAMED[GROUP])
    for kind, slot in zip((HANDLING, STANDING, ASPIRATION), BULK.stores):
        found += unnamed_in_slot(dice, f"kind {kind}", BULK, slot, (9, slot), UNNAMED[kind])
    for row, slot in enumerate(YARD.rows[0]):
        some = UNNAMED[COEFFICIENTS][row % 3 :: 3]
        found += unnamed_in_slot(dice, f"row {row}", YARD, slot, (9, slot), some)
    return found


def flags():
    """The four that are named, each other bit beside each of them, and several at once."""
    slot = YARD.groups[0]
    others = [1 << bit for bit in range(2, 8)] + [12, 96, 252]
    found = []
    for both in range(4):
        for other in [0] + others:
            data = changed(YARD.data, byte(slot, 5, both + other))
            expected = ACCEPTED if other == 0 else (9, slot)
            found.append(FileCase(f"flags {both + other}", data, expected))
    return found


def kinds():
    """Each place of each chain, with other kinds."""
    found = []
    for kind in (0, 1, 2, 3, 4, 5, 6, 7, 128, 129, 255):
        for slot in YARD.groups + YARD.rows[0]:
            carried = GROUP if slot in YARD.groups else COEFFICIENTS
            if kind != carried:
                data = changed(YARD.data, byte(slot, 2, kind))
                found.append(FileCase(f"kind {kind} in {slot}", data, (8, slot)))
        for slot in BULK.stores:
            data = changed(BULK.data, byte(slot, 2, kind))
            expected = None if kind in slot_file.STORE_KINDS else (8, slot)
            found.append(FileCase(f"kind {kind} in {slot}", data, expected))
    return found


# Slot 0, and the length


def wrong_words():
    """Format numbers and slot counts."""
    found = []
    for f in (build(), BULK, YARD):
        for number in (0, 2, 3, 255, 256, 257, 258, 513, 32_769, 65_535):
            found.append(FileCase(f"format {number}", changed(f.data, word(0, 0, number)), (2, 0)))
        n = f.count()
        for count in (0, n - 1, n + 1, n + 256, n * 256, n * SLOT, 1_024, 65_535, 65_536 - n):
            found.append(FileCase(f"count {count}", changed(f.data, word(0, 2, count)), (3, 0)))
    return found


def temperatures():
    """Each month at both ends of its range and beyond, in a file with no sources and with some."""
    found = []
    for month in range(12):
        for f in (build(), BULK):
            for t in (-600, 600, -601, 601, -32_768, 32_767, -1, 0):
                data = changed(f.data, word(0, 8 + 2 * month, t))
                expected = ACCEPTED if -600 <= t <= 600 else (5, 0)
                found.append(FileCase(f"temperature {t} in {month}", data, expected))
    return found


def lengths():
    found = [FileCase(f"{n} bytes", BULK.data[:n], (1, 0)) for n in range(64)]
    for n in range(65, 4 * SLOT):
        if n % SLOT != 0 and (n % 7 == 0 or n % SLOT in (1, 32, 63)):
            found.append(FileCase(f"{n} bytes", BULK.data[:n], (1, 0)))
    for n in (1, 2, 3):
        found.append(FileCase(f"{n} slots of 4", BULK.data[: n * SLOT], (3, 0)))
    for more in (1, 2, 32, 62, 63, 65, 127):
        found.append(FileCase(f"{more} more zeros", BULK.data + bytes(more), (1, 0)))
        found.append(FileCase(f"{more} more", BULK.data + YARD.data[:more], (1, 0)))
    for more in (1, 2, 3, 12, 24):
        longer = BULK.data + bytes(more * SLOT)
        found.append(FileCase(f"{more} more slots", longer, (3, 0)))
        counted = changed(longer, word(0, 2, 4 + more))
        found.append(FileCase(f"{more} more slots, counted", counted, (12, 4)))
        lone = slot_file.header(1 + more, 0, 0, YEAR) + bytes(more * SLOT)
        found.append(FileCase(f"{more} slots, no chain", lone, (12, 1)))
    return found


# Faults, in the order in which the walk asks about them: groups g and h with their rows r and s,
# and store records a, b and c


@dataclass(frozen=True)
class Fault:
    label: str
    number: int
    slot: int
    changes: dict
    hidden: frozenset = frozenset()  # slots that no chain leads to any more


def header_faults(f, n):
    a, r = f.stores[0], f.rows[0]
    return [
        Fault("format", 2, 0, word(0, 0, 2)),
        Fault("count", 3, 0, word(0, 2, n + 1)),
        Fault("unnamed in slot 0", 4, 0, byte(0, 40, 1)),
        Fault("temperature", 5, 0, word(0, 30, 601)),
        Fault("first group beyond", 6, 0, word(0, 4, n)),
        Fault("first group is a store", 8, a, word(0, 4, a)),
        Fault("first group is a row", 8, r[0], word(0, 4, r[0])),
    ]


def first_group_faults(f, n):
    (g, h), r, b = f.groups, f.rows[0], f.stores[1]
    return [
        Fault("g kind 0", 8, g, byte(g, 2, 0)),
        Fault("g fuel 3", 9, g, byte(g, 4, 3)),
        Fault("g unnamed", 9, g, byte(g, 50, 9)),
        Fault("g without rows", 10, g, word(g, 34, 0)),
        Fault("g rows beyond", 6, g, word(g, 34, n)),
        Fault("g rows are g", 8, g, word(g, 34, g)),
        Fault("g rows are h", 8, h, word(g, 34, h)),
        Fault("g rows are a store", 8, b, word(g, 34, b)),
        Fault("g rows from the second", 10, r[1], word(g, 34, r[1])),
        Fault("g rows from the sixth", 10, r[5], word(g, 34, r[5])),
    ]


def row_faults(f, n):
    g, r, c = f.groups[0], f.rows[0], f.stores[2]
    return [
        Fault("row 1 kind 1", 8, r[0], byte(r[0], 2, 1)),
        Fault("row 1 out of range", 9, r[0], long(r[0], 4, 1_000_001)),
        Fault("row 1 pollutant 0", 10, r[0], byte(r[0], 3, 0)),
        Fault("row 1 the last", 10, r[0], word(r[0], 0, 0)),
        Fault("row 1 next beyond", 6, r[0], word(r[0], 0, n)),
        Fault("row 1 next itself", 10, r[0], word(r[0], 0, r[0])),
        Fault("row 2 left out", 10, r[2], word(r[0], 0, r[2])),
        Fault("row 1 next is g", 8, g, word(r[0], 0, g)),
        Fault("row 3 kind 5", 8, r[2], byte(r[2], 2, 5)),
        Fault("row 3 unnamed", 9, r[2], byte(r[2], 63, 1)),
        Fault("row 3 pollutant 7", 10, r[2], byte(r[2], 3, 7)),
        Fault("row 3 next row 1", 10, r[0], word(r[2], 0, r[0])),
        Fault("row 3 next is a store", 8, c, word(r[2], 0, c)),
        Fault("row 5 the last", 10, r[4], word(r[4], 0, 0)),
        Fault("row 5 next beyond", 6, r[4], word(r[4], 0, 65_535)),
        Fault("row 6 pollutant 5", 10, r[5], byte(r[5], 3, 5)),
        Fault("row 6 next row 1", 10, r[5], word(r[5], 0, r[0])),
        Fault("row 6 next itself", 10, r[5], word(r[5], 0, r[5])),
        Fault("row 6 next beyond", 10, r[5], word(r[5], 0, n)),
        Fault("soot of petrol", 11, g, long(r[3], 28, 1)),
    ]


def second_group_faults(f, n):
    (g, h), (r, s), (a, _, c) = f.groups, f.rows, f.stores
    return [
        Fault("g next beyond", 6, g, word(g, 0, n + 7)),
        Fault("g next itself", 7, g, word(g, 0, g)),
        Fault("g next a row", 8, r[5], word(g, 0, r[5])),
        Fault("g next a store", 8, c, word(g, 0, c)),
        Fault("h kind 4", 8, h, byte(h, 2, 4)),
        Fault("h share 101", 9, h, byte(h, 10, 101)),
        Fault("h without rows", 10, h, word(h, 34, 0)),
        Fault("h row 2 is h", 8, h, word(s[0], 0, h)),
        Fault("h row 4 out of range", 9, s[3], long(s[3], 28, 2**32 - 1)),
        Fault("h row 6 next", 10, s[5], word(s[5], 0, a)),
        Fault("lead of diesel", 11, h, long(s[5], 4, 1)),
        Fault("h next beyond", 6, h, word(h, 0, 32_768 + n)),
        Fault("h next g", 7, g, word(h, 0, g)),
        Fault("h next itself", 7, h, word(h, 0, h)),
        Fault("h next a row", 8, s[0], word(h, 0, s[0])),
        Fault("h next a store", 8, a, word(h, 0, a)),
    ]


def store_faults(f, n):
    (g, h), (r, s), (a, b, c) = f.groups, f.rows, f.stores
    return [
        Fault("first store beyond", 6, 0, word(0, 6, n)),
        Fault("first store is g", 7, g, word(0, 6, g)),
        Fault("first store is h", 7, h, word(0, 6, h)),
        Fault("first store is a row", 8, r[0], word(0, 6, r[0])),
        Fault("a kind 1", 8, a, byte(a, 2, 1)),
        Fault("a has K6", 9, a, byte(a, 16, 100)),
        Fault("a next beyond", 6, a, word(a, 0, 65_535)),
        Fault("a next itself", 7, a, word(a, 0, a)),
        Fault("a next h", 7, h, word(a, 0, h)),
        Fault("a next a row", 8, s[3], word(a, 0, s[3])),
        Fault("b kind 2", 8, b, byte(b, 2, 2)),
        Fault("b has a drop", 9, b, byte(b, 15, 1)),
        Fault("b next a", 7, a, word(b, 0, a)),
        Fault("b the last", 12, c, word(b, 0, 0)),
        Fault("c kind 6", 8, c, byte(c, 2, 6)),
        Fault("c has a material", 9, c, byte(c, 6, 1)),
        Fault("c next b", 7, b, word(c, 0, b)),
        Fault("c next beyond", 6, c, word(c, 0, n)),
        Fault("c next a row", 8, r[1], word(c, 0, r[1])),
    ]


def faults(f):
    n = f.count()
    return (
        header_faults(f, n)
        + first_group_faults(f, n)
        + row_faults(f, n)
        + second_group_faults(f, n)
        + store_faults(f, n)
    )


def unreached_faults(f):
    """Links that leave slots out: the lowest of these is asked about."""
    (g, h), (r, s), (a, b, c) = f.groups, f.rows, f.stores
    return [
        Fault("no first group", 12, min(g, h, *r, *s), word(0, 4, 0)),
        Fault("no first store", 12, min(a, b, c), word(0, 6, 0)),
        Fault("neither chain", 12, 1, {**word(0, 4, 0), **word(0, 6, 0)}),
        Fault("g left out", 12, min(g, *r), word(0, 4, h)),
        Fault("h left out", 12, min(h, *s), word(g, 0, 0)),
        Fault("a left out", 12, a, word(0, 6, b)),
        Fault("a and b left out", 12, min(a, b), word(0, 6, c)),
        Fault("b left out", 12, b, word(a, 0, c)),
        Fault("a the last", 12, min(b, c), word(a, 0, 0)),
        Fault("h's sixth row for both", 12, r[5], word(r[4], 0, s[5])),
    ]


def faulty_base(dice):
    return build([FLEET, DIESEL_FLEET], [COAL_HANDLED, LIMESTONE_STANDING, DUSTY_AIR], dice=dice)


def each_alone(dice, turns, base, every):
    """Each of the faults of a base by itself, so many times, each time with other places of the
    slots."""
    found = []
    for turn in range(turns):
        f = base(dice if turn > 0 else None)
        for fault in every(f):
            data = changed(f.data, fault.changes)
            found.append(FileCase(f"{fault.label} {turn}", data, (fault.number, fault.slot)))
    return found


def lone_faults():
    return each_alone(Dice(6), 4, faulty_base, lambda f: faults(f) + unreached_faults(f))


def touched(fault):
    """The slots that a fault changes."""
    return {at // SLOT for at in fault.changes}


def pair_expected(first, second):
    """The earlier one is met first. Where it only leads to the slot that it asks about, and the
    later one changes that slot, no answer is typed."""
    if first.slot not in touched(first) and first.slot in touched(second):
        return None
    return (first.number, first.slot)


def pairs_of(dice, base, every):
    """Pairs of a base's faults in different bytes: each pair in one slot, and some of the others."""
    found = []
    number = len(every(base(None)))
    for i in range(number):
        for j in range(i + 1, number):
            some = dice.below(10) == 0
            f = base(dice)
            first, second = every(f)[i], every(f)[j]
            if first.changes.keys() & second.changes.keys():
                continue
            if some or touched(first) == touched(second):
                data = changed(f.data, {**first.changes, **second.changes})
                label = f"{first.label}, {second.label}"
                found.append(FileCase(label, data, pair_expected(first, second)))
    return found


def fault_pairs():
    return pairs_of(Dice(7), faulty_base, faults)


def edge_files():
    return (
        surveyed()
        + source_edges()
        + unnamed_bytes()
        + flags()
        + kinds()
        + wrong_words()
        + temperatures()
        + lengths()
        + lone_faults()
        + fault_pairs()
    )

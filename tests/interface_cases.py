"""Writes what the test program of the C interface reads, or what it must print.

    python3 tests/interface_cases.py stdin  > crates/interface_cases/stdin
    python3 tests/interface_cases.py stdout > crates/interface_cases/stdout

The order, the widths and the counts of numbers are read from include/tezhebul.h, and what a call
must give is worked out from its comments by papers.py and slot_file.py.

A case is a head of 44 bytes and its arguments, numbers little-endian, other bytes zero:

    0..31   label, ASCII, padded with spaces
    32      function: 1 check, 2 answer, 3 list, 4 handling, 5 standing, 6 aspiration, 7 group,
            8 locomotive
    34..35  how many numbers are lent, of 40
    36..37  how many bytes are lent, of 600
    40..43  the length of the arguments

The arguments of 1 to 3 are a file. Those of 4 to 8 are the numbers before the first slice, in the
header's order and widths; those of a group go on with the lengths of its four slices, a byte each,
and then the slices, with room for one element more than each has to have. Of a case the program
prints the label, what the function returns (1 for true, 0 for false) and all 40 numbers, which are
7,777 beforehand; of a list then, on a line of its own, all 600 bytes, each a tilde beforehand.
"""
import sys

sys.dont_write_bytecode = True

import os
import re
import struct
from collections import Counter
from dataclasses import asdict, dataclass, replace
from itertools import combinations
from math import floor
from typing import Optional

import cases
import file_edges
import file_locomotives
import file_mixes
import inventory
import locomotives
import papers
import slot_file
import timed
from cases import DIESEL_FLEET, FLEET, Dice, edges, out_of_range
from files import build, byte, changed
from papers import Aspiration, Group, Handling, Locomotive, Standing

FUNCTIONS = ("check", "answer", "list", "handling", "standing", "aspiration", "group", "locomotive")

# What the program lends at most, and what stands there beforehand
MEMORY = [7_777] * 40
BUFFER = b"~" * 600


# The header


def header_text():
    path = os.path.join(os.path.dirname(os.path.abspath(__file__)), "..", "include", "tezhebul.h")
    with open(path, encoding="utf-8") as file:
        return file.read()


def constants(text):
    """The numbers that the header defines, each worked out from those before it."""
    found = {}
    for name, value in re.findall(r"^#define TEZHEBUL_(\w+) (.+)$", text, re.M):
        plain = value.replace("UINT64_C", "").replace("TEZHEBUL_", "")
        found[name] = eval(plain, {}, dict(found))
    return found


def parameters(text, function):
    """The type and the name of each parameter of a function."""
    inside = re.search(rf"\btezhebul_{function}\(([^)]*)\)", text).group(1)
    words = [parameter.replace("const ", "").split() for parameter in inside.split(",")]
    return [(kind, name) for kind, name in words]


TEXT = header_text()
NUMBERS = constants(TEXT)
LETTERS = {"uint8_t": "B", "uint16_t": "H", "uint32_t": "I", "int16_t": "h"}


def number_parameters(function):
    """The letter of struct.pack and the name of each number that is handed over by itself."""
    every = parameters(TEXT, function)
    return [(LETTERS[kind], name) for kind, name in every if kind in LETTERS and name[0] != "*"]


def slice_parameters(function):
    """The same of each slice that is read, so not of `out`, whose numbers have 64 bits."""
    every = parameters(TEXT, function)
    return [(LETTERS[kind], name[1:]) for kind, name in every if kind in LETTERS and name[0] == "*"]


# The header's lengths of a group's slices
LENGTHS = {
    "distances": NUMBERS["DISTANCES"],
    "days": NUMBERS["MONTHS"],
    "temperatures": NUMBERS["MONTHS"],
    "coefficients": NUMBERS["COEFFICIENTS"],
}


# Calls


@dataclass(frozen=True)
class Call:
    label: str
    function: str
    source: object  # a file's bytes, or the record or the group
    numbers: int  # how many are lent
    bytes: int = 0  # how many are lent
    flags: Optional[int] = None  # of a group, where they are not those of its two fields
    lengths: tuple = ()  # of a group's slices, by name, where they are not the header's


def flags_of(call):
    if call.flags is not None:
        return call.flags
    g = call.source
    return NUMBERS["CONTROLLED"] * g.controlled + NUMBERS["HEATED"] * g.heated


def fields(call):
    """The values by the header's names."""
    values = asdict(call.source)
    if isinstance(call.source, Group):
        values["flags"] = flags_of(call)
        values["running"] = values["neutraliser"]
        values["warming"] = values["warm_up_neutraliser"]
    return values


def slices(g):
    return {
        "distances": (g.out_nearest, g.out_farthest, g.in_nearest, g.in_farthest),
        "days": g.days,
        "temperatures": g.temperatures,
        "coefficients": tuple(k for c in g.coefficients for k in c.all_seven()),
    }


def lengths_of(call):
    return {**LENGTHS, **dict(call.lengths)}


def packed_slices(call):
    """The lengths, and each slice with one element more, which is zero."""
    values, lengths = slices(call.source), lengths_of(call)
    every = slice_parameters("group")
    packed = bytes(lengths[name] for _, name in every)
    for letter, name in every:
        packed += struct.pack(f"<{LENGTHS[name] + 1}{letter}", *values[name], 0)
    return packed


def arguments(call):
    if isinstance(call.source, bytes):
        return call.source
    every, values = number_parameters(call.function), fields(call)
    letters = "".join(letter for letter, _ in every)
    packed = struct.pack("<" + letters, *(values[name] for _, name in every))
    return packed + (packed_slices(call) if call.function == "group" else b"")


def label_of(call):
    label = call.label.encode("ascii")
    assert len(label) <= 32, call.label
    return label.ljust(32)


def record(call):
    assert call.numbers <= len(MEMORY) and call.bytes <= len(BUFFER), call.label
    packed = arguments(call)
    function = 1 + FUNCTIONS.index(call.function)
    lent = struct.pack("<BxHHxxI", function, call.numbers, call.bytes, len(packed))
    return label_of(call) + lent + packed


# What a call must give


def memory_with(numbers, call):
    """Writes "to the start of `out`"; "nothing written, where it has room for fewer"."""
    if call.numbers < len(numbers):
        return MEMORY
    return numbers + MEMORY[len(numbers) :]


def answer_numbers(number, slot, a):
    """"number and slot (0 and 0 of an accepted file), groups, store records, locomotives, ten
    annual figures ..., ten peak figures ..., by the codes"."""
    annual = [figure for figure, _ in a.figures]
    peak = [figure for _, figure in a.figures]
    numbers = [number, slot, a.groups, a.stores, a.locomotives] + annual + peak
    assert len(numbers) == NUMBERS["NUMBERS"]
    return numbers


NOTHING = slot_file.Answer(0, 0, ((0, 0),) * NUMBERS["CODES"], 0, 0, 0)


def check_given(call):
    """"0 of an accepted file, and else 65,536 times the refusal's number, plus its slot"."""
    a = slot_file.answer(call.source)
    return 65_536 * a.number + a.slot, MEMORY, BUFFER


def answer_given(call):
    a = slot_file.answer(call.source)
    numbers = answer_numbers(a.number, a.slot, a)
    return int(len(numbers) <= call.numbers), memory_with(numbers, call), BUFFER


def list_given(call):
    """"a refusal, 13 included, returns 0 and changes no byte of it"; `out` has the numbers "of the
    answer, or of refusal 13"."""
    a = slot_file.answer(call.source)
    number, slot, length, lent = slot_file.listed(call.source, BUFFER[: call.bytes])
    assert length <= NUMBERS["LISTING_MOST"]
    numbers = answer_numbers(number, slot, a if number == 0 else NOTHING)
    return length, memory_with(numbers, call), lent + BUFFER[call.bytes :]


def whole_and_part(units, denominator):
    whole = floor(units)
    part = (units - whole) * denominator
    assert part.denominator == 1 and whole < 2**64, units
    return [whole, part.numerator]


def emission_numbers(e):
    """"the substance code, the year's mass: whole millionths of a tonne, and a part of one ..., the
    peak rate: whole ten-millionths of a gram per second, and a part of one"."""
    annual = whole_and_part(e.tonnes * papers.ANNUAL_UNITS, NUMBERS["ANNUAL_DENOMINATOR"])
    peak = whole_and_part(e.rate * papers.PEAK_UNITS, NUMBERS["PEAK_DENOMINATOR"])
    numbers = [e.code] + annual + peak
    assert len(numbers) == NUMBERS["EMISSION_NUMBERS"]
    return numbers


RULES = {
    Handling: papers.handling,
    Standing: papers.standing,
    Aspiration: papers.aspiration,
    Locomotive: papers.locomotive,
}


def rule_answer(call):
    """"flags ... above 3 is out of range"."""
    if not isinstance(call.source, Group):
        return RULES[type(call.source)](call.source)
    if flags_of(call) > NUMBERS["CONTROLLED"] + NUMBERS["HEATED"]:
        return papers.refused(papers.OUT_OF_RANGE, NUMBERS["EMISSIONS"])
    return papers.group(call.source)


SIZES = {"group": NUMBERS["GROUP_NUMBERS"], "locomotive": NUMBERS["LOCOMOTIVE_NUMBERS"]}


def rule_size(call):
    return SIZES.get(call.function, NUMBERS["STORE_NUMBERS"])


def rule_given(call):
    """"False, and nothing written, where a slice has another length than below"."""
    a = rule_answer(call)
    numbers = [a.verdict, a.slot] + [n for e in a.emissions for n in emission_numbers(e)]
    assert len(numbers) == rule_size(call)
    if call.function == "group" and lengths_of(call) != LENGTHS:
        return 0, MEMORY, BUFFER
    return int(len(numbers) <= call.numbers), memory_with(numbers, call), BUFFER


OF_FILES = {"check": check_given, "answer": answer_given, "list": list_given}


def given(call):
    """What is returned, and all numbers and all bytes afterwards."""
    return OF_FILES.get(call.function, rule_given)(call)


def output(call):
    returned, numbers, lent = given(call)
    line = " ".join(map(str, [returned] + numbers))
    text = label_of(call) + b" " + line.encode("ascii") + b"\n"
    return text + lent + b"\n" if call.function == "list" else text


# Cases of the rules

BULK = dict(store=60_001, material=7, wind=65, moisture=26, grain=40, openness=3, amount=123_457)
HANDLED = Handling(dust=2, **BULK, drop=5)
STOOD = Standing(dust=2, **BULK, k6=117)
AIR = Aspiration(dust=3, store=60_001, concentration=4_321, flow=98_765, capture=4_711, hours=1_234)

BULK_REFUSED = dict(
    dust=(0, 4),
    store=(0,),
    material=(0, 10),
    wind=(141,),
    moisture=(1_001,),
    openness=(0, 8),
    amount=(1_000_001,),
)
AIR_REFUSED = dict(
    dust=(0, 4),
    store=(0,),
    concentration=(1_000_001,),
    flow=(1_000_001,),
    capture=(10_001,),
    hours=(8_785,),
)


def refused(label, source, fields):
    """A field at a time out of its range."""
    return [
        (case.label, case.source)
        for field, values in fields.items()
        for case in edges(label, source, field, out_of_range(*values))
    ]


def largest(label):
    return label, {case.label: case.source for case in cases.largest_sources()}[label]


def store_sources():
    dice = Dice(317)
    return {
        "handling": [("handling", HANDLED)]
        + [(f"some handling {i}", cases.any_handling(dice)) for i in range(4)]
        + [("handling 0 kg", replace(HANDLED, amount=0)), largest("largest handling")]
        + refused("handling", HANDLED, {**BULK_REFUSED, "drop": (0, 9)}),
        "standing": [("standing", STOOD), ("standing, K6 missing", replace(STOOD, k6=0))]
        + [(f"some standing {i}", cases.any_standing(dice)) for i in range(4)]
        + [("standing 0 m2", replace(STOOD, amount=0)), largest("largest standing")]
        + refused("standing", STOOD, {**BULK_REFUSED, "k6": (99, 201)}),
        "aspiration": [("aspiration", AIR)]
        + [(f"some aspiration {i}", cases.any_aspiration(dice)) for i in range(4)]
        + [("aspiration 0 hours", replace(AIR, hours=0)), largest("largest aspiration")]
        + [largest("nearly the largest aspiration")]
        + refused("aspiration", AIR, AIR_REFUSED),
    }


def rooms(size):
    """Longer than needed, exactly long, one too short, none."""
    return (size + 3, size, size - 1, 0)


def source_calls(function, sources, size):
    """Each of the sources; the first and the last with memory of several lengths too."""
    calls = []
    for at, (label, source) in enumerate(sources):
        calls.append(Call(label, function, source, size + at % 4))
    for label, source in (sources[0], sources[-1]):
        calls += [Call(f"{label}, {n} lent", function, source, n) for n in rooms(size)]
    return calls


def store_calls():
    calls = []
    for function, sources in store_sources().items():
        calls += source_calls(function, sources, NUMBERS["STORE_NUMBERS"])
    return calls


# All numbers differ
ENGINE = Locomotive(
    model=3, idle=411, quarter=297, half=173, three_quarters=89, full=30, hours=2_718, old=0, zone=1
)
ENGINE_REFUSED = dict(
    model=(0, 5),
    idle=(1_001,),
    quarter=(1_001,),
    half=(1_001,),
    three_quarters=(1_001,),
    full=(1_001, 65_535),
    hours=(8_785,),
    old=(2,),
    zone=(0, 4),
)


def locomotive_sources():
    dice = Dice(2_122)
    return (
        [("locomotive", ENGINE)]
        + [(case.label, case.source) for case, _ in locomotives.BY_HAND]
        + [(f"some locomotive {i}", locomotives.any_locomotive(dice)) for i in range(4)]
        + [("locomotive 0 hours", replace(ENGINE, hours=0)), ("largest", locomotives.LARGEST)]
        + [("shares of 999", replace(ENGINE, full=29)), ("no shares", locomotives.with_shares(ENGINE))]
        + [("shares of 999, zone 4", replace(ENGINE, full=29, zone=4))]
        + refused("locomotive", ENGINE, ENGINE_REFUSED)
        + [("shares of 1,001", replace(ENGINE, idle=412))]
    )


def locomotive_calls():
    return source_calls("locomotive", locomotive_sources(), NUMBERS["LOCOMOTIVE_NUMBERS"])


# All numbers of a diesel group differ: category 3, fuel 2, flags 1
DAYS = (17, 20, 21, 22, 18, 16, 23, 25, 24, 19, 26, 27)
PETROL_GROUP = replace(FLEET, days=DAYS)
DIESEL_GROUP = replace(DIESEL_FLEET, days=DAYS, category=papers.BUS)

GROUP_REFUSED = dict(
    category=(0, 4),
    fuel=(0, 3),
    vehicles=(0, 10_001),
    leaving=(138,),
    share=(101,),
    neutraliser=(101,),
    warm_up_neutraliser=(101,),
    idle=(251, 2**32 - 1),
    out_nearest=(20_001,),
    out_farthest=(20_001,),
    in_nearest=(20_001,),
    in_farthest=(20_001,),
)


def with_soot(g):
    return cases.with_coefficients(g, papers.SOOT, cases.distinct(papers.SOOT))


def with_lead(g):
    return cases.with_coefficients(g, papers.LEAD, cases.distinct(papers.LEAD))


def group_sources():
    dice = Dice(2_003)
    co = cases.with_place(cases.distinct(papers.CO), 6, 1_000_001)
    return (
        [("petrol", PETROL_GROUP), ("diesel", DIESEL_GROUP)]
        + [(f"some group {i}", cases.any_group(dice)) for i in range(4)]
        + [("no days", replace(PETROL_GROUP, days=(0,) * 12))]
        + [largest("largest petrol group"), largest("largest diesel group")]
        + [largest("nearly the largest group")]
        + refused("group", PETROL_GROUP, GROUP_REFUSED)
        + [
            ("30 days in February", replace(PETROL_GROUP, days=cases.put(DAYS, 1, 30))),
            ("December -60.1", replace(PETROL_GROUP, temperatures=cases.put(cases.YEAR, 11, -601))),
            ("January 60.1", replace(PETROL_GROUP, temperatures=cases.put(cases.YEAR, 0, 601))),
            ("CO above its range", cases.with_coefficients(PETROL_GROUP, papers.CO, co)),
            ("petrol with soot", with_soot(PETROL_GROUP)),
            ("diesel with lead", with_lead(DIESEL_GROUP)),
            ("petrol with soot, share 101", replace(with_soot(PETROL_GROUP), share=101)),
        ]
    )


def flag_calls():
    """Each of the four, and above 3: out of range, also where 11 would be the answer."""
    size, calls = NUMBERS["GROUP_NUMBERS"], []
    for flags in range(4):
        for name, g in (("petrol", PETROL_GROUP), ("diesel", DIESEL_GROUP)):
            both = replace(g, controlled=flags % 2 == 1, heated=flags >= 2)
            calls.append(Call(f"{name}, flags {flags}", "group", both, size))
    for flags in (4, 5, 7, 128, 255):
        calls.append(Call(f"flags {flags}", "group", PETROL_GROUP, size, flags=flags))
    soot = with_soot(PETROL_GROUP)
    return calls + [Call("flags 4 and soot", "group", soot, size, flags=4)]


def length_calls():
    """Each slice one short, one too long and empty; two wrong at once; and a group that is out of
    range, or `out` too short, beside a wrong length."""
    size, g, calls = NUMBERS["GROUP_NUMBERS"], PETROL_GROUP, []
    for name, right in LENGTHS.items():
        for n in (right - 1, right + 1, 0):
            calls.append(Call(f"{n} {name}", "group", g, size, lengths=((name, n),)))
    both = (("days", 13), ("temperatures", 11))
    calls.append(Call("13 days, 11 temperatures", "group", g, size, lengths=both))
    wrong = (("distances", 3),)
    far = replace(g, share=101)
    calls.append(Call("3 distances, share 101", "group", far, size, lengths=wrong))
    calls.append(Call("3 distances, 31 lent", "group", g, size - 1, lengths=wrong))
    return calls


def group_calls():
    size, sources = NUMBERS["GROUP_NUMBERS"], group_sources()
    calls = [Call(label, "group", g, size + at % 4) for at, (label, g) in enumerate(sources)]
    for label, g in (sources[0], sources[-1]):
        calls += [Call(f"{label}, {n}", "group", g, n) for n in rooms(size)]
    return calls + flag_calls() + length_calls()


# Cases of timed groups: all numbers of a diesel one still differ

PETROL_TIMED = replace(PETROL_GROUP, timed=timed.TENTHS, temperatures=timed.SEVERE)
DIESEL_TIMED = replace(DIESEL_GROUP, timed=timed.TENTHS, temperatures=timed.SEVERE)


def timed_sources():
    return (
        [("timed petrol", PETROL_TIMED), ("timed diesel", DIESEL_TIMED)]
        + [("heated, timed petrol", replace(PETROL_TIMED, heated=True))]
        + [("heated, timed diesel", replace(DIESEL_TIMED, heated=True, controlled=False))]
        + [(f"timed {tenths}", replace(PETROL_TIMED, timed=tenths)) for tenths in (1, 250)]
        + refused("group", PETROL_TIMED, dict(timed=(251, 257, 65_536 + 15, 2**32 - 1)))
        + [
            ("timed 250, idle 251", replace(PETROL_TIMED, timed=250, idle=251)),
            ("timed petrol with soot", with_soot(PETROL_TIMED)),
            ("timed 251, petrol with soot", replace(with_soot(PETROL_TIMED), timed=251)),
        ]
    )


def timed_calls():
    size, sources = NUMBERS["GROUP_NUMBERS"], timed_sources()
    calls = [Call(label, "group", g, size + at % 4) for at, (label, g) in enumerate(sources)]
    calls.append(Call("timed petrol, 31 lent", "group", PETROL_TIMED, size - 1))
    short, far = (("days", 11),), replace(PETROL_TIMED, timed=251)
    calls.append(Call("timed petrol, 11 days", "group", PETROL_TIMED, size, lengths=short))
    return calls + [Call("timed 251, 11 days", "group", far, size, lengths=short)]


# Cases of the files

STORES = [replace(HANDLED, dust=2), replace(STOOD, dust=3), replace(AIR, dust=1)]
YARD = build([PETROL_GROUP, DIESEL_GROUP], STORES, dice=Dice(5)).data

# With locomotives besides: all codes, and three counts that differ
PLANT = build([PETROL_GROUP, DIESEL_GROUP], STORES, dice=Dice(6), locomotives=[ENGINE]).data


def refused_files():
    """For each number a file, at a slot that is neither 0 nor the number where it can be so."""
    found = [("no bytes", b""), ("63 bytes", YARD[:63])]
    uneven = [case for case in file_locomotives.lone_faults() if case.expected[0] == 14]
    faults = file_edges.lone_faults() + uneven
    for number in (*range(2, 13), 14):
        of_number = [case for case in faults if case.expected[0] == number]
        told_apart = [case for case in of_number if case.expected[1] not in (0, number)]
        for case in (told_apart or of_number)[-1:]:
            found.append((f"refused {number}", case.data))
    return found


def accepted_files():
    dice = Dice(12)
    found = [("all codes", YARD), ("no sources", build().data), ("example B", inventory.example())]
    return found + [(f"valid {i}", file_mixes.any_file(dice).data) for i in range(3)]


def files_with_locomotives():
    dice = Dice(3)
    valid = [file_mixes.any_file(dice, 1, 2, 4).data for _ in range(2)]
    return [("three chains", PLANT)] + [(f"three chains {i}", data) for i, data in enumerate(valid)]


def timed_files():
    """Two timed groups before an untimed one; and that one above the range."""
    groups = [PETROL_TIMED, replace(DIESEL_TIMED, heated=True), DIESEL_GROUP]
    f = build(groups, STORES[:1], timed.SEVERE, Dice(7))
    above = changed(f.data, byte(f.groups[-1], 36, 251))
    return [("timed", f.data), ("timed 251", above)]


def file_calls():
    size, calls = NUMBERS["NUMBERS"], []
    every = accepted_files() + refused_files() + files_with_locomotives() + timed_files()
    for at, (label, data) in enumerate(every):
        calls.append(Call(f"{label}, check", "check", data, at % 3))
        calls.append(Call(f"{label}, answer", "answer", data, size + at % 4))
        calls.append(Call(f"{label}, list", "list", data, size + at % 3, len(BUFFER) - at))
    full = next(case.data for case in file_mixes.full() if case.label == "full mix")
    return calls + [Call("1,024 slots, list", "list", full, size, len(BUFFER))]


def lent_calls():
    size, exact, calls = NUMBERS["NUMBERS"], len(slot_file.printed(YARD)), []
    bad = dict(refused_files())["refused 12"]
    for n in rooms(size):
        calls.append(Call(f"answer, {n} lent", "answer", YARD, n))
        calls.append(Call(f"refused answer, {n} lent", "answer", bad, n))
        for room in rooms(exact):
            calls.append(Call(f"list, {n} and {room} lent", "list", YARD, n, room))
        calls.append(Call(f"refused list, {n} lent", "list", bad, n, exact))
    return calls


def all_calls():
    rules = store_calls() + group_calls()
    return rules + file_calls() + lent_calls() + locomotive_calls() + timed_calls()


# What the cases must reach


def assert_codes():
    """Every number of the answer differs from the others: groups, store records, locomotives, and a
    figure for each code in both columns."""
    a = slot_file.answer(PLANT)
    numbers = answer_numbers(a.number, a.slot, a)[2:]
    assert len(set(numbers)) == len(numbers) == 3 + 2 * NUMBERS["CODES"] and 0 not in numbers


def with_fields(source, one, other):
    """The source with two of its fields exchanged, by the header's names."""
    names = {"running": "neutraliser", "warming": "warm_up_neutraliser"}
    a, b = names.get(one, one), names.get(other, other)
    return replace(source, **{a: getattr(source, b), b: getattr(source, a)})


def exchanged(call, one, other):
    """The call with two of its numbers exchanged."""
    if "flags" not in (one, other):
        return replace(call, source=with_fields(call.source, one, other))
    field = other if one == "flags" else one
    value = fields(call)[field]
    flags = dict(controlled=value % 2 == 1, heated=value // 2 % 2 == 1)
    name = {"running": "neutraliser", "warming": "warm_up_neutraliser"}.get(field, field)
    source = replace(call.source, **flags, **{name: flags_of(call)})
    return replace(call, source=source, flags=value)


# C and V have one range, and the rule multiplies them
ALIKE = {("concentration", "flow")}


def assert_exchanges(every):
    """Any two numbers of one width that are not alike, exchanged, change what some call gives."""
    for function in FUNCTIONS[3:]:
        calls = [call for call in every if call.function == function]
        widths = number_parameters(function)
        for (letter, one), (other_letter, other) in combinations(widths, 2):
            if letter == other_letter and (one, other) not in ALIKE:
                seen = any(given(call) != given(exchanged(call, one, other)) for call in calls)
                assert seen, (function, one, other)


def with_slices(g, distances, numbers):
    """The group with these distances and these 42 coefficients."""
    rows = [numbers[at : at + 7] for at in range(0, len(numbers), 7)]
    names = ("out_nearest", "out_farthest", "in_nearest", "in_farthest")
    coefficients = tuple(papers.Coefficients(row[0:3], row[3:6], row[6]) for row in rows)
    return replace(g, coefficients=coefficients, **dict(zip(names, distances)))


def assert_slices():
    """Each coefficient exchanged with the next one, and the ways out with those in, change what a
    petrol or a diesel group gives. The nearest and the farthest are added, so these are alike."""
    groups = (PETROL_GROUP, DIESEL_GROUP)
    before = [papers.group(g) for g in groups]
    for at in range(NUMBERS["COEFFICIENTS"] - 1):
        after = []
        for g in groups:
            values = slices(g)
            k = list(values["coefficients"])
            k[at], k[at + 1] = k[at + 1], k[at]
            after.append(papers.group(with_slices(g, values["distances"], tuple(k))))
        assert after != before, at
    for g, answer in zip(groups, before):
        values = slices(g)
        ways = values["distances"][2:] + values["distances"][:2]
        assert papers.group(with_slices(g, ways, values["coefficients"])) != answer


def assert_reached(every):
    counts = Counter(call.function for call in every)
    assert all(counts[function] >= 15 for function in FUNCTIONS), counts
    assert 150 <= len(every) <= 330, len(every)
    labels = Counter(call.label for call in every)
    assert max(labels.values()) == 1, labels.most_common(3)
    lists = Counter(given(call)[1][0] for call in every if call.function == "list")
    assert all(lists[number] >= 1 for number in range(15)), lists
    for function, barred in (("group", 11), ("locomotive", 14)):
        rules = Counter(rule_answer(call).verdict for call in every if call.function == function)
        assert min(rules[number] for number in (0, 9, barred)) >= 2, (function, rules)


def main():
    every = all_calls()
    assert_codes()
    assert_exchanges(every)
    assert_slices()
    assert_reached(every)
    sides = (lambda: b"".join(map(record, every)), lambda: b"".join(map(output, every)))
    cases.write_side("interface_cases.py", *sides)


if __name__ == "__main__":
    main()

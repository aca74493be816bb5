"""The slot file: what bytes of any length and content are answered.

This is the part of the separate calculation that reads files. It is written from 01, the scope
paper, alone: "The slot file", "Questions in order" and "Figures", with the changes of 02 (U1,
locomotives, and U2, timed warm-ups). Each function names the sentence that it renders. What a
source gives is worked out by papers.py, in exact fractions.
"""
import struct
from dataclasses import dataclass
from fractions import Fraction
from functools import lru_cache

import papers
from papers import Aspiration, Coefficients, Group, Handling, Locomotive, Standing

# "Slots of 64 bytes"; question 1: "from 64 to 65,536"
SLOT = 64
LONGEST = 65_536

# Byte 2 of a slot: "Group (byte 2 = 1)", "Coefficients (byte 2 = 2)", "Store record (byte 2 = 3
# handling, 4 standing, 5 aspiration)"; 02, "Kind 6"
GROUP, COEFFICIENTS, HANDLING, STANDING, ASPIRATION, LOCOMOTIVE = 1, 2, 3, 4, 5, 6
GROUP_KINDS = (GROUP,)
COEFFICIENT_KINDS = (COEFFICIENTS,)
STORE_KINDS = (HANDLING, STANDING, ASPIRATION)
LOCOMOTIVE_KINDS = (LOCOMOTIVE,)

# The lines of the listing, in 01's order
CODES = (152, 184, 301, 328, 330, 337, 2704, 2754, 2908, 2909)


@dataclass(frozen=True)
class Answer:
    """What a file is answered. 01 names no number for an accepted file; here it is 0, slot 0."""

    number: int
    slot: int
    figures: tuple  # annual and peak of each of CODES
    groups: int
    stores: int
    locomotives: int


class Refused(Exception):
    """"A refusal gives its number and a slot"."""

    def __init__(self, number, slot):
        self.number = number
        self.slot = slot


def ask(yes, number, slot):
    """One question of the table: "Number when no"."""
    if not yes:
        raise Refused(number, slot)


# Numbers: "numbers are unsigned, little-endian", and "a..b" are byte positions.


def two(slot, at):
    return int.from_bytes(slot[at : at + 2], "little")


def four(slot, at):
    return int.from_bytes(slot[at : at + 4], "little")


def signed(slot, at):
    """"signed 16-bit tenths of a degree"."""
    return int.from_bytes(slot[at : at + 2], "little", signed=True)


def following(slot):
    """"A chain runs by each slot's next index (0..1)"."""
    return two(slot, 0)


# Slot 0


def first_group(header):
    """"4..5 first group"."""
    return two(header, 4)


def first_store(header):
    """"6..7 first store record"."""
    return two(header, 6)


def first_locomotive(header):
    """02, "Header bytes 32..33 become the first locomotive slot"."""
    return two(header, 32)


def temperatures(header):
    """"8..31 the twelve monthly mean temperatures ..., January first"."""
    return tuple(signed(header, 8 + 2 * month) for month in range(12))


# Group


def first_coefficients(slot):
    """"34..35 first coefficient slot"."""
    return two(slot, 34)


@lru_cache(maxsize=None)
def read_group(slot, months, rows):
    """"Group (byte 2 = 1): 3 category ... 22..33 days worked per month"; 02, "Group byte 36 holds
    tenths of a minute". The temperatures are slot 0's, and the coefficients are those of the
    group's six coefficient slots."""
    return Group(
        category=slot[3],
        fuel=slot[4],
        controlled=slot[5] & 1 != 0,
        heated=slot[5] & 2 != 0,
        vehicles=two(slot, 6),
        leaving=two(slot, 8),
        share=slot[10],
        neutraliser=slot[11],
        warm_up_neutraliser=slot[12],
        idle=slot[13],
        timed=slot[36],
        out_nearest=two(slot, 14),
        out_farthest=two(slot, 16),
        in_nearest=two(slot, 18),
        in_farthest=two(slot, 20),
        days=tuple(slot[22:34]),
        temperatures=months,
        coefficients=tuple(read_coefficients(row) for row in rows),
    )


def group_fields_in_range(slot):
    """The ranges of "Group", and "5 flags: bit 0 ..., bit 1 ..., the others zero"; the group alone,
    with neither temperatures nor coefficients."""
    return papers.group_in_range(read_group(slot, (), ())) and slot[5] & ~3 == 0


# Coefficients


def pollutant(slot):
    """"3 pollutant: 1 CO, 2 hydrocarbons, 3 NO2, 4 soot, 5 SO2, 6 lead"."""
    return slot[3]


def read_coefficients(slot):
    """"Then from 4 seven 4-byte numbers ...: warm-up per minute in warm, transitional, cold period;
    run per kilometre in the same three; idle per minute"."""
    seven = [four(slot, 4 + 4 * place) for place in range(7)]
    return Coefficients(tuple(seven[0:3]), tuple(seven[3:6]), seven[6])


def coefficients_in_range(slot):
    """"seven 4-byte numbers of 0 to 1,000,000". "The pollutant number is judged by 10 ..., not by
    9"."""
    return all(0 <= k <= 1_000_000 for k in read_coefficients(slot).all_seven())


# Store record


def read_bulk(slot):
    """"3 dust code ... 4..5 store number ... Handling and standing: 6 material ... 8..9 wind ...
    10..11 moisture ... 12..13 grain ... 14 openness ... 20..23 amount"."""
    return dict(
        dust=slot[3],
        store=two(slot, 4),
        material=slot[6],
        wind=two(slot, 8),
        moisture=two(slot, 10),
        grain=two(slot, 12),
        openness=slot[14],
        amount=four(slot, 20),
    )


def read_handling(slot):
    """"Handling only: 15 drop class"."""
    return Handling(**read_bulk(slot), drop=slot[15])


def read_standing(slot):
    """"Standing only: 16..17 K6 in hundredths"."""
    return Standing(**read_bulk(slot), k6=two(slot, 16))


def read_aspiration(slot):
    """"Aspiration: 8..11 dust C ... 12..15 gas V ... 16..17 capture ... 18..19 hours"."""
    return Aspiration(
        dust=slot[3],
        store=two(slot, 4),
        concentration=four(slot, 8),
        flow=four(slot, 12),
        capture=two(slot, 16),
        hours=two(slot, 18),
    )


READ_STORE = {HANDLING: read_handling, STANDING: read_standing, ASPIRATION: read_aspiration}


@lru_cache(maxsize=None)
def read_store(slot):
    """"A store record is one of three kinds, each with its own fields"."""
    return READ_STORE[slot[2]](slot)


# Locomotive


@lru_cache(maxsize=None)
def read_locomotive(slot):
    """02, "Kind 6 has 3 type ...; 4..13 five 16-bit time shares ..., idle to full power; 14..15
    hours ...; 16 is 1 for over two years old, else 0; 17 zone"."""
    return Locomotive(
        slot[3],
        *(two(slot, 4 + 2 * mode) for mode in range(5)),
        hours=two(slot, 14),
        old=slot[16],
        zone=slot[17],
    )


# Question 9


def named(*spans):
    """The byte positions of "a..b", each span with both its ends."""
    return {at for first, last in spans for at in range(first, last + 1)}


NAMED = {
    GROUP: named((0, 36)),
    COEFFICIENTS: named((0, 31)),
    HANDLING: named((0, 6), (8, 15), (20, 23)),
    STANDING: named((0, 6), (8, 14), (16, 17), (20, 23)),
    ASPIRATION: named((0, 5), (8, 19)),
    LOCOMOTIVE: named((0, 17)),
}

IN_RANGE = {
    GROUP: group_fields_in_range,
    COEFFICIENTS: coefficients_in_range,
    HANDLING: lambda slot: papers.handling_in_range(read_store(slot)),
    STANDING: lambda slot: papers.standing_in_range(read_store(slot)),
    ASPIRATION: lambda slot: papers.aspiration_in_range(read_store(slot)),
    LOCOMOTIVE: lambda slot: papers.locomotive_in_range(read_locomotive(slot)),
}


def unnamed_bytes_are_zero(slot):
    """"Bytes not named are zero": which ones are named goes by the slot's kind."""
    return all(slot[at] == 0 for at in range(SLOT) if at not in NAMED[slot[2]])


@lru_cache(maxsize=None)
def fields_are_in_order(slot):
    """Question 9: "Is each field in range and every unnamed byte zero?" 02, U2: "Question 9 covers
    the byte" of a timed warm-up."""
    return IN_RANGE[slot[2]](slot) and unnamed_bytes_are_zero(slot)


# Questions 1 to 5


def ask_length(data):
    """"Is the length a multiple of 64, from 64 to 65,536?" "The slot is 0 for 1 to 5 and 13"."""
    ask(len(data) % SLOT == 0 and SLOT <= len(data) <= LONGEST, 1, 0)


def ask_header(slots):
    """Questions 2 to 5, of slot 0. 02: "question 4 skips the two bytes" of the first locomotive."""
    header = slots[0]
    ask(two(header, 0) == 1, 2, 0)
    ask(two(header, 2) == len(slots), 3, 0)
    ask(header[34:64] == bytes(30), 4, 0)
    ask(all(-600 <= t <= 600 for t in temperatures(header)), 5, 0)


# The walk


def ask_link(slots, holder, link):
    """Question 6: "Is the link below the slot count?" The slot is "the slot holding the link for
    6"."""
    ask(link < len(slots), 6, holder)


def ask_source(slots, holder, link, kinds, sources):
    """"At each nonzero link 6, 7, 8 and 9 are asked", for 7, 8 and 9 of "the slot asked about". The
    slot numbers in sources are those met on this walk as a group or store record; 02, "question 7
    includes locomotives"."""
    ask_link(slots, holder, link)
    ask(link not in sources, 7, link)
    ask(slots[link][2] in kinds, 8, link)
    ask(fields_are_in_order(slots[link]), 9, link)


def ask_coefficients(slots, holder, link, turn):
    """"six coefficient links, each asking: nonzero (10), 6, 8, 9, pollutant in turn (10)". The slot
    is "the slot holding the link for 6 and for a zero link under 10", else the slot asked about."""
    ask(link != 0, 10, holder)
    ask_link(slots, holder, link)
    ask(slots[link][2] in COEFFICIENT_KINDS, 8, link)
    ask(fields_are_in_order(slots[link]), 9, link)
    ask(pollutant(slots[link]) == turn, 10, link)


def walk_coefficients(slots, group):
    """The six slots of a group's coefficient chain; "after the sixth, next is zero (10)", asked of
    "the sixth coefficient slot where its next isn't zero"."""
    rows = []
    holder, link = group, first_coefficients(slots[group])
    for turn in papers.POLLUTANTS:
        ask_coefficients(slots, holder, link, turn)
        rows.append(link)
        holder, link = link, following(slots[link])
    ask(link == 0, 10, holder)
    return rows


def walk_groups(slots, sources):
    """"The walk takes the group chain"; "After a group's own 9 come its six coefficient links ...;
    then 11 for the group". Gives the groups, and the coefficient slots that were reached."""
    months = temperatures(slots[0])
    groups, reached = [], set()
    holder, link = 0, first_group(slots[0])
    while link != 0:
        ask_source(slots, holder, link, GROUP_KINDS, sources)
        sources.add(link)
        rows = walk_coefficients(slots, link)
        reached.update(rows)
        group = read_group(slots[link], months, tuple(slots[row] for row in rows))
        ask(not papers.must_be_zero(group), 11, link)
        groups.append(group)
        holder, link = link, following(slots[link])
    return groups, reached


def walk_stores(slots, sources):
    """"... then the store chain"."""
    stores = []
    holder, link = 0, first_store(slots[0])
    while link != 0:
        ask_source(slots, holder, link, STORE_KINDS, sources)
        sources.add(link)
        stores.append(read_store(slots[link]))
        holder, link = link, following(slots[link])
    return stores


def walk_locomotives(slots, sources):
    """02, "walked after the stores"; "14 when a locomotive's shares don't total 1,000, asked after
    its 9", of the slot asked about."""
    locomotives = []
    holder, link = 0, first_locomotive(slots[0])
    while link != 0:
        ask_source(slots, holder, link, LOCOMOTIVE_KINDS, sources)
        sources.add(link)
        locomotive = read_locomotive(slots[link])
        ask(papers.shares_are_whole(locomotive), 14, link)
        locomotives.append(locomotive)
        holder, link = link, following(slots[link])
    return locomotives


def ask_reached(slots, reached):
    """Question 12: "Is each slot from 1 up reached?" The slot is "the lowest unreached for 12"."""
    for number in range(1, len(slots)):
        ask(number in reached, 12, number)


# The answer

RULES = {
    Group: papers.group,
    Handling: papers.handling,
    Standing: papers.standing,
    Aspiration: papers.aspiration,
    Locomotive: papers.locomotive,
}


@lru_cache(maxsize=None)
def given(source):
    """What "the rules above give ... from each source"."""
    answer = RULES[type(source)](source)
    assert answer.verdict == papers.ACCEPTED, source
    return answer.emissions


def figures(sources):
    """"The exact sum of a code, annual or peak, adds as fractions what the rules above give that
    code from each source, equal sources each with a term of their own"; "Rounding happens once,
    after all sources are summed"."""
    tonnes = dict.fromkeys(CODES, Fraction(0))
    rates = dict.fromkeys(CODES, Fraction(0))
    for source in sources:
        for emission in given(source):
            tonnes[emission.code] += emission.tonnes
            rates[emission.code] += emission.rate
    return tuple(
        (papers.annual_figure(tonnes[code]), papers.peak_figure(rates[code])) for code in CODES
    )


def accepted(data):
    """Questions 1 to 12, and 14, in order, then the figures and the counts; a no raises the
    refusal."""
    ask_length(data)
    slots = [data[at : at + SLOT] for at in range(0, len(data), SLOT)]
    ask_header(slots)
    sources = set()
    groups, reached = walk_groups(slots, sources)
    stores = walk_stores(slots, sources)
    locomotives = walk_locomotives(slots, sources)
    ask_reached(slots, sources | reached)
    figured = figures(groups + stores + locomotives)
    return Answer(0, 0, figured, len(groups), len(stores), len(locomotives))


@lru_cache(maxsize=None)
def answer(data):
    """"A refusal gives its number and a slot, with every figure and count zero"."""
    try:
        return accepted(data)
    except Refused as no:
        return Answer(no.number, no.slot, ((0, 0),) * len(CODES), 0, 0, 0)


# The listing


def fixed(units, decimals):
    """"Every number is decimal with no leading zeros, except one zero before the point"."""
    return f"{units // 10**decimals}.{units % 10**decimals:0{decimals}}"


def listing(a):
    """"heading; code, tonnes, grams per second; then groups and store records. Each line ends in a
    line feed"; "codes have four digits". 02: "the sources line gains a third count, the length of
    the locomotive chain"."""
    lines = ["code t/year g/s"]
    for code, (annual, peak) in zip(CODES, a.figures):
        lines.append(f"{code:04} {fixed(annual, 6)} {fixed(peak, 7)}")
    lines.append(f"sources {a.groups} {a.stores} {a.locomotives}")
    return "".join(line + "\n" for line in lines).encode("ascii")


def printed(data):
    """"The program `inventory` reads standard input and prints the listing, or `refused`, number
    and slot, parted by spaces"."""
    a = answer(data)
    if a.number != 0:
        return f"refused {a.number} {a.slot}\n".encode("ascii")
    return listing(a)


def listed(data, buffer):
    """Number, slot, length and the buffer afterwards. "Only a listing asks 13, last"; "A refused
    listing has length 0 and changes no byte of the buffer. An accepted one writes from byte 0,
    returns its length, and changes nothing beyond it", so that a longer buffer is as good."""
    a = answer(data)
    if a.number != 0:
        return a.number, a.slot, 0, buffer
    text = listing(a)
    if len(buffer) < len(text):
        return 13, 0, 0, buffer
    return 0, 0, len(text), text + buffer[len(text) :]


# Packing: the same paper read the other way, for those who make files.


def pack(layout, *values):
    """A slot; "Bytes not named are zero"."""
    return struct.pack("<" + layout, *values).ljust(SLOT, b"\0")


def header(count, group, store, months, locomotive=0):
    return pack("4H12hH", 1, count, group, store, *months, locomotive)


def group_slot(g, after, coefficients):
    flags = g.controlled + 2 * g.heated
    return pack(
        "H4BHH4B4H12BHB",
        *(after, GROUP, g.category, g.fuel, flags, g.vehicles, g.leaving),
        *(g.share, g.neutraliser, g.warm_up_neutraliser, g.idle),
        *(g.out_nearest, g.out_farthest, g.in_nearest, g.in_farthest),
        *g.days,
        *(coefficients, g.timed),
    )


def coefficient_slot(k, after, number):
    return pack("HBB7I", after, COEFFICIENTS, number, *k.all_seven())


def handling_slot(r, after):
    heads = (after, HANDLING, r.dust, r.store, r.material)
    return pack(
        "HBBHBx3HBB4xI", *heads, r.wind, r.moisture, r.grain, r.openness, r.drop, r.amount
    )


def standing_slot(r, after):
    heads = (after, STANDING, r.dust, r.store, r.material)
    return pack(
        "HBBHBx3HBxHxxI", *heads, r.wind, r.moisture, r.grain, r.openness, r.k6, r.amount
    )


def aspiration_slot(r, after):
    heads = (after, ASPIRATION, r.dust, r.store)
    return pack("HBBHxxIIHH", *heads, r.concentration, r.flow, r.capture, r.hours)


PACK_STORE = {Handling: handling_slot, Standing: standing_slot, Aspiration: aspiration_slot}


def store_slot(r, after):
    return PACK_STORE[type(r)](r, after)


def locomotive_slot(r, after):
    return pack("HBB6HBB", after, LOCOMOTIVE, r.model, *r.shares(), r.hours, r.old, r.zone)

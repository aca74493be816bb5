"""Files of any sources in any order: valid ones, full ones, and ones damaged at random."""
from dataclasses import replace

import cases
import locomotives
import papers
import slot_file
import timed
from cases import COAL_HANDLED, SLAG_STANDING, THIN_AIR
from cases import DIESEL_FLEET, FLEET, YEAR, Dice
from files import ACCEPTED, FileCase, always, build, byte, changed, never, shuffled, word
from papers import Coefficients, DIESEL, PETROL
from slot_file import SLOT, GROUP, LOCOMOTIVE

# Valid files

SOURCES = (cases.any_handling, cases.any_standing, cases.any_aspiration)


def any_stores(dice, most):
    return [dice.pick(SOURCES)(dice) for _ in range(dice.below(most + 1))]


def with_rows_of(dice, g, other):
    """g with some of the other's last rows: of its fuel, or with neither soot nor lead."""
    own = dice.below(6)
    g = replace(g, coefficients=g.coefficients[:own] + other.coefficients[own:])
    if dice.below(3) == 0:
        g = cases.with_coefficients(g, papers.SOOT, cases.NO_COEFFICIENTS)
        return cases.with_coefficients(g, papers.LEAD, cases.NO_COEFFICIENTS)
    held = papers.SOOT if other.fuel == PETROL else papers.LEAD
    return cases.with_coefficients(replace(g, fuel=other.fuel), held, cases.NO_COEFFICIENTS)


def any_groups(dice, most, any_group=cases.any_group):
    """Some with rows of another, so that these can be shared."""
    groups = []
    for _ in range(dice.below(most + 1)):
        g = any_group(dice)
        if groups and dice.below(2) == 0:
            g = with_rows_of(dice, g, dice.pick(groups))
        groups.append(g)
    return groups


def any_months(dice):
    if dice.below(3) == 0:
        return tuple(dice.pick(cases.BAND_EDGES) for _ in range(12))
    return tuple(dice.between(-320, 250) for _ in range(12))


def coin(dice):
    return lambda: dice.below(2) == 0


def any_locomotives(dice, most):
    """Where there are none at most, no dice are thrown."""
    number = dice.below(most + 1) if most > 0 else 0
    return [locomotives.any_locomotive(dice) for _ in range(number)]


def any_file(dice, most_groups=3, most_stores=5, most_locomotives=0, any_group=cases.any_group):
    groups, stores = any_groups(dice, most_groups, any_group), any_stores(dice, most_stores)
    engines = any_locomotives(dice, most_locomotives)
    months, may_share = any_months(dice), dice.pick((never, always, coin(dice)))
    return build(groups, stores, months, dice, may_share, engines)


def valid():
    dice = Dice(1)
    return [FileCase(f"valid {i}", any_file(dice).data, ACCEPTED) for i in range(420)]


def valid_with_locomotives():
    dice = Dice(101)
    files = [any_file(dice, i % 3, 3, 5) for i in range(60)]
    return [FileCase(f"valid, three chains {i}", f.data, ACCEPTED) for i, f in enumerate(files)]


def any_timed_file(dice, most_groups=3):
    """Half of the groups are timed; some files have a locomotive too."""
    return any_file(dice, most_groups, 2, dice.below(2), timed.any_group)


def valid_timed():
    dice = Dice(102)
    files = [any_timed_file(dice) for _ in range(45)]
    return [FileCase(f"valid, timed {i}", f.data, ACCEPTED) for i, f in enumerate(files)]


NEITHER = cases.with_coefficients(FLEET, papers.LEAD, cases.NO_COEFFICIENTS)


def shared_rows():
    """Two groups that differ in their fuel only, with rows for both fuels or for one. Question 11
    is asked for each group, and the slot is that of the group with the wrong fuel."""
    dice = Dice(11)
    found = []
    for label, g, wrong in (
        ("both fuels", NEITHER, None),
        ("petrol", FLEET, DIESEL),
        ("diesel", DIESEL_FLEET, PETROL),
    ):
        for fuels in ((PETROL, DIESEL), (DIESEL, PETROL)):
            for may_share in (never, always, coin(dice)):
                groups = [replace(g, fuel=fuel) for fuel in fuels]
                f = build(groups, dice=dice, may_share=may_share)
                expected = ACCEPTED if wrong is None else (11, f.groups[fuels.index(wrong)])
                found.append(FileCase(f"rows for {label}", f.data, expected))
    return found


def repeated(dice, sources):
    """The same sources, some of them more than once."""
    return [source for source in sources for _ in range(dice.pick((1, 1, 1, 2, 3)))]


def alike_files(dice, most_locomotives, any_group):
    """Files alike in their temperatures, groups, store records and locomotives."""
    groups = repeated(dice, any_groups(dice, 2, any_group))
    stores = repeated(dice, any_stores(dice, 4))
    engines = repeated(dice, any_locomotives(dice, most_locomotives))
    months = any_months(dice)
    files = [build(groups, stores, months, None, share, engines) for share in (never, always)]
    for may_share in (never, always, coin(dice)):
        mixed = shuffled(dice, groups), shuffled(dice, stores)
        files.append(build(*mixed, months, dice, may_share, shuffled(dice, engines)))
    return [f.data for f in files]


def families(dice, number, most_locomotives, any_group=cases.any_group):
    """Demand 3: alike files get the same answers."""
    found = []
    for family in range(number):
        files = alike_files(dice, most_locomotives, any_group)
        answers = {slot_file.answer(data) for data in files}
        assert len(answers) == 1, family
        found += [FileCase(f"alike {family}", data, ACCEPTED) for data in files]
    return found


def alike():
    untimed = families(Dice(3), 60, 0) + families(Dice(303), 12, 4)
    return untimed + families(Dice(333), 8, 1, timed.any_group)


def half_air(capture):
    """So many times 0.00000001 g/s, by the part that is not captured."""
    return replace(THIN_AIR, capture=capture, hours=0)


def half_stores():
    """Sums at half a unit and at either side of it, of one source and of several."""
    found = []
    for times in range(1, 10):
        for capture in (9_499, 9_500, 9_501):
            found.append(build(stores=[half_air(capture)] * times))
        for hours in (110, 111, 139):
            found.append(build(stores=[replace(THIN_AIR, hours=hours)] * times))
        found.append(build(stores=[SLAG_STANDING] * times))
    for concentration in (1_249, 1_250, 1_251):
        air = replace(THIN_AIR, concentration=concentration, hours=1)
        found += [build(stores=[air]), build(stores=[air, half_air(9_500)])]
    return found


def idle_group(coefficient, idle):
    """One car that only idles, on one day."""
    k = Coefficients((0, 0, 0), (0, 0, 0), coefficient)
    return replace(
        cases.surveyed_group(),
        vehicles=1,
        leaving=1,
        share=100,
        idle=idle,
        days=cases.put((0,) * 12, 6, 1),
        coefficients=(k,) + (cases.NO_COEFFICIENTS,) * 5,
    )


def half_groups():
    """0.25 g each way is half a millionth of a tonne; 0.00018 g in an hour is half of the peak's
    last digit."""
    found = []
    for coefficient, idle in ((2_499, 10), (2_500, 10), (2_501, 10), (17, 1), (18, 1), (19, 1)):
        for times in (1, 2, 3):
            found.append(build([idle_group(coefficient, idle)] * times, may_share=always))
    return found


def small_engine(**shares):
    """A ТУ4 that runs for one hour."""
    return locomotives.with_shares(locomotives.IDLING, **shares)


# 0.7 × (0.004 × 625 + 0.06 × 375) is 17.5 g of soot; 0.7 × (0.02 × 750 + 0.05 × 250) is 19.25 g;
# 0.7 × (0.17 × 900 + 0.22 × 100) is 122.5 g of CO
HALF_SOOT = small_engine(idle=625, three_quarters=375)
QUARTER_SOOT = small_engine(quarter=750, half=250)
HALF_CO = small_engine(idle=900, quarter=100)


def half_locomotives():
    """Sums at half a gram and at either side of it, and CO of which a group has the other half."""
    less, more = small_engine(idle=626, three_quarters=374), small_engine(idle=624, three_quarters=376)
    found = []
    for times in (1, 2, 3):
        for engine in (HALF_SOOT, QUARTER_SOOT, HALF_CO, less, more):
            found.append(build(locomotives=[engine] * times))
        found.append(build([idle_group(2_500, 10)] * times, locomotives=[HALF_CO]))
    return [FileCase(f"half, locomotives {i}", f.data, ACCEPTED) for i, f in enumerate(found)]


def halves():
    every = half_stores() + half_groups()
    return [FileCase(f"half {i}", f.data, ACCEPTED) for i, f in enumerate(every)]


# Full files: 1,024 slots

LARGEST = {case.label: case.source for case in cases.largest_sources()}
FREEZING = (-600,) * 12


def largest_stores(number):
    """Handling, standing and aspiration in turn, and each dust code."""
    turns = [LARGEST[f"largest {kind}"] for kind in ("handling", "standing", "aspiration")]
    return [replace(turns[i % 3], dust=1 + i // 3 % 3, store=1 + i) for i in range(number)]


def largest_mix(dice):
    """Petrol and diesel, each with its six rows, and stores of each kind."""
    petrol, diesel = LARGEST["largest petrol group"], LARGEST["largest diesel group"]
    groups = shuffled(dice, [petrol] * 300 + [diesel] * 300)
    return build(groups, largest_stores(411), FREEZING, dice, always)


def own_rows(dice):
    """146 groups, each with its own six rows, and a store record."""
    base = [cases.any_group(dice) for _ in range(25)]
    groups = [replace(dice.pick(base), vehicles=10_000) for _ in range(146)]
    return build(groups, [COAL_HANDLED], YEAR, dice)


def full_files(dice):
    petrol, diesel = LARGEST["largest petrol group"], LARGEST["largest diesel group"]
    nearly = LARGEST["nearly the largest aspiration"]
    some = [dice.pick(SOURCES)(dice) for _ in range(200)]
    return {
        "nearly aspiration": build(stores=[nearly] * 1_023, dice=dice),
        "stores": build(stores=largest_stores(1_023), dice=dice),
        "diesel": build([diesel] * 1_017, (), FREEZING, None, always),
        "nearly": build([LARGEST["nearly the largest group"]] * 1_017, (), YEAR, dice, always),
        "petrol and diesel": build([petrol, diesel] * 505, [THIN_AIR], FREEZING, dice, always),
        "mix": largest_mix(dice),
        "own rows": own_rows(dice),
        "some stores": build(stores=[dice.pick(some) for _ in range(1_023)], dice=dice),
    }


def full():
    dice = Dice(1_024)
    every = full_files(dice)
    assert {f.count() for f in every.values()} == {1_024}
    found = [FileCase(f"full {label}", f.data, ACCEPTED) for label, f in every.items()]
    exact = len(slot_file.printed(every["mix"].data))
    found += [FileCase("full mix", every["mix"].data, ACCEPTED, exact + more) for more in (0, -1)]
    stores = every["stores"]
    last, first = stores.stores[-1], stores.stores[0]
    for label, changes, expected in (
        ("the last next the first", word(last, 0, first), (7, first)),
        ("the last next beyond", word(last, 0, 1_024), (6, last)),
        ("all but the first left out", word(first, 0, 0), (12, min(stores.stores[1:]))),
    ):
        found.append(FileCase(f"full, {label}", changed(stores.data, changes), expected))
    longer = build(stores=largest_stores(1_024), dice=dice)
    found.append(FileCase("1,025 slots", longer.data, (1, 0)))
    found.append(FileCase("65,537 bytes", longer.data[:65_537], (1, 0)))
    found.append(FileCase("65,535 bytes", longer.data[:65_535], (1, 0)))
    return found


def full_of_locomotives():
    """The largest alone, and with the largest groups and store records."""
    dice = Dice(1_023)
    rails = build(dice=dice, locomotives=[locomotives.LARGEST] * 1_023)
    groups = [LARGEST["largest petrol group"], LARGEST["largest diesel group"]] * 150
    engines = [locomotives.LARGEST, locomotives.NEARLY] * 205 + [locomotives.LARGEST]
    mix = build(groups, largest_stores(300), FREEZING, dice, always, engines)
    assert rails.count() == mix.count() == 1_024
    last = rails.locomotives[-1]
    uneven = changed(rails.data, word(last, 4, 1))
    return [
        FileCase("full locomotives", rails.data, ACCEPTED),
        FileCase("full of three chains", mix.data, ACCEPTED),
        FileCase("full, the last uneven", uneven, (14, last)),
    ]


def full_of_timed_groups():
    """The largest, each timed: 250, 249, down to 1, and again."""
    most = LARGEST["largest diesel group"]
    groups = [replace(most, timed=250 - i % 250) for i in range(1_017)]
    f = build(groups, (), FREEZING, Dice(1_022), always)
    assert f.count() == 1_024
    return [FileCase("full, timed", f.data, ACCEPTED)]


# Files with faults that nobody chose


def any_row(dice):
    return slot_file.coefficient_slot(cases.any_coefficients(dice), 0, dice.between(1, 6))


def any_slot(dice):
    """A slot of any kind, its links not yet set."""
    kind = dice.below(8)
    if kind < 2:
        return slot_file.group_slot(cases.any_group(dice), 0, 0)
    if kind < 4:
        return any_row(dice)
    return slot_file.store_slot(dice.pick(SOURCES)(dice), 0)


def any_link(dice, n):
    """Now and then to the first slot that the file does not have."""
    return dice.below(n + 1) if dice.below(6) == 0 else dice.below(n)


def linked(dice, n, slot):
    """The slot with links that go anywhere."""
    slot = changed(slot, word(0, 0, any_link(dice, n)))
    if slot[2] == GROUP:
        slot = changed(slot, word(0, 34, any_link(dice, n)))
    return slot


def tangled_file(dice):
    """Valid slots whose links go anywhere."""
    n = dice.between(2, 7)
    data = slot_file.header(n, any_link(dice, n), any_link(dice, n), any_months(dice))
    for _ in range(1, n):
        data += linked(dice, n, any_slot(dice))
    return data


def any_engine(dice):
    return slot_file.locomotive_slot(locomotives.any_locomotive(dice), 0)


def tangled_engines(dice):
    """Locomotives and now and then another slot; a link of another chain is mostly zero."""
    n = dice.between(2, 7)
    others = [dice.pick((0, 0, 0, any_link(dice, n))) for _ in range(2)]
    data = slot_file.header(n, *others, any_months(dice), dice.between(1, n - 1))
    for _ in range(1, n):
        data += linked(dice, n, dice.pick((any_engine, any_engine, any_engine, any_slot))(dice))
    return data


def tangled_stores(dice):
    """Store records only, so that the walk goes far."""
    n = dice.between(2, 6)
    data = slot_file.header(n, 0, dice.between(1, n - 1), any_months(dice))
    for _ in range(1, n):
        data += slot_file.store_slot(dice.pick(SOURCES)(dice), dice.below(n))
    return data


def tangled_rows(dice):
    """A group or two whose rows' links are exchanged."""
    groups = any_groups(dice, 1) + [cases.any_group(dice)]
    f = build(groups, (), any_months(dice), dice, coin(dice))
    row = dice.pick(dice.pick(f.rows))
    return changed(f.data, word(row, 0, dice.pick(dice.pick(f.rows))))


def tangled():
    dice = Dice(10)
    found = []
    for i in range(220):
        found.append(FileCase(f"tangled {i}", tangled_file(dice)))
        found.append(FileCase(f"tangled stores {i}", tangled_stores(dice)))
    found += [FileCase(f"tangled rows {i}", tangled_rows(dice)) for i in range(60)]
    return found + [FileCase(f"tangled engines {i}", tangled_engines(dice)) for i in range(60)]


def damaged_byte(dice, data):
    at = dice.below(len(data))
    one_bit = data[at] ^ (1 << dice.below(8))
    return changed(data, {at: dice.pick((0, 1, 255, dice.below(256), one_bit))})


def wrong_link(dice, n):
    return dice.pick((0, dice.below(n), dice.below(n), n, n - 1, n + 1, dice.below(65_536)))


def damaged_link(dice, data):
    n = len(data) // SLOT
    slot = dice.below(n)
    value = wrong_link(dice, n)
    return changed(data, word(slot, dice.pick((4, 6) if slot == 0 else (0, 0, 0, 34)), value))


def engine_slots(data):
    return [at // SLOT for at in range(SLOT, len(data), SLOT) if data[at + 2] == LOCOMOTIVE]


def damaged_engine_link(dice, data):
    """Slot 0's link to the first locomotive, or one that a locomotive holds."""
    slot = dice.pick([0] + engine_slots(data))
    return changed(data, word(slot, 32 if slot == 0 else 0, wrong_link(dice, len(data) // SLOT)))


def damaged_share(dice, data):
    """A share, or the hours, of the last locomotive in the file."""
    at = 4 + 2 * dice.below(6)
    changes = [word(slot, at, dice.below(1_003)) for slot in engine_slots(data)[-1:]]
    return changed(data, changes[0]) if changes else data


def damaged_timing(dice, data):
    """Byte 36 of a slot of any kind, mostly of a group."""
    slots = range(len(data) // SLOT)
    groups = [slot for slot in slots[1:] if data[slot * SLOT + 2] == GROUP]
    slot = dice.pick(groups) if groups and dice.below(5) != 0 else dice.pick(slots)
    return changed(data, byte(slot, 36, dice.pick((0, 1, 250, 251, 255, dice.below(256)))))


def damaged_kind(dice, data):
    return changed(data, byte(dice.below(len(data) // SLOT), 2, dice.below(7)))


def damaged_count(dice, data):
    n = len(data) // SLOT
    return changed(data, word(0, 2, dice.pick((0, n - 1, n + 1, n ^ 256, dice.below(65_536)))))


def damaged_length(dice, data):
    return dice.pick((
        b"",
        data[: dice.below(len(data))],
        data[: dice.below(len(data) // SLOT) * SLOT],
        data + bytes(dice.between(1, 130)),
        data + data[: dice.between(1, 130)],
        data + bytes(SLOT),
    ))


def damaged_slots(dice, data):
    """The slot count is right after slots are cut off, doubled or put in."""
    n = len(data) // SLOT
    cut = dice.between(1, n) * SLOT
    new = dice.pick((
        data[:cut],
        data[:cut] + data[cut - SLOT :],
        data[:cut] + bytes(SLOT) + data[cut:],
    ))
    return changed(new, word(0, 2, len(new) // SLOT))


def exchanged_slots(dice, data):
    """Two slots change places and the links do not follow."""
    n = len(data) // SLOT
    slots = [data[at : at + SLOT] for at in range(0, len(data), SLOT)]
    i, j = dice.below(n), dice.below(n)
    if 0 not in (i, j):
        slots[i], slots[j] = slots[j], slots[i]
    return b"".join(slots)


DAMAGES = (
    damaged_byte,
    damaged_byte,
    damaged_byte,
    damaged_link,
    damaged_link,
    damaged_link,
    damaged_kind,
    damaged_count,
    damaged_slots,
    exchanged_slots,
    damaged_length,
)


ENGINE_DAMAGES = (damaged_engine_link, damaged_engine_link, damaged_share, damaged_share) + DAMAGES


def damaged_timed():
    """One file in three is damaged besides."""
    dice = Dice(88)
    found = []
    for i in range(40):
        data = damaged_timing(dice, any_timed_file(dice, 1 + i % 2).data)
        if dice.below(3) == 0:
            data = dice.pick(DAMAGES)(dice, data)
        found.append(FileCase(f"damaged, timed {i}", data))
    return found


def damaged():
    dice = Dice(8)
    found = []
    for i in range(700):
        data = any_file(dice, 1 + i % 2, 3).data
        first, second = dice.pick(DAMAGES[:-1]), dice.pick(DAMAGES)
        data = first(dice, data)
        if dice.below(3) == 0:
            data = second(dice, data)
        found.append(FileCase(f"damaged {i}", data))
    for i in range(60):
        data = damaged_length(dice, any_file(dice, 1, 2).data)
        found.append(FileCase(f"damaged length {i}", data))
    for i in range(90):
        data = dice.pick(ENGINE_DAMAGES)(dice, any_file(dice, i % 2, 2, 4).data)
        found.append(FileCase(f"damaged, three chains {i}", data))
    return found


def any_bytes():
    """Bytes of any content, some behind a header that is in order."""
    dice = Dice(255)
    found = []
    for i in range(40):
        n = dice.pick((dice.below(200), SLOT * dice.below(6)))
        data = bytes(dice.below(256) for _ in range(n))
        found.append(FileCase(f"any bytes {i}", data))
        slots = dice.between(1, 4)
        head = slot_file.header(1 + slots, dice.below(1 + slots), dice.below(2 + slots), YEAR)
        body = bytes(dice.below(256) for _ in range(slots * SLOT))
        body = changed(body, {SLOT * at + 2: dice.between(0, 6) for at in range(slots)})
        found.append(FileCase(f"any slots {i}", head + body))
    return found


def mixed_files():
    return (
        shared_rows()
        + valid()
        + valid_with_locomotives()
        + valid_timed()
        + alike()
        + halves()
        + half_locomotives()
        + tangled()
        + damaged()
        + damaged_timed()
        + any_bytes()
    )

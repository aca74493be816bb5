"""Slot files put together and changed, for the test program's cases."""
from dataclasses import dataclass
from typing import Optional

import cases
import papers
import slot_file
from slot_file import SLOT

ACCEPTED = (0, 0)


@dataclass(frozen=True)
class FileCase:
    """Where the answer can be told from 01 without walking the file, its number and slot are typed
    beside the case and must be those that slot_file.py works out."""

    label: str
    data: bytes
    expected: Optional[tuple] = None  # number and slot; None where none were typed
    lent: Optional[int] = None  # the buffer's length; None where the answer is printed


# Files put together


@dataclass(frozen=True)
class File:
    """A file, and the slots of its sources in their chains' order; of each group its six rows."""

    data: bytes
    groups: tuple
    rows: tuple
    stores: tuple
    locomotives: tuple

    def count(self):
        return len(self.data) // SLOT


def never():
    return False


def always():
    return True


def rows_of(groups, may_share):
    """The coefficient slots: coefficients, pollutant, and the row that follows; and the six rows of
    each group. A row may be shared only with all the rows that follow it."""
    rows, latest, chains = [], {}, []
    for g in groups:
        chain, after = [], None
        for p in reversed(papers.POLLUTANTS):
            row = (g.coefficients[p - 1], p, after)
            if row not in latest or not may_share():
                latest[row] = len(rows)
                rows.append(row)
            after = latest[row]
            chain.append(after)
        chains.append(tuple(reversed(chain)))
    return rows, chains


def shuffled(dice, values):
    values = list(values)
    for last in range(len(values) - 1, 0, -1):
        other = dice.below(last + 1)
        values[last], values[other] = values[other], values[last]
    return values


def first(numbers):
    """The link to a chain: its first slot, or zero where it has none."""
    return numbers[0] if numbers else 0


def successors(numbers):
    """Each slot of a chain and its next index; zero ends the chain."""
    return zip(numbers, numbers[1:] + [0])


def row_slots(rows, numbers):
    """The coefficient slots, each at its number."""
    slots = {}
    for (k, p, after), number in zip(rows, numbers):
        link = 0 if after is None else numbers[after]
        slots[number] = slot_file.coefficient_slot(k, link, p)
    return slots


def parted(numbers, *lengths):
    """So many of the numbers to each, one after another."""
    parts, at = [], 0
    for length in lengths:
        parts.append(numbers[at : at + length])
        at += length
    return parts


def build(groups=(), stores=(), months=cases.YEAR, dice=None, may_share=never, locomotives=()):
    """The file of these sources. With dice its slots are shuffled."""
    rows, chains = rows_of(groups, may_share)
    lengths = (len(groups), len(rows), len(stores), len(locomotives))
    numbers = list(range(1, 1 + sum(lengths)))
    if dice is not None:
        numbers = shuffled(dice, numbers)
    of_groups, of_rows, of_stores, of_locomotives = parted(numbers, *lengths)
    slots = row_slots(rows, of_rows)
    heads = first(of_groups), first(of_stores), months, first(of_locomotives)
    slots[0] = slot_file.header(1 + len(numbers), *heads)
    for g, chain, (number, after) in zip(groups, chains, successors(of_groups)):
        slots[number] = slot_file.group_slot(g, after, of_rows[chain[0]])
    for r, (number, after) in zip(stores, successors(of_stores)):
        slots[number] = slot_file.store_slot(r, after)
    for r, (number, after) in zip(locomotives, successors(of_locomotives)):
        slots[number] = slot_file.locomotive_slot(r, after)
    data = b"".join(slots[number] for number in range(len(slots)))
    found = tuple(tuple(of_rows[row] for row in chain) for chain in chains)
    return File(data, tuple(of_groups), found, tuple(of_stores), tuple(of_locomotives))


def changed(data, changes):
    """data with other bytes at some positions."""
    new = bytearray(data)
    for at, value in changes.items():
        new[at] = value
    return bytes(new)


def number_at(slot, at, value, size):
    """The changes that put a number into a slot."""
    return {slot * SLOT + at + i: b for i, b in enumerate(value.to_bytes(size, "little"))}


def byte(slot, at, value):
    return number_at(slot, at, value, 1)


def word(slot, at, value):
    return number_at(slot, at, value % 65_536, 2)


def long(slot, at, value):
    return number_at(slot, at, value, 4)

"""Runs the program inventory on ordinary files, each in a process of its own, through real pipes.

    python3 tests/ordinary_input.py PROGRAM

The files are 01's example B and a spread of those that the test program file_cases reads, sound and
refused. What must be printed is worked out by slot_file.py. Every third file is written in pieces.
"""
import sys

sys.dont_write_bytecode = True

import os
import struct
import subprocess
import time
from collections import Counter

import slot_file
from cases import Dice
from file_cases import PRINTED
from hard_input import SECONDS, assert_printed, ended
from inventory import LISTING, example
from slot_file import GROUP, SLOT

STORED = os.path.join(os.path.dirname(os.path.abspath(__file__)), "../crates/file_cases/stdin")
FILES = 180
LONGEST = 65_536


def stored_files():
    """The files whose answer file_cases prints as inventory does, each with its place."""
    with open(STORED, "rb") as file:
        stored = file.read()
    found, at = [], 0
    while at < len(stored):
        length, lent = struct.unpack_from("<IH", stored, at)
        at += 6
        if lent == PRINTED:
            found.append(stored[at : at + length])
        at += length
    return found


def spread():
    """Files from all over the stored ones, no two alike."""
    every = list(dict.fromkeys(stored_files()))
    return [every[place * len(every) // FILES] for place in range(FILES)]


def has_timed_group(data):
    slots = [data[at : at + SLOT] for at in range(SLOT, len(data) - SLOT + 1, SLOT)]
    return any(slot[2] == GROUP and slot[36] != 0 for slot in slots)


def assert_spread(files):
    """Sound ones, some with locomotives or timed groups, and refused ones, by nearly all of the
    numbers."""
    answers = [slot_file.answer(data) for data in files]
    numbers = Counter(a.number for a in answers)
    assert numbers[0] >= 40 and sum(numbers.values()) - numbers[0] >= 40, numbers
    assert len(numbers) >= 12 and numbers[14] >= 1, numbers
    assert sum(a.locomotives > 0 for a in answers) >= 5
    timed = [a for a, data in zip(answers, files) if has_timed_group(data)]
    assert len(timed) >= 5 and sum(a.number == 0 for a in timed) >= 2, len(timed)


def in_pieces(program, dice, data):
    """What is printed where the file comes in pieces, with a pause after each."""
    pipe = subprocess.PIPE
    running = subprocess.Popen([program], stdin=pipe, stdout=pipe, stderr=pipe)
    at = 0
    while at < len(data):
        size = dice.pick((1, 63, 64, dice.between(1, 400), len(data) // 2 + 1))
        running.stdin.write(data[at : at + size])
        running.stdin.flush()
        time.sleep(0.0005)
        at += size
    text, said = running.communicate(timeout=SECONDS)
    assert running.returncode == 0, running.returncode
    return subprocess.CompletedProcess([program], 0, text, said)


def main():
    if len(sys.argv) != 2:
        sys.exit("usage: ordinary_input.py PROGRAM")
    program, dice, files = os.path.abspath(sys.argv[1]), Dice(150), spread()
    assert_spread(files)
    assert_printed(ended(program, input=example()), LISTING, "example B")
    for place, data in enumerate(files):
        pieces = place % 3 == 0 and len(data) <= LONGEST
        done = in_pieces(program, dice, data) if pieces else ended(program, input=data)
        assert_printed(done, slot_file.printed(data), f"file {place} of the spread")
    print(f"example B and {len(files)} stored files: as they should be")


if __name__ == "__main__":
    main()

"""Writes what the program inventory reads in its stored test, or what it must print: 01's example B.

    python3 tests/inventory.py stdin  > crates/inventory/stdin
    python3 tests/inventory.py stdout > crates/inventory/stdout

The file is put together from 01, "The slot file", and the listing is worked out by slot_file.py; it
must be the one that 01 prints, with 02's third count.
"""
import sys

sys.dont_write_bytecode = True

import cases
import papers
import slot_file

# 01, "Figures": "Listing of case B"; 02, U1: "the sources line gains a third count"
LISTING = b"""\
code t/year g/s
0152 0.000000 0.0000000
0184 0.000000 0.0000000
0301 0.000000 0.0000000
0328 0.000000 0.0000000
0330 0.000000 0.0000000
0337 0.024000 0.0177778
2704 0.000000 0.0000000
2754 0.000000 0.0000000
2908 0.000000 0.0000000
2909 0.000000 0.0000000
sources 1 0 0
"""


def one_group(g):
    """Slot 0, the group in slot 1 and its six coefficient slots after it."""
    rows = [
        slot_file.coefficient_slot(g.coefficients[p - 1], 0 if p == papers.LEAD else p + 2, p)
        for p in papers.POLLUTANTS
    ]
    heads = slot_file.header(8, 1, 0, g.temperatures) + slot_file.group_slot(g, 0, 2)
    return heads + b"".join(rows)


def example():
    return one_group(cases.surveyed_group())


def main():
    data = example()
    printed = slot_file.printed(data)
    assert printed == LISTING, "the listing is not the one of the papers"
    sys.stdout.buffer.write({"stdin": data, "stdout": printed}[sys.argv[1]])


if __name__ == "__main__":
    main()

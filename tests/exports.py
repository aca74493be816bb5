"""Holds the exports of the archive to its header, and to the library's functions that they call.

    python3 tests/exports.py

The promises of an export are proved, but they go by its parameters' names, and C goes by their
order. So each export must return what include/tezhebul.h declares and take what it declares, in its
order, the library's function of its name must take the same, and the export must hand its
parameters over in that order. What the library's functions give in that order is tested by
interface_cases.
"""
import sys

sys.dont_write_bytecode = True

import os
import re

from interface_cases import FUNCTIONS, header_text, parameters

CRATES = os.path.join(os.path.dirname(os.path.abspath(__file__)), "..", "crates")
TYPES = {
    "u8": "uint8_t",
    "u16": "uint16_t",
    "u32": "uint32_t",
    "u64": "uint64_t",
    "i16": "int16_t",
    "usize": "size_t",
    "bool": "bool",
}


def source(crate):
    texts = []
    for name in ("files.rt", "rules.rt"):
        with open(os.path.join(CRATES, crate, "src", name), encoding="utf-8") as file:
            texts.append(file.read())
    return "\n".join(texts)


def in_c(name, kind):
    """A parameter as C has it: a slice is a pointer and a length."""
    slice_of = re.fullmatch(r"&(?:mut )?\[(\w+)\]", kind)
    if slice_of is None:
        return [(TYPES[kind], name)]
    return [(TYPES[slice_of.group(1)], "*" + name), ("size_t", name + "_length")]


def signature(text, function):
    """What a function of the source returns, and its parameters."""
    found = re.search(rf"fn tezhebul_{function}\(([^)]*)\) -> (\w+)", text)
    words = [word.split(":") for word in found.group(1).split(",") if word.strip()]
    return TYPES[found.group(2)], [(name.strip(), kind.strip()) for name, kind in words]


def handed_over(text, function):
    """The arguments of the export's call."""
    inside = re.search(rf"tezhebul::\w+::tezhebul_{function}\(([^)]*)\)", text).group(1)
    return [word.strip() for word in inside.split(",") if word.strip()]


def main():
    header, exports, library = header_text(), source("tezhebul_c"), source("tezhebul")
    assert exports.count('extern "C" fn') == len(FUNCTIONS), exports.count('extern "C" fn')
    for function in FUNCTIONS:
        result, taken = signature(exports, function)
        declared = re.search(rf"^(\w+) tezhebul_{function}\(", header, re.M).group(1)
        assert result == declared, (function, result, declared)
        assert [c for p in taken for c in in_c(*p)] == parameters(header, function), function
        assert signature(library, function) == (result, taken), function
        assert handed_over(exports, function) == [name for name, _ in taken], function
    print(f"{len(FUNCTIONS)} exports: as the header has them")


main()

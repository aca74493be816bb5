#!/usr/bin/env python3
"""Prints the places in crates/*/src that docs/DESIGN-PASS.md counts, and how many there are of each point.

    python3 tools/places.py [TREE]

It goes by text, so it finds candidates; the page says which of them were changed, and why the others stay."""
import glob
import os
import re
import sys

NUMBER_LIST = r"^\s*((numbers::)?[iu](8|16|32)_at\(\w+, \d+\)|\w+\[\d+\]),$"

POINTS = {
    "1, results": [
        r"\bnumber: u8,|\bverdict: Verdict,|^\s*more: bool,",
        r"^\s*(Record\(StoreRecord\)|WrongKind|OutOfRange),$",
        r"Verdict \{|\brefuse\(\d|\brefusal\(\d|refusal\(number|refusal\(verdict",
        r"\.number (!=|==) \d|\bnumber == \d",
        r"fn (give\w*|right_lengths|next_case|next_file)\(.*-> bool",
        r"=> COUNT,|\belse \{ 0 \}$|map_or\(0",
    ],
    "1, kinds": [
        r"^\s*pub(\(crate\))? (category|fuel|dust|material|openness|drop|model|old|zone|period|pollutant|function): (u8|usize),",
        r"\bmatch (kind|function|category|model|zone) ",
    ],
    "2": [
        r"fn (zero|of|plus|times|printed|rounded)\(.*(self|Self)",
        r"fn (more|over)_(minutes|metres)\(|fn (warmup|run)_of\(",
        r"fn (k1|k2|q|k4|drop_factor|code_of)\(|fn (wind|moisture|grain)_band\(",
        r"fn (handling|standing|aspiration)_(of|good|emission)\(|fn read_(handling|standing|aspiration)\(",
        r"fn (walk|step)_(groups?|stores?|locomotives?)\(",
        r"fn give_(store|group|locomotive)\(",
        r"fn (all|three)_(sums|emissions)\(|fn (annual|peak)_sums?\(|fn (first|first_three|joined)\(",
        r"fn (wide\w*|long|u8_at|u16_at|u32_at|u64_at|i16_at|signed|word|is_at)\(",
        r"fn (control_of|pollutant_code)\(|fn (all_in_range|all_zero)\(",
    ],
    "3": [r"\bwhile [^{]*<", NUMBER_LIST],
    "4": [r" as (u8|u16|u32|u64|usize|i16)\b", r"fn (wide\w*|long|signed)\("],
    "5": [r"\brequires (\w+ )?\{"],
    "6": [r"out: &mut \[u8; LISTING_ROOM\], (at|from)", r"totals: &mut \[u64\]", r"&mut \[bool; MOST_SLOTS\]"],
    "7": [r"summing: bool|wanted: bool|\bif (summing|wanted)\b"],
}


def main():
    tree = sys.argv[1] if len(sys.argv) > 1 else "."
    for point, patterns in POINTS.items():
        found = []
        for path in sorted(glob.glob(os.path.join(tree, "crates/*/src/*.rt"))):
            for n, line in enumerate(open(path, encoding="utf-8"), 1):
                if line.lstrip().startswith(("//", "ghost use")):
                    continue
                if any(re.search(p, line) for p in patterns):
                    found.append(f"{os.path.relpath(path, tree)}:{n}: {line.strip()}")
        print(f"{point}: {len(found)}")
        for place in found:
            print("   ", place)


main()

#!/usr/bin/env python3
"""Prints what two trees of this repository promise where they differ, old and new side by side: public functions and types with their clauses, definitions, and laws.

    python3 tools/changed.py OLD NEW

It goes by text: a name is the same where crate and name are. A law's proof is left out, its type is shown."""
import glob
import os
import re
import sys

ITEM = re.compile(r'^\s*pub (?:const |extern "C" )?(fn|struct|enum|trait|type|const) (\w+)')
NAMED = re.compile(r"^\s*(?:abbrev |unfoldable )?pub (?:record |data )?([^\s:({]+)")


def one_line(lines):
    return re.sub(r"\s+", " ", " ".join(lines)).strip().rstrip("{").strip()


def item_at(lines, i):
    """The item that begins at line i, without a function's body."""
    first, kind = lines[i], ITEM.match(lines[i]).group(1)
    text = [first.strip()]
    if kind == "fn":
        if first.rstrip().endswith("{"):
            return text
        for line in lines[i + 1 :]:
            if line.strip() == "{":
                break
            text.append(line.strip())
        return text
    if not first.rstrip().endswith("{"):
        j = i
        while not lines[j].rstrip().endswith((";", "}")):
            j += 1
            text.append(lines[j].strip())
        return text
    indent = len(first) - len(first.lstrip())
    for line in lines[i + 1 :]:
        if line.strip() and not line.strip().startswith("//"):
            text.append(line.strip())
        if re.match(r"^\s{%d}\}" % indent, line):
            break
    return text


def items(tree):
    """Public functions, types and constants of src/, by crate and name, a method by its type too."""
    found = {}
    for path in sorted(glob.glob(f"{tree}/crates/*/src/*.rt")):
        crate = path.split("/crates/")[1].split("/")[0]
        lines = open(path, encoding="utf-8").read().split("\n")
        block = ""
        for i, line in enumerate(lines):
            opened = re.match(r"^impl(?:<[^>]*>)? (.*) \{", line)
            block = opened.group(1) + " " if opened else "" if line.startswith("}") else block
            if ITEM.match(line):
                found[crate, block + ITEM.match(line).group(2)] = one_line(item_at(lines, i))
    return found


def declared(tree, folder):
    """What stands in specs/ or proofs/ under a name, with its clauses; of proofs/ the type alone."""
    found = {}
    for path in sorted(glob.glob(f"{tree}/crates/*/{folder}/*.antt")):
        crate = path.split("/crates/")[1].split("/")[0]
        name = None
        for line in open(path, encoding="utf-8").read().split("\n"):
            if line.startswith("use ") or line.strip().startswith("--"):
                continue
            top = NAMED.match(line) and (folder == "proofs" or not line.startswith(" ")) and not line.startswith("pub mod ")
            if top:
                name = crate, NAMED.match(line).group(1)
                found[name] = [line]
            elif name and not line.strip() and folder == "proofs":
                name = None
            elif name:
                found[name].append(line)
    return {key: law_or_definition(key[1], text, folder) for key, text in found.items()}


def law_or_definition(name, text, folder):
    line = one_line(re.sub(r"  -- .*$", "", part) for part in text)
    if folder == "specs":
        return line
    return re.split(r" (?:unfolding [^=]*? )?%s(?: [^:]*?)? = " % re.escape(name), line)[0].split(" unfolding ")[0]


def show(title, old, new):
    changed = sorted(key for key in old if key in new and old[key] != new[key])
    gone, added = sorted(set(old) - set(new)), sorted(set(new) - set(old))
    print(f"\n### {title}: {len(changed)} changed, {len(gone)} gone, {len(added)} new\n")
    for key in changed:
        print(f"- `{key[0]}` `{key[1]}`\n  - was `{old[key]}`\n  - is `{new[key]}`")
    for key in gone:
        print(f"- `{key[0]}` `{key[1]}` is gone: `{old[key]}`")
    for key in added:
        print(f"- `{key[0]}` `{key[1]}` is new: `{new[key]}`")


def main():
    old, new = sys.argv[1:3]
    show("Public functions and types", items(old), items(new))
    show("Definitions", declared(old, "specs"), declared(new, "specs"))
    show("Laws", declared(old, "proofs"), declared(new, "proofs"))


main()

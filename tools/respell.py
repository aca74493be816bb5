#!/usr/bin/env python3
"""Brings the repository's own definitions, lemmas and fields to snake case, once, after the toolchain's own script has turned the rest:

    python3 tools/respell.py        at the top of the repository

It goes by text: it collects the names that crates/*/specs and crates/*/proofs declare, and writes the new spelling at each whole word in .antt files, in the ghost text of
.rt files, in must-fail edits and between the backticks of README.md and docs/. A name that fell together with another has its new one in APART. Functions of src/, exported C
names, strings, inputs and outputs keep theirs. The edits get the new spelling of projections and operators too.
"""
import os
import re
import subprocess

WORD = r"[^\s(){};,\[\]⌜⌝⟦⟧.@\"`|]+"
DECLARED = re.compile(r"^(?:(?:abbrev|unfoldable|pub|record|data) )*(%s)(?: \(.*)? : " % WORD)
FIELD = re.compile(r"^ +(?:pub )?(%s) : " % WORD)
# names that would fall together with a definition's, and what each is called
APART = {
    "annual-printed": "annual_as_printed",
    "peak-printed": "peak_as_printed",
    "refused-by": "refused_as_told",
}
# words of a generated proof file, which are not the repository's
GENERATED = re.compile(r"^(?:invariant|decreases|returns|overflow|ghost)(?:-.*)?$|.*-requires(?:-\d+)?$")
# names that the toolchain's script had turned in .antt and .rt files already, and not in edits and documents
TURNED = """
add-spec all-append all-in all-left all-right allFrom allOf answerIn answerOf as-before as-lent at-first at-head at-last at-place at-second at-slot
at-store atOnce bool-same byKind byteAt bytes-most each-append first-kind give-spec groupOf half-up headerAt high-fits inParts inWords lastOf lentOf
lineOf linesFrom list-same lower-spec main-spec map-at minus-one nextOf no-longer no-slot none-spec not-there number-same numberOf of-spec one-more
one-of one-way out-of-range own-row partsIn partsOf placeIn readBy rowsOf run-fits same-answer same-length sameList sameStore scaled-at sharesOf
slotOf step-spec stepOf store-same storeOf sumTo summed-same told-here u32At upTo walk-refused walk-same walks-same withWords wordsOf writes-nothing
row-told store-told
""".split()
EDIT_WORDS = [(r"\b_(over|per)_\b", r"◌\1◌"), (r" \.([a-z0-9])", r".\1"), (r"\((\w+(?:\.\w+)+)\)", r"\1"), (r"= (\w+ \w)\.(emission)$", r"= (\1).\2"), (r"\bgetD\b", "get_or"), (r"⌜ (.*) ⌝", r"\1")]


def files(ending):
    for folder, dirs, names in os.walk("crates"):
        dirs[:] = sorted(d for d in dirs if d != "out")
        for name in sorted(names):
            if name.endswith(ending):
                yield os.path.join(folder, name)


def read(path):
    with open(path, encoding="utf-8") as f:
        return f.read()


def write(path, text):
    if read(path) != text:
        with open(path, "w", encoding="utf-8") as f:
            f.write(text)


def snake(name):
    """The name in snake case; a type's name keeps its form."""
    name = name.replace("-", "_")
    if name[0].isupper():
        return name
    return re.sub(r"(?<=[a-z0-9'])([A-Z])", lambda m: "_" + m.group(1).lower(), name)


def declared():
    """The names that laws and definitions declare, and the theorems of functions, which the checker looks for by name."""
    names = set()
    for path in files(".antt"):
        of_function = os.path.basename(path) == "Proof.antt"
        for line in read(path).split("\n"):
            found = DECLARED.match(line) or (None if of_function else FIELD.match(line))
            if found and (not of_function or found.group(1).endswith("-spec")):
                names.add(found.group(1))
    return names


def renamed():
    names = declared()
    new = {}
    for n in sorted(names):
        if GENERATED.match(n):
            continue
        to = APART.get(n, snake(n))
        if to == n:
            continue
        new[n] = to
    taken = {}
    for n in sorted(names | set(new)):
        taken.setdefault(new.get(n, n), []).append(n)
    for to, olds in taken.items():
        if len(olds) > 1:
            for n in olds:
                if "-" in n and n in new:
                    new[n] = to + "_lem"
    ends = sorted(new.values())
    twice = {e for e in ends if ends.count(e) > 1}
    if twice:
        raise SystemExit("names fall together: " + ", ".join(sorted(twice)))
    return new


def turn(text, new):
    return re.sub(WORD, lambda m: new.get(m.group(0), m.group(0)), text)


def in_backticks(text, new):
    return re.sub(r"`[^`\n]*`", lambda m: turn(m.group(0), new), text)


def antt_line(line, new):
    code, dashes, comment = line.partition("-- ") if line.startswith("-- ") else line.partition(" -- ")
    return turn(code, new) + dashes + in_backticks(comment, new)


def rt_text(text, new):
    """Clauses and ghost items have the definitions' names; the rest of a source file has none of them in camel case or with a dash."""
    out = []
    for line in text.split("\n"):
        code, slashes, comment = line.partition("//")
        if '"' not in code:
            code = turn(code, new)
        out.append(code + slashes + in_backticks(comment, new))
    return "\n".join(out)


def edit_text(text, new):
    out = []
    in_specs = "\nfile: specs" in "\n" + text
    for line in text.split("\n"):
        if line.startswith(("old: ", "new: ")):
            body = turn(line[5:], new)
            if in_specs or "ensures" in body or "requires" in body:
                for old, to in EDIT_WORDS:
                    body = re.sub(old, to, body)
            line = line[:5] + body
        out.append(line)
    return "\n".join(out)


def main():
    new = renamed()
    for path in files(".antt"):
        write(path, "\n".join(antt_line(l, new) for l in read(path).split("\n")))
    for path in files(".rt"):
        write(path, rt_text(read(path), new))
    new.update({n: snake(n) for n in TURNED})
    for path in files(".edit"):
        write(path, edit_text(read(path), new))
    pages = ["README.md"] + [os.path.join(d, f) for d, _, fs in os.walk("docs") for f in sorted(fs) if f.endswith(".md")]
    for path in pages:
        write(path, in_backticks(read(path), new))
    for crate in sorted(os.listdir("crates")):
        subprocess.run(["rt", "fmt"], cwd=os.path.join("crates", crate), stdout=subprocess.DEVNULL, stderr=subprocess.DEVNULL)
    print(f"respelled {len(new)} names")


if __name__ == "__main__":
    main()

#!/usr/bin/env python3
"""Brings the repository's own definitions and lemmas to the spelling that today's Rattle has: words in snake case, and a dash only between two names.

usage: tools/respell.py [--list]

It reads what the .antt files of crates/ declare, and turns each whole word of those spellings in the .antt files, in the .rt files, and in the code
spans of README.md and docs/. Functions of src/, exported C names, strings, inputs and outputs keep their names: none of them is spelled so. A word in a
comment turns if it is in camel case; one with a dash may be prose, and stays. --list prints the table alone. It was run once, after port.py.
"""

import glob
import os
import re
import subprocess
import sys

TOP = os.path.dirname(os.path.dirname(os.path.realpath(__file__)))
DECLARED = re.compile(r'(?m)^ *(?:(?:pattern|unfoldable|abbrev|pub|axiom) )*([^\s(){}.;,@"]+)(?: \{[^{}\n]*\})* : ')
WORD = re.compile(r'[^\s(){}\[\].;,@"«»`|]+')
# Names that would meet another, each with a spelling of its own: a lemma that would have its function's name ends in _lem.
BY_HAND = {n: n.replace("-", "_") + "_lem" for n in (
    "asked-text bits-on cut-number nat-from no-capacity read-array read-codes restored-text seq-no seq-number told-len in-words bits-of up-to"
).split()}
# A field beside a definition that the fields below it name.
BY_HAND.update({"ts-sheet": "by_ts_sheet", "seq-sheet": "by_seq_sheet"})
# Lemmas in snake case whose name a definition takes now. A Rust function may be called so, and stands behind a dot.
LEMMAS = {n: n + "_lem" for n in "is_digit left_by one_more read_back too_long too_short".split()}
LEMMAS["room_of"] = "room_of_entry"
# Functions of the library that stand in names of lemmas, and so are joined to another name by a dash.
LIBRARY = set("length take drop set append add sub mul div mod pow get_or map cond concat sum reverse replicate".split())


def files(*patterns):
    return sorted(f for p in patterns for f in glob.glob(os.path.join(TOP, p), recursive=True) if "/out/" not in f)


def read(path):
    with open(path, encoding="utf-8") as f:
        return f.read()


def words(name):
    """A part of a name in snake case: addS is add_s, bitsAt is bits_at."""
    if name[:1].isupper():
        return name
    return re.sub(r"(?<=[a-z0-9])([A-Z])", lambda m: "_" + m[1].lower(), name)


def code_of(line):
    """Where the comment of an antt line begins."""
    m = re.search(r"(?:^|\s)--(?:\s|$)", line)
    return m.start() if m else len(line)


def declared(kind):
    return {n for f in files(f"crates/*/{kind}/**/*.antt") for n in DECLARED.findall(read(f))}


def table():
    specs, proofs = declared("specs"), declared("proofs")
    functions = {words(n) for n in specs if "-" not in n and n[:1].islower()} | LIBRARY
    found = {}
    for n in sorted(specs | proofs):
        if not re.match(r"[A-Za-z]", n) or n in BY_HAND:
            continue
        parts = [words(p) for p in n.split("-")]
        new = parts[0]
        for before, part in zip(parts, parts[1:]):
            # "A dash joins two names": of a lemma's, and a type to what follows it. A theorem's field is a label, and has none.
            name = lambda p: p in functions or p[:1].isupper()
            joined = n not in specs and (before[:1].isupper() or name(before) and name(part))
            new += ("-" if joined else "_") + part
        if new != n:
            found[n] = new
    found.update(BY_HAND)
    return found


def turned(text, names, dashes=True):
    return WORD.sub(lambda m: names.get(m[0], m[0]) if dashes or "-" not in m[0] else m[0], text)


def antt(text, names):
    for old, new in LEMMAS.items():
        if old not in declared_before or new in text:
            continue
        text = re.sub(rf"(?<![^\s(){{}},←]){old}(?![^\s(){{}},;])", new, text)
    out = []
    for line in text.split("\n"):
        at = code_of(line)
        out.append(turned(line[:at], names) + turned(line[at:], names, dashes=False))
    return "\n".join(out)


def rt(text, names):
    out = []
    for line in text.split("\n"):
        m = re.search(r"//", line)
        at = m.start() if m else len(line)
        out.append(turned(line[:at], names) + turned(line[at:], names, dashes=False))
    return "\n".join(out)


def page(text, names):
    return re.sub(r"`[^`\n]+`", lambda m: turned(m[0], names), text)


# The names that the repository declares as the script begins.
declared_before = set()


def main(argv):
    names = table()
    declared_before.update(declared("proofs"))
    if argv == ["--list"]:
        for old, new in names.items():
            print(f"{old}\t{new}")
        return 0
    for how, patterns in (
        (antt, ["crates/*/specs/**/*.antt", "crates/*/proofs/**/*.antt"]),
        (rt, ["crates/*/src/**/*.rt"]),
        (page, ["README.md", "docs/*.md"]),
    ):
        for f in files(*patterns):
            old = read(f)
            new = how(old, names)
            if new != old:
                with open(f, "w", encoding="utf-8") as out:
                    out.write(new)
    return 0


if __name__ == "__main__":
    sys.exit(main(sys.argv[1:]))

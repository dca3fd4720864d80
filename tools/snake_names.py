#!/usr/bin/env python3
"""Spells the repository's own definitions, laws, fields and constructors as today's Rattle has them.

usage: python3 tools/snake_names.py        at the top of the repository, after the kit's port.py; a second run changes nothing

Words are in snake case, types and facts keep their capitals, and a dash joins two names: `encode-length` is about `encode` and `length`,
while a plain word follows with `_`, as in `encode_nonempty`. names.tsv beside this script has the laws whose dash became `_`. Five laws
whose new name would be that of a definition get another name first; a few whose new name is taken keep their dash.
Functions of src/, exported C names and strings have no such names and stay. It prints each name that it turned, and names that fell together.
"""

import os
import re

HERE = os.path.dirname(os.path.abspath(__file__))
# Laws whose names would fall together with a definition's: the file, the old name, the new one.
APART = [
    ("crates/wire/proofs/Among.antt", "ours_in", "ours_in-all_ours"),
    ("crates/wire/proofs/Afterwards.antt", "same_item", "same_item-is"),
    ("crates/cobs/proofs/RoundTrips.antt", "in_place", "placed_back"),
    ("crates/wire/proofs/Noise.antt", "by_bytes", "by_bytes-cut"),
    ("crates/wire/proofs/Receiving.antt", "take_all", "take_all-took"),
]
WORD = re.compile(r"(?<![\w\\'₀-₉-])[a-z][\w'₀-₉-]*")
PAGES = ["README.md", "CONTRIBUTING.md", "docs/PROMISES.md", "docs/DECISIONS.md", "docs/DIFFERENCES.md"]


def table():
    with open(os.path.join(HERE, "names.tsv"), encoding="utf-8") as f:
        return dict(line.rstrip("\n").split("\t") for line in f)


def snake(name):
    parts = []
    for part in name.split("-"):
        if re.match(r"x[0-9A-F]{2}$", part) or not re.match(r"[a-z]", part):
            parts.append(part)
        else:
            part = re.sub(r"^getD(?![a-z])", "get_or", part)
            parts.append(re.sub(r"([a-z0-9])([A-Z])", lambda m: m[1] + "_" + m[2].lower(), part))
    return "-".join(parts)


def files():
    for folder, dirs, names in os.walk("crates"):
        dirs[:] = sorted(d for d in dirs if d != "out")
        for name in sorted(names):
            if name.endswith((".antt", ".rt", ".edit")):
                yield os.path.join(folder, name)


def defined(text):
    return set(re.findall(r"(?m)^(?:abbrev |unfoldable )?(?:pub )?([a-z][\w'-]*) :", text))


def camel(text, turned):
    """Camel case to snake case, everywhere."""

    def turn(m):
        new = snake(m[0])
        if new != m[0]:
            turned[m[0]] = new
        return new

    return WORD.sub(turn, text)


def dashes(text, names, turned):
    """The names of names.tsv, but for steps and fields after a dot, unless a module stands before the dot."""
    modules = set(re.findall(r"(?m)^use \S+ as (\S+)$", text))

    def turn(m):
        if m[0] not in names:
            return m[0]
        before = re.search(r"([\w'-]+)\.\Z", text[max(0, m.start() - 60) : m.start()])
        if before and before[1] not in modules and not before[1][0].isupper():
            return m[0]
        turned[m[0]] = names[m[0]]
        return names[m[0]]

    return WORD.sub(turn, text)


def main():
    names = table()
    turned = {}
    for path, old, new in APART:
        with open(path, encoding="utf-8") as f:
            text = f.read()
        if new not in text and names.get(new, new) not in text:
            with open(path, "w", encoding="utf-8") as f:
                f.write(re.sub(rf"(?<![\w'-]){old}(?![\w'-])", new, text))
    for path in [*files(), *PAGES]:
        with open(path, encoding="utf-8") as f:
            text = f.read()
        before = defined(text)
        for name in sorted(before):
            if snake(name) != name and snake(name) in before:
                print(f"fell together: {path}: {name}, {snake(name)}")
        said = dashes(camel(text, turned), names, turned)
        if said != text:
            with open(path, "w", encoding="utf-8") as f:
                f.write(said)
    for old, new in sorted(turned.items()):
        print(old, new)


main()

#!/usr/bin/env python3
"""Brings the repository's own words and lemmas to the spelling of today's Rattle: snake case, with `_` between plain words.

usage: python3 tools/respell.py [ROOT]

It was run once, right after the kit's port.py and before any edit by hand. A name that specs/ or proofs/ declares in lower camel case
(`fetchOf`) or with dashes (`bit-small`) becomes `fetch_of` and `bit_small` in every .antt file, and in the clauses and comments of every
.rt file the camel ones do. Names that would fall together with another are told, and keep apart as KEPT says.
"""

import collections
import os
import re
import sys

# a lemma whose plain respelling would be its definition's name
KEPT = {name: name.replace("-", "_") + "_lem" for name in ["drop-tag", "flushed-all", "flushed-code", "flushed-frame", "flushed-page", "two-longs", "to-target", "to-table"]}

# the same of a lemma that has its new spelling already, in the files that name it so
LEMMAS = {
    "same_bool": ["definition/proofs/Choice.antt", "definition/proofs/Hits040.antt", "audit/proofs/Saying.antt"],
    "in_order": ["definition/proofs/Refusals.antt"],
    "none_left": ["list/proofs/Entering.antt"],
    "front_of": ["replay/proofs/Running.antt"],
    "no_walk": ["walk030/proofs/Driving.antt"],
}

DECLARED = re.compile(r"\s*(?:abbrev |unfoldable |pub )*([^\s({:]+) :(?: |$)")
TOKEN = re.compile(r"[^\W\d][\w'\-]*")


def texts(root, ending):
    for folder, dirs, files in os.walk(os.path.join(root, "crates")):
        dirs[:] = sorted(d for d in dirs if d != "out")
        for f in sorted(files):
            if f.endswith(ending):
                yield os.path.join(folder, f)


def read(path):
    with open(path, encoding="utf-8") as f:
        return f.read()


def is_own(path):
    """specs/ and the lemma files right below proofs/: what a function's folder declares is read by no other file."""
    return "/specs/" in path or os.path.basename(os.path.dirname(path)) == "proofs"


def declared(root):
    names = collections.Counter()
    for path in texts(root, ".antt"):
        if is_own(path):
            for line in read(path).splitlines():
                m = DECLARED.match(line)
                if m:
                    names[m.group(1)] += 1
    return names


def snake(name):
    if not name[0].islower():
        return name
    name = name.replace("-", "_")
    name = re.sub(r"(?<=[a-z0-9])(?=[A-Z])", "_", name)
    return name.lower()


def respelled(names):
    table = {}
    for name in sorted(names):
        new = KEPT.get(name, snake(name))
        if new != name:
            table[name] = new
    return table


def together(names, table):
    by_new = collections.defaultdict(set)
    for name in names:
        by_new[table.get(name, name)].add(name)
    return {new: sorted(olds) for new, olds in by_new.items() if len(olds) > 1}


def turn(text, table):
    return TOKEN.sub(lambda m: table.get(m.group(0), m.group(0)), text)


def main(argv):
    root = argv[0] if argv else "."
    names = declared(root)
    table = respelled(names)
    for new, olds in sorted(together(names, table).items()):
        print(f"fall together: {' '.join(olds)} -> {new}")
    camel = {old: new for old, new in table.items() if "-" not in old}
    for path in texts(root, ".antt"):
        lemmas = {name: name + "_lem" for name, files in LEMMAS.items() if path.endswith(tuple(files))}
        write(path, turn(read(path), table | lemmas))
    for path in texts(root, ".rt"):
        write(path, turn(read(path), camel))
    return 0


def write(path, text):
    if text != read(path):
        with open(path, "w", encoding="utf-8") as f:
            f.write(text)


if __name__ == "__main__":
    raise SystemExit(main(sys.argv[1:]))

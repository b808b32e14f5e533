#!/usr/bin/env python3
"""Prints how many lines each crate has, in the order of crates.txt.

    python3 tools/sizes.py [--layers]

A line is a line of a file as it stands (`rt fmt` lays files out): of src (code), of specs and of proofs. Edits are the files
of `must-fail/`. With --layers each heading of crates.txt is one row.
"""

import os
import sys

TOP = os.path.dirname(os.path.dirname(os.path.abspath(__file__)))


def layers():
    """The headings of crates.txt, each with its crates; those of one heading stand together."""
    found = []
    for line in open(os.path.join(TOP, "crates.txt"), encoding="utf-8"):
        line = line.strip()
        if line.startswith("#"):
            found.append((line.lstrip("# "), []))
        elif line:
            found[-1][1].append(line.split(":")[0])
    return [(name, crates) for name, crates in found if crates]


def files(crate, folder, ending):
    for at, _, names in os.walk(os.path.join(TOP, "crates", crate, folder)):
        yield from (os.path.join(at, name) for name in names if name.endswith(ending))


def lines(crate, folder, ending):
    return sum(open(path, "rb").read().count(b"\n") for path in files(crate, folder, ending))


def sizes(crate):
    return (lines(crate, "src", ".rt"), lines(crate, "specs", ".antt"), lines(crate, "proofs", ".antt"),
            sum(1 for _ in files(crate, "must-fail", ".edit")))


def table(first, heads, rows, show=str):
    """A Markdown table: one row for each crate, or each layer, and their sum."""
    print("|", " | ".join([first, *heads]), "|")
    print("|---" * (len(heads) + 1) + "|")
    for name, numbers in [*rows, ("all", tuple(map(sum, zip(*(n for _, n in rows)))))]:
        print("|", " | ".join([name, *map(show, numbers)]), "|")


def by_layer(of_crate):
    return [(name, tuple(map(sum, zip(*map(of_crate, crates))))) for name, crates in layers()]


def by_crate(of_crate):
    return [(f"`{crate}`", of_crate(crate)) for _, crates in layers() for crate in crates]


if __name__ == "__main__":
    heads = ["code", "specs", "proofs", "edits"]
    if "--layers" in sys.argv[1:]:
        crates = {name: len(inside) for name, inside in layers()}
        table("layer", ["crates", *heads], [(name, (crates[name], *n)) for name, n in by_layer(sizes)])
    else:
        table("crate", heads, by_crate(sizes))

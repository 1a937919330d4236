#!/usr/bin/env python3
"""Says which functions made the check of a crate dear, and which part of each. No part of any test.

    dear.py CRATE [COUNT]

CRATE is a folder below crates/ in whose out/incremental one check from nothing by one job has kept its work: remove out/, then `rt check
--jobs 1` there, once. The checker writes a file for each part as it ends, so the seconds between two files are those of the second,
by the clock: they swell beside other work, and their order stays. COUNT (20) functions and as many parts are shown, the dearest first.

A part `Lts` is the function's borrows. It grows with the owned values that are alive, times the ways out, of which each `?` is one: a
function that is split so that one half owns and the other borrows takes a fraction of it. `Proof` and `Answers` are its goals; what a
search takes long for can be answered by hand. A part without a function is a definition, a lemma or a derive.
"""

import os
import sys
from collections import defaultdict

HERE = os.path.dirname(os.path.abspath(__file__))
PARTS = "Lts Tie Kinds Reads Proof Mir Code Layout Named Statement Met Key Answers Invariants".split()


def kept(folder):
    """The parts that a check kept, each with its seconds."""
    ended = []
    for at, _, names in os.walk(folder):
        ended += [(os.stat(os.path.join(at, name)).st_mtime, name) for name in names if name.endswith(".oantt")]
    ended.sort()
    seconds = defaultdict(float)
    for (before, _), (after, name) in zip(ended, ended[1:]):
        seconds[name.removesuffix(".oantt").removesuffix(".decls")] += after - before
    return seconds


def function_of(part):
    """The function that a part belongs to, or the part itself."""
    while "." in part and part.rpartition(".")[2] in PARTS:
        part = part.rpartition(".")[0]
    return part


def show(title, seconds, count):
    print(f"{title}: {sum(seconds.values()):.0f} s")
    for name, took in sorted(seconds.items(), key=lambda it: -it[1])[:count]:
        print(f"{took:8.1f}  {name}")


def main(words):
    if not words:
        sys.exit(__doc__)
    folder = os.path.join(os.path.dirname(HERE), "crates", words[0], "out", "incremental")
    parts = kept(folder)
    if not parts:
        sys.exit(f"dear.py: nothing is kept in {folder}: rt check there first")
    functions = defaultdict(float)
    for part, took in parts.items():
        functions[function_of(part)] += took
    count = int(words[1]) if len(words) > 1 else 20
    show("functions", functions, count)
    show("parts", parts, count)


if __name__ == "__main__":
    main(sys.argv[1:])

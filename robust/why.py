#!/usr/bin/env python3
"""Plays random configurations and captures, and has the workbench's model of the rules replay each: altqwork why.

    why.py SEED [RUNS] [--first NUMBER] [--keep FOLDER] [--program PROGRAM]

No part of any test: a thousand runs take minutes. The cases follow from SEED and their numbers, RUNS of them (1000 without the word)
from 0 or from --first on; python/tests/random_plays.py draws them. The model was written from the pages and not from the code, so where it
decides otherwise than the program one of the three is wrong. --keep leaves the files of the cases that differ in a folder. The exit status is
0 where none did, else 1. At the end it says how many fates of each kind there were.
"""

import argparse
import os
import random
import shutil
import sys
import tempfile
from collections import Counter

sys.dont_write_bytecode = True
WORKBENCH = os.path.join(os.path.dirname(os.path.dirname(os.path.abspath(__file__))), "python")
sys.path[:0] = [WORKBENCH, os.path.join(WORKBENCH, "tests")]

import random_plays  # noqa: E402


def words(argv):
    """What the words ask for."""
    parser = argparse.ArgumentParser(description="Plays random cases, and has the model of the rules replay each.")
    parser.add_argument("seed")
    parser.add_argument("runs", nargs="?", type=int, default=1000)
    parser.add_argument("--first", type=int, default=0)
    parser.add_argument("--keep")
    parser.add_argument("--program")
    return parser.parse_args(argv)


def main(argv):
    args, counts, differing = words(argv), Counter(), []
    for number in range(args.first, args.first + args.runs):
        with tempfile.TemporaryDirectory(prefix="altqplay-why-") as folder:
            replay = random_plays.replayed(random.Random(f"{args.seed} {number}"), number, folder, args.program)
            counts.update([fate.fate for _row, fate in replay.question.rows] + ["marked"] * len(random_plays.marked(replay.play)))
            found = random_plays.difference(replay, folder, args.program)
            if found is None:
                continue
            differing.append(number)
            print(f"case {number} differs: {found}", flush=True)
            if args.keep:
                shutil.copytree(folder, os.path.join(args.keep, str(number)))
    told = ", ".join(f"{count} {fate}" for fate, count in sorted(counts.items()))
    print(f"{args.runs} plays, {len(differing)} differ: {told}")
    return 1 if differing else 0


if __name__ == "__main__":
    sys.exit(main(sys.argv[1:]))

#!/usr/bin/env python3
"""Plays random trees by `altqplay shares`, and holds files and lines to those of `play` and of the workbench.

    shares.py [SEED [PLAYS]] [--quick] [--first NUMBER] [--only NUMBER] [--keep FOLDER] [--program PROGRAM] [--reference PROGRAM]

The cases follow from SEED and their numbers, PLAYS of them (500 without the word) from 0 or from --first on, of SEED 1 where none is said.
`shares` must leave the files of `play`, byte for byte, and say the lines that `altqwork gap` reckons from the fates: what each of two siblings
was sent, in every stretch in which both wait. No gap is above its bound. With --reference status, lines and files are those of another program of
the same command line, too. --quick is 60 plays of a fixed seed, which the gate runs. --keep leaves the files of the play of --only in a folder.
The exit status is 0 where nothing differs, 1 where something does, 2 for other words.
"""

import argparse
import os
import random
import shutil
import sys
import tempfile
from collections import Counter

sys.dont_write_bytecode = True
sys.path.insert(0, os.path.join(os.path.dirname(os.path.dirname(os.path.abspath(__file__))), "python"))

from altqplay.workbench import gap  # noqa: E402
from altqplay.workbench.conf import read_conf  # noqa: E402
from altqplay.workbench.rows import fate_rows  # noqa: E402
from program import PROGRAM, content, prepare, run, store, words_of  # noqa: E402
from transcript import Case  # noqa: E402

QUICK = ("7", 60)
NAMES = {"config": "c.conf", "arrivals": "a.pcap", "departures": "d.pcap", "fates": "f.csv", "stats": "s.csv"}
OUTPUTS = ("d.pcap", "f.csv", "s.csv")
DEEPEST = 8


def curve(rng, bent):
    """A linear curve, or one that is bent."""
    slow, fast = sorted(rng.choice((100, 250, 500, 999, 1000, 2000, 3000, 4000)) for _ in range(2))
    return rng.choice([f"{fast}K 3 {slow}K", f"0 5 {fast}K"]) if rng.random() < bent else f"{fast}K 0 {fast}K"


def statements(rng, kind):
    """The lines of an interface, and its leaves. `kind` is what is unusual of it."""
    parents, levels = [None], [1]
    for place in range(1, rng.choice((1, 3, 4, 6, 9))):
        parent = rng.choice((0, place - 1, rng.randrange(place)))
        parent = parent if levels[parent] < DEEPEST else 0
        parents.append(parent)
        levels.append(levels[parent] + 1)
    leaves = [place for place in range(len(parents)) if place not in parents]
    lines = [f"interface if0 bandwidth {rng.choice(('1M', '3M', '8M'))} {'cbq' if kind == 'cbq' else 'hfsc'}"]
    for place, parent in enumerate(parents):
        options = "" if parent is None else f" ls {curve(rng, 0.3 if kind == 'bent' else 0)}"
        options += f" ul {rng.choice((4, 8))}M 0 8M" if kind == "limit" and rng.random() < 0.3 else ""
        options += f" rt {rng.choice(('0 0 0', '500K 0 500K', '1M 3 100K'))}" if kind == "real" and place in leaves and rng.random() < 0.4 else ""
        options = " exactbandwidth 1M borrow" if kind == "cbq" else options
        above, last = "NULL" if parent is None else f"c{parent}", " default" if place == leaves[-1] else ""
        lines.append(f"class {'cbq' if kind == 'cbq' else 'hfsc'} if0 c{place} {above}{options} qlimit {rng.choice((2, 50))}{last}")
    return lines + [f"filter if0 c{place} 0 {5000 + place} 0 0 17" for place in leaves], leaves


def packets(rng, leaves):
    """Bursts, of which many overlap."""
    at = 0
    for _ in range(rng.choice((0, 2, 10, 25))):
        at += rng.choice((0, 0, 0, 1_000_000, rng.randrange(3_000_000), rng.randrange(60_000_000)))
        heads = f" udp 10.0.0.1:1027 > 10.0.0.2:{5000 + rng.choice(leaves)}"
        yield f"{at} {rng.choice((64, 1000, 1000, 1500, rng.randrange(60, 9000)))}{heads} times {rng.choice((1, 2, 6))}"


def draw(rng, number, folder):
    """Writes a configuration and a capture."""
    case = Case("-")
    lines, leaves = statements(rng, ("line", "line", "line", "bent", "limit", "real", "cbq")[number % 7])
    for line in [*("    " + line for line in lines), *packets(rng, leaves)]:
        case.follow(line)
    store(os.path.join(folder, NAMES["config"]), case.config.encode())
    store(os.path.join(folder, NAMES["arrivals"]), bytes(case.capture))


def ended(program, command, folder, number):
    """How a command of a program ends: status, what it says, and what its files hold."""
    done = run([program, command, *words_of(NAMES, str(number))[1:]], folder)
    return done.status, done.said, [content(os.path.join(folder, name)) for name in OUTPUTS]


def fault_of(options, folder, number):
    """What is wrong with a case, or None, and the lines that were said."""
    played, measured = (ended(options.program, command, folder, number) for command in ("play", "shares"))
    if (played[0], played[2]) != (measured[0], measured[2]):
        return "status or files are not those of play", b""
    interface, fates = read_conf(os.path.join(folder, NAMES["config"]), "if0", options.program), list(fate_rows(os.path.join(folder, NAMES["fates"])))
    longest = gap.longest_of(fates)
    lines = "".join(gap.line(interface, fates, pair, longest)[0] + "\n" for pair in gap.pairs(interface)).encode()
    if measured[1] != lines:
        return f"it says {measured[1]}, and by the workbench {lines}", lines
    if any(int(most) > int(bound) for most, bound in (words[3::2] for words in map(bytes.split, lines.splitlines()) if len(words) == 6 and words[5] != b"none")):
        return "a gap is above its bound", lines
    if options.reference and ended(options.reference, "shares", folder, number) != measured:
        return "the reference ends otherwise", lines
    return None, lines


def options_of(words):
    """The options of the words of this script."""
    parser = argparse.ArgumentParser(description="Plays random trees, and compares what shares says of them.")
    parser.add_argument("seed", nargs="?", default="1")
    parser.add_argument("plays", nargs="?", type=int, default=500)
    parser.add_argument("--quick", action="store_true")
    parser.add_argument("--first", type=int, default=0, metavar="NUMBER")
    parser.add_argument("--only", type=int, metavar="NUMBER")
    parser.add_argument("--keep", type=os.path.abspath, metavar="FOLDER")
    parser.add_argument("--program", type=os.path.abspath, default=PROGRAM)
    parser.add_argument("--reference", type=os.path.abspath, metavar="PROGRAM")
    options = parser.parse_args(words)
    if options.quick:
        options.seed, options.plays = QUICK
    return options


def main(words):
    options = options_of(words)
    if not os.access(options.program, os.X_OK):
        print(f"shares.py: no program {options.program}", file=sys.stderr)
        return 1
    prepare()
    numbers = range(options.first, options.first + options.plays) if options.only is None else [options.only]
    pairs, differing = Counter(), 0
    for number in numbers:
        with tempfile.TemporaryDirectory(prefix="altqplay-shares-") as top:
            folder = os.path.join(top, "case")
            os.mkdir(folder)
            draw(random.Random(f"{options.seed} {number}"), number, folder)
            fault, lines = fault_of(options, folder, number)
            if options.keep:
                shutil.copytree(folder, os.path.join(options.keep, str(number)), dirs_exist_ok=True)
        for line in lines.splitlines():
            words_of_line = line.split()
            pairs["bent" if len(words_of_line) == 4 else "no bound" if words_of_line[5] == b"none" else "gap 0" if words_of_line[3] == b"0" else "gap and bound"] += 1
        if fault is not None:
            differing += 1
            print(f"play {number}: {fault}", flush=True)
    for what, count in sorted(pairs.items()):
        print(f"{count:>8}  {what}")
    print(f"{len(numbers)} plays of seed {options.seed}, {differing} differ")
    return 1 if differing else 0


if __name__ == "__main__":
    sys.exit(main(sys.argv[1:]))

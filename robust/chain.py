#!/usr/bin/env python3
"""Plays random captures on two links in a row by `altqplay chain`, and holds its files to those of two plays.

    chain.py [SEED [CHAINS]] [--quick] [--first NUMBER] [--only NUMBER] [--program PROGRAM] [--reference PROGRAM]

The cases follow from SEED and their numbers, CHAINS of them (500 without the word) from 0 or from --first on, of SEED 1 where none is said: both
disciplines, RED and RIO, filters, conditioners, captures of both formats, whole and changed. Where `play` of the first interface ends with
another status than 0, `chain` must end so, and leave nothing of the second link; where it is done, the files of the second link, the status and the
message must be those of `play` of the second interface over the departures of the first. The path is made again of the fates of both plays. With
--reference status, message and files are those of another program of the same command line, too; --program does the same alone where it is the
other program. --quick is 100 chains of a fixed seed, which the gate runs. The exit status is 0 where nothing differs, 1 where something does, 2 for
other words.
"""

import argparse
import csv
import io
import os
import random
import sys
import tempfile
from collections import Counter

sys.dont_write_bytecode = True

import cases  # noqa: E402
from program import PROGRAM, content, prepare, run, store  # noqa: E402

QUICK = ("7", 100)
FIRST, SECOND = ("d.pcap", "f.csv", "s.csv"), ("d2.pcap", "f2.csv", "s2.csv")
OUTPUTS = (*FIRST, *SECOND, "p.csv")


def conditioners(rng, lines, name):
    """Statements of conditioners for some classes of an interface."""
    classes = [line.split()[3] for line in lines if line.startswith(f"class hfsc {name} ") or line.startswith(f"class cbq {name} ")]
    inner = {line.split()[4] for line in lines if line.startswith(f"class hfsc {name} ")}
    for target in classes:
        if target not in inner and rng.random() < 0.4:
            peak = rng.choice((100, 500, 1000, 3000, 8000))
            rule = rng.choice((f"srtcm {peak}K {rng.choice((1500, 4000))} {rng.choice((0, 3000))}", f"trtcm {2 * peak}K 4000 {peak}K 2000"))
            yield f"conditioner {name} {target} {rule} {rng.randrange(1, 5)}"


def draw(rng, folder):
    """Writes a configuration of two interfaces and a capture: the name of the second interface."""
    lines = []
    for name in ("if0", "if1"):
        mine = cases.interface(rng, name)
        lines += mine + (list(conditioners(rng, mine, name)) if rng.random() < 0.4 else [])
    store(os.path.join(folder, "c.conf"), "".join(line + "\n" for line in lines).encode())
    store(os.path.join(folder, "a.pcap"), cases.newer(rng) if cases.chance(rng, 5) else cases.capture(rng))
    return rng.choice(("if1", "if1", "if1", "if1", "if0", "if9"))


def held(folder, names):
    """What files hold; None of one that is not there."""
    paths = {name: os.path.join(folder, name) for name in names}
    return {name: content(path) if os.path.exists(path) else None for name, path in paths.items()}


def play_of(program, interface, arrivals, outputs, seed, folder):
    """How a play ends."""
    words = ["--config", "c.conf", "--interface", interface, "--arrivals", arrivals, "--departures", outputs[0], "--fates", outputs[1], "--stats", outputs[2]]
    return run([program, "play", *words, "--seed", seed], folder)


def chain_of(program, following, seed, folder):
    """How a chain ends: its status, what it says, and what its files hold."""
    words = ["--config", "c.conf", "--interface", "if0", "--next", following, "--arrivals", "a.pcap", "--seed", seed, "--path", "p.csv"]
    for option, name in zip(("departures", "fates", "stats", "departures2", "fates2", "stats2"), OUTPUTS):
        words += [f"--{option}", name]
    done = run([program, "chain", *words], folder)
    files = held(folder, OUTPUTS)
    for name in OUTPUTS:
        if files[name] is not None:
            os.remove(os.path.join(folder, name))
    return done.status, done.said, files


def rows_of(data):
    """The rows of fates."""
    return list(csv.DictReader(io.StringIO(data.decode())))


def path_of(first, second):
    """The text of the paths, of the fates of both plays."""
    sent = [row["number"] for row in rows_of(first) if row["end"]]
    ends = {row["number"]: row["end"] for row in rows_of(second)}
    later = {number: ends[str(place)] for place, number in enumerate(sent, 1)}
    lines = ["number,arrival,outcome,end\n"]
    for row in sorted(rows_of(first), key=lambda row: int(row["number"])):
        number = row["number"]
        outcome = "dropped1" if not row["end"] else "sent" if later[number] else "dropped2"
        lines.append(f"{number},{row['arrival']},{outcome},{later.get(number, '')}\n")
    return "".join(lines).encode()


def wanted(program, following, seed, folder):
    """What must come of a chain, by two plays."""
    nothing = dict.fromkeys(OUTPUTS)
    if following == "if9":
        checked = run([program, "check", "--config", "c.conf", "--interface", "if0"], folder)
        return 3, checked.said if checked.status else b"altqplay: configuration line 0 word 0: NoInterface\n", nothing
    first = play_of(program, "if0", "a.pcap", FIRST, seed, folder)
    files = {**nothing, **held(folder, FIRST)}
    if first.status:
        return first.status, first.said, files
    second = play_of(program, following, FIRST[0], SECOND, seed, folder)
    files.update(held(folder, SECOND))
    if second.status == 0:
        files["p.csv"] = path_of(files["f.csv"], files["f2.csv"])
    return second.status, second.said, files


def fault_of(options, following, seed, folder):
    """What is wrong with a case, or None, and how the chain ended."""
    chained = chain_of(options.program, following, seed, folder)
    if options.reference and chain_of(options.reference, following, seed, folder) != chained:
        return "the reference ends otherwise", chained
    by_plays = wanted(options.program, following, seed, folder)
    for what, found, right in zip(("status", "message", "files"), chained, by_plays):
        if found != right:
            which = [name for name in OUTPUTS if what == "files" and found[name] != right[name]]
            return f"{what} {' '.join(which)} not that of two plays", chained
    return None, chained


def options_of(words):
    """The options of the words of this script."""
    parser = argparse.ArgumentParser(description="Plays random captures on two links in a row.")
    parser.add_argument("seed", nargs="?", default="1")
    parser.add_argument("chains", nargs="?", type=int, default=500)
    parser.add_argument("--quick", action="store_true")
    parser.add_argument("--first", type=int, default=0, metavar="NUMBER")
    parser.add_argument("--only", type=int, metavar="NUMBER")
    parser.add_argument("--program", type=os.path.abspath, default=PROGRAM)
    parser.add_argument("--reference", type=os.path.abspath, metavar="PROGRAM")
    options = parser.parse_args(words)
    if options.quick:
        options.seed, options.chains = QUICK
    return options


def main(words):
    options = options_of(words)
    if not os.access(options.program, os.X_OK):
        print(f"chain.py: no program {options.program}", file=sys.stderr)
        return 1
    prepare()
    numbers = range(options.first, options.first + options.chains) if options.only is None else [options.only]
    ends, differing = Counter(), 0
    for number in numbers:
        with tempfile.TemporaryDirectory(prefix="altqplay-chain-") as folder:
            following = draw(random.Random(f"{options.seed} {number}"), folder)
            fault, (status, _, files) = fault_of(options, following, str(number), folder)
        drops = {word for word in ("dropped1", "dropped2") if files["p.csv"] and f",{word},".encode() in files["p.csv"]}
        ends[f"status {status} {' '.join(sorted(drops))}".rstrip()] += 1
        if fault is not None:
            differing += 1
            print(f"chain {number}: {fault}", flush=True)
    for what, count in sorted(ends.items()):
        print(f"{count:>8}  {what}")
    print(f"{len(numbers)} chains of seed {options.seed}, {differing} differ")
    return 1 if differing else 0


if __name__ == "__main__":
    sys.exit(main(sys.argv[1:]))

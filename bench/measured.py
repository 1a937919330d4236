#!/usr/bin/env python3
"""Measures what `shares` costs beside `play`, and what `verify` costs. No part of any test.

    measured.py [PACKETS [RUNS]] [--program PROGRAM] [--reference PROGRAM]

PACKETS (300,000) of 1,000 bytes, of which 60 are captured, arrive evenly, as many as a link of 100 Mbit/s can send and a tenth more, for
each leaf in turn. The trees have linear curves alone, but that of `real`, whose leaves have real-time curves as well:

    two         two leaves
    tree        255 classes in a tree of two children each, so 128 leaves and 127 pairs
    siblings    254 leaves below the root, so 32,131 pairs
    real        two leaves with real-time curves, of which verify reckons due moments

For each it prints the nanoseconds of processor time a packet of `play`, of `shares` and of `verify` over what the play left, the least of RUNS
(3), how many plays `shares` takes, and with --reference how many times as fast as that program each of the three is.
"""

import argparse
import os
import sys
import tempfile

sys.dont_write_bytecode = True
HERE = os.path.dirname(os.path.abspath(__file__))
ROOT = os.path.dirname(HERE)
sys.path[:0] = [os.path.join(ROOT, "example"), os.path.join(ROOT, "robust")]

from generate import capture_head, captured_bytes, record  # noqa: E402
from program import PROGRAM, prepare, run, words_of  # noqa: E402

NAMES = {"config": "c.conf", "arrivals": "a.pcap", "departures": "d.pcap", "fates": "f.csv", "stats": "s.csv"}
APART = 80_000 * 10 // 11  # nanoseconds between arrivals; one takes 80,000 on the link
FIRST_PORT = 5000


def two(more=""):
    """Two leaves below the root."""
    return [("a", "root", f"pshare 25{more}"), ("b", "root", f"pshare 75{more}")]


def tree():
    """A tree in which each class has two children, seven levels below the root."""
    below = [(f"c{place}", f"c{place // 2}" if place > 3 else "root", "pshare 50") for place in range(2, 256)]
    return below


def siblings():
    """As many leaves as an interface may have beside the root and one."""
    return [(f"c{place}", "root", "ls 390K 0 390K") for place in range(254)]


TREES = {"two": two(), "tree": tree(), "siblings": siblings(), "real": two(" grate 20M")}


def write(folder, classes, count):
    """Writes the configuration and the capture."""
    parents = {parent for _name, parent, _words in classes}
    leaves = [name for name, _parent, _words in classes if name not in parents]
    lines = ["interface if0 bandwidth 100M hfsc", "class hfsc if0 root NULL pshare 100"]
    lines += [f"class hfsc if0 {name} {parent} {words}" + " default" * (name == leaves[-1]) for name, parent, words in classes]
    lines += [f"filter if0 {name} 0 {FIRST_PORT + place} 0 0 udp" for place, name in enumerate(leaves)]
    with open(os.path.join(folder, NAMES["config"]), "w", encoding="ascii") as file:
        file.write("\n".join(lines) + "\n")
    frames = [captured_bytes(place, 1000, FIRST_PORT + place, 0) for place in range(len(leaves))]
    with open(os.path.join(folder, NAMES["arrivals"]), "wb") as file:
        file.write(capture_head())
        for number in range(count):
            file.write(record(number * APART, frames[number % len(leaves)], 1000))


def words(command):
    """The words of a command."""
    usual = [command, *words_of(NAMES)[1:]]
    left_out = ("--seed", "--stats") if command == "verify" else ()
    return [word for option, value in zip(usual[1::2], usual[2::2]) if option not in left_out for word in (option, value)]


def taken(program, command, folder, runs):
    """The least seconds of processor time."""
    found = []
    for _ in range(runs):
        done = run([program, command, *words(command)], folder)
        if done.status != 0:
            sys.exit(f"measured.py: {command} ended with status {done.status}: {done.said.decode()}")
        found.append(done.seconds)
    return min(found)


def main(argv):
    parser = argparse.ArgumentParser(description="Measures shares and verify beside play.")
    parser.add_argument("packets", nargs="?", type=int, default=300_000)
    parser.add_argument("runs", nargs="?", type=int, default=3)
    parser.add_argument("--program", type=os.path.abspath, default=PROGRAM)
    parser.add_argument("--reference", type=os.path.abspath)
    options = parser.parse_args(argv)
    if not os.access(options.program, os.X_OK):
        print(f"measured.py: no program {options.program}", file=sys.stderr)
        return 1
    prepare()
    commands = ("play", "shares", "verify")
    print(f"{options.packets} packets, ns a packet" + "".join(f"{command:>10}" for command in commands) + "   shares/play" + "   times the reference" * bool(options.reference))
    for name, classes in TREES.items():
        with tempfile.TemporaryDirectory(prefix="altqplay-measured-") as top:
            folder = os.path.join(top, "room")
            os.mkdir(folder)
            write(folder, classes, options.packets)
            own = [taken(options.program, command, folder, options.runs) for command in commands]
            others = [taken(options.reference, command, folder, options.runs) for command in commands] if options.reference else []
        line = f"{name:<{len(str(options.packets)) + 22}}" + "".join(f"{seconds * 1e9 / options.packets:>10.0f}" for seconds in own) + f"{own[1] / own[0]:>14.2f}"
        print(line + "  " + "".join(f"{other / seconds:>7.2f}" for other, seconds in zip(others, own)), flush=True)
    return 0


if __name__ == "__main__":
    sys.exit(main(sys.argv[1:]))

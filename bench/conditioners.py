#!/usr/bin/env python3
"""Measures what a conditioner costs a play. No part of any test.

    conditioners.py [PACKETS [RUNS]] [--program PROGRAM] [--reference PROGRAM] [--instructions] [--profile]

PACKETS (300,000) of 1,000 bytes, of which 60 are captured, arrive evenly, as many as a link of 100 Mbit/s can send and a tenth more, for
one class. It has no conditioner, or one of these, of which each changes the type of service of every frame:

    one rate    srtcm, that colours packets green and red
    two rates   trtcm, that colours them green, yellow and red

For each it prints the nanoseconds of processor time a packet, the least of RUNS (3), how many they are above those of no conditioner, and the
peak memory. With --instructions it counts the instructions a packet too, by valgrind's callgrind, as the difference of two plays of 2,000 and of
12,000 packets; these are the same on a busy machine. With --profile it names the functions that the instructions above go to. With --reference
the same of that program.
"""

import argparse
import os
import re
import subprocess
import sys
import tempfile

sys.dont_write_bytecode = True
HERE = os.path.dirname(os.path.abspath(__file__))
ROOT = os.path.dirname(HERE)
sys.path[:0] = [os.path.join(ROOT, "example"), os.path.join(ROOT, "robust"), HERE]

from bench import timed  # noqa: E402
from generate import capture_head, captured_bytes, record  # noqa: E402
from program import PROGRAM, prepare, run, words_of  # noqa: E402

NAMES = {"config": "c.conf", "arrivals": "a.pcap", "departures": "d.pcap", "fates": "f.csv", "stats": "s.csv"}
APART = 80_000 * 10 // 11  # nanoseconds between arrivals; one takes 80,000 on the link
CLASSES = "interface if0 bandwidth 100M hfsc\nclass hfsc if0 root NULL\nclass hfsc if0 a root pshare 100 default\n"
METERS = {"none": "", "one rate": "conditioner if0 a srtcm 50M 3000 0 1\n", "two rates": "conditioner if0 a trtcm 80M 3000 40M 3000 1\n"}
FEW, MANY = 2_000, 12_000


def write(folder, meter, count):
    """Writes the configuration and the capture."""
    with open(os.path.join(folder, NAMES["config"]), "w", encoding="ascii") as file:
        file.write(CLASSES + METERS[meter])
    frames = [captured_bytes(number, 1000, 5001, 0) for number in range(256)]
    with open(os.path.join(folder, NAMES["arrivals"]), "wb") as file:
        file.write(capture_head())
        for number in range(count):
            file.write(record(number * APART, frames[number % 256], 1000))


def ended(program, folder):
    """The seconds of processor time of a play."""
    done = run([program, *words_of(NAMES)], folder)
    if done.status != 0:
        sys.exit(f"conditioners.py: play ended with status {done.status}: {done.said.decode()}")
    return done.seconds


def peak(program, folder):
    """The peak memory of a play in KiB."""
    here = os.getcwd()
    os.chdir(folder)
    try:
        return timed([program, *words_of(NAMES)])[2]
    finally:
        os.chdir(here)


def counted(program, folder, profile):
    """How many instructions a play takes."""
    done = subprocess.run(["valgrind", "--tool=callgrind", f"--callgrind-out-file={profile}", program, *words_of(NAMES)],
                          cwd=folder, stderr=subprocess.PIPE, check=True)
    return int(re.search(rb"Collected : (\d+)", done.stderr)[1])


def instructions(program, meter, top):
    """How many instructions a packet more takes, and the profile of the greater play."""
    found = []
    for count in (FEW, MANY):
        write(top, meter, count)
        found.append(counted(program, top, os.path.join(top, f"profile-{count}")))
    return (found[1] - found[0]) / (MANY - FEW)


def functions(top):
    """The instructions of each function, those of the play of FEW taken off, a packet."""
    found = {}
    for count, sign in ((MANY, 1), (FEW, -1)):
        told = subprocess.run(["callgrind_annotate", "--threshold=100", os.path.join(top, f"profile-{count}")], stdout=subprocess.PIPE, check=True)
        for line in told.stdout.decode(errors="replace").splitlines():
            match = re.match(r"\s*([\d,]+) \(.*?\)\s+(.*)", line)
            if match and "PROGRAM TOTALS" not in line:
                name = match[2].split(":", 1)[-1].split(" [", 1)[0]
                found[name] = found.get(name, 0) + sign * int(match[1].replace(",", "")) / (MANY - FEW)
    return found


def told(options, program):
    """Measures a program, and prints a line for each meter."""
    plain, plain_functions = None, None
    for meter in METERS:
        with tempfile.TemporaryDirectory(prefix="altqplay-conditioners-") as top:
            folder = os.path.join(top, "room")
            os.mkdir(folder)
            write(folder, meter, options.packets)
            own = min(ended(program, folder) for _ in range(options.runs)) * 1e9 / options.packets
            memory = peak(program, folder)
            number = instructions(program, meter, folder) if options.instructions or options.profile else None
            found = functions(folder) if options.profile else {}
        plain = plain or (own, number)
        line = f"{meter:<12}{own:>12.0f}{own - plain[0]:>12.0f}{memory:>12}"
        print(line + (f"{number:>14.0f}{number - plain[1]:>12.0f}" if number else ""), flush=True)
        plain_functions = plain_functions or found
        more = sorted(((found.get(name, 0) - plain_functions.get(name, 0), name) for name in {*found, *plain_functions}), reverse=True)
        for count, name in more[:12] if found is not plain_functions else []:
            if count >= 1:
                print(f"{'':12}{count:>12.0f}  {name[:110]}")


def main(argv):
    parser = argparse.ArgumentParser(description="Measures what a conditioner costs.")
    parser.add_argument("packets", nargs="?", type=int, default=300_000)
    parser.add_argument("runs", nargs="?", type=int, default=3)
    parser.add_argument("--program", type=os.path.abspath, default=PROGRAM)
    parser.add_argument("--reference", type=os.path.abspath)
    parser.add_argument("--instructions", action="store_true")
    parser.add_argument("--profile", action="store_true")
    options = parser.parse_args(argv)
    if not os.access(options.program, os.X_OK):
        print(f"conditioners.py: no program {options.program}", file=sys.stderr)
        return 1
    prepare()
    print(f"{options.packets} packets; a packet:")
    print(f"{'':12}{'ns':>12}{'more':>12}{'peak KiB':>12}" + (f"{'instructions':>14}{'more':>12}" if options.instructions or options.profile else ""))
    for program in [options.program, options.reference]:
        if program:
            print(program)
            told(options, program)
    return 0


if __name__ == "__main__":
    sys.exit(main(sys.argv[1:]))

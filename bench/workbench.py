#!/usr/bin/env python3
"""Measures commands of the workbench that an operator gives, on a capture of many packets. No part of any test.

    workbench.py [PACKETS] [--program PROGRAM]

PACKETS (1,000,000) come to seven classes of a link of 18 Mbit/s, which they fill to two thirds; `after` takes the real-time curve of the
calls away. `why` asks for the last packet that is sent. It works in a new folder, in memory where the machine has /dev/shm, and removes it at the end. For each command it prints its
status, seconds of processor time, of it and of the program that it calls, seconds by the clock, and the bytes of the page that it writes.
"""

import argparse
import os
import random
import subprocess
import sys
import tempfile

sys.dont_write_bytecode = True
HERE = os.path.dirname(os.path.abspath(__file__))
ROOT = os.path.dirname(HERE)
sys.path[:0] = [os.path.join(ROOT, "example"), HERE]

from bench import taken  # noqa: E402
from generate import FIRST, captured_bytes, capture_head, record  # noqa: E402

WORK = os.path.join(ROOT, "python", "altqwork")
VOICE, GAP = 5004, 290_000  # the port of the calls, and nanoseconds between packets in the mean
PORTS = {VOICE: 3, 5022: 1, 9000: 3, 8730: 2, 5053: 1, 5060: 1, 5061: 1}  # with how often each is drawn
CONF = """interface if0 bandwidth 18M hfsc
class hfsc if0 root NULL pshare 100
class hfsc if0 voip root {curve}pshare 1
class hfsc if0 ssh root [rt 1M 0 1M] pshare 8
class hfsc if0 dns root pshare 4
class hfsc if0 web root pshare 40
class hfsc if0 video root [sc 2M 0 2M]
class hfsc if0 bulk root pshare 15 qlimit 200
class hfsc if0 rest root pshare 10 default
filter if0 voip 0 5004 0 0 udp
filter if0 ssh 0 5022 0 0 udp
filter if0 dns 0 5053 0 0 udp
filter if0 web 0 9000 0 0 udp
filter if0 video 0 5060 0 0 udp
filter if0 bulk 0 8730 0 0 udp
"""
BOTH = ["--before", "before.conf", "--after", "after.conf"]
WANTS = ["--want", "voip delay<10ms", "--want", "voip drop=0", "--want", "bulk rate>=2M"]
COMMANDS = {
    "late": ["late", "--config", "before.conf", "arrivals.pcap"],
    "late, two plays": ["late", *BOTH, *WANTS, "arrivals.pcap"],
    "report": ["report", "--config", "before.conf", "arrivals.pcap", "page.html"],
    "report, two plays": ["report", *BOTH, *WANTS, "arrivals.pcap", "page.html"],
    "delays": ["delays", "--config", "before.conf", "before.csv", "after.csv"],
    "why, one packet": ["why", "before.csv", "before.conf", "--packet", "LAST"],
    "why, its story": ["why", "before.csv", "before.conf", "--packet", "LAST", "--story"],
    "find": ["find", "before.conf", "--class", "voip", "--set", "rt=?", *WANTS[:2], "arrivals.pcap"],
    "chain, a policer": ["chain", "--config", "before.conf", "--next", "police 16M burst 60k", *WANTS, "arrivals.pcap"],
}


def write(count):
    """Writes the configurations and the capture here."""
    for name, curve in (("before", "[rt 3M 10 1500K] "), ("after", "")):
        with open(f"{name}.conf", "w", encoding="ascii") as file:
            file.write(CONF.format(curve=curve))
    chance, at, frames = random.Random(7), FIRST, {}
    ports = [port for port, times in PORTS.items() for _time in range(times)]
    with open("arrivals.pcap", "wb") as file:
        file.write(capture_head())
        for number in range(count):
            port = chance.choice(ports)
            key = 214 if port == VOICE else chance.choice((64, 576, 1514)), port
            if key not in frames:
                frames[key] = captured_bytes(number, *key, 0)
            file.write(record(at, frames[key], key[0]))
            at += chance.randrange(2 * GAP)


def play(program):
    """Plays both configurations here, and answers the last packet that is sent before the change."""
    for name in ("before", "after"):
        taken([program, "play", "--config", f"{name}.conf", "--interface", "if0", "--arrivals", "arrivals.pcap", "--departures", "departures.pcap",
               "--fates", f"{name}.csv", "--stats", "stats.csv", "--seed", "42"], "said")
    os.unlink("departures.pcap")
    with open("before.csv", encoding="ascii") as file:
        next(file)
        return str(max(int(line.split(",", 1)[0]) for line in file if not line.endswith(",,\n")))


def main():
    parser = argparse.ArgumentParser(description=__doc__, formatter_class=argparse.RawDescriptionHelpFormatter)
    parser.add_argument("packets", nargs="?", type=int, default=1_000_000)
    parser.add_argument("--program")
    args = parser.parse_args()
    if args.program:
        os.environ["ALTQPLAY"] = os.path.abspath(args.program)
    with tempfile.TemporaryDirectory(dir="/dev/shm" if os.path.isdir("/dev/shm") else None) as folder:
        os.chdir(folder)
        write(args.packets)
        last = play(subprocess.run([os.path.join(ROOT, "release", "program")], stdout=subprocess.PIPE, check=True).stdout.decode().strip())
        print(f"{'':<20}{'status':>8}{'processor s':>13}{'clock s':>9}{'page':>9}")
        for label, words in COMMANDS.items():
            status, clock, processor = taken([WORK, *(last if word == "LAST" else word for word in words)], "said")
            size = f"{os.path.getsize('page.html'):,}" if "page.html" in words else "-"
            print(f"{label:<20}{status:>8}{processor:>13.2f}{clock:>9.2f}{size:>9}")
        os.chdir(ROOT)


if __name__ == "__main__":
    main()

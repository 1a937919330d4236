#!/usr/bin/env python3
"""Measures the built program on one capture of each kind of scheduler, and on some that are made to be slow. No part of any test.

    bench.py [PACKETS] [--runs N] [--only LINE,LINE] [--slow] [--others] [--program PROGRAM] [--reference PROGRAM]

PACKETS (200,000) are in each capture; bench/inputs.py says what each line plays. The program is the one
that release/program finds. It works in a new folder, in memory where the machine has /dev/shm, and removes it at the end.

For each line it prints

  - how many packets were sent and dropped,
  - nanoseconds a packet of processor time, and by the clock: of the whole run, which reads, decides and writes, the least of N (5) runs,
  - its peak memory,
  - how many times longer it takes by the clock than `cat` of its capture and of the captures and fates that it writes or verifies,
  - with --reference, the nanoseconds of processor time of that program, run by turns with the other, how many times as fast as it the
    program is, and `differ` where the files that both leave, or what they say, are not the same.

Without --only it plays the usual lines, with --slow those that are made to be slow, and with --others one of each other command: verify
of what a play left, a play with a conditioner, condition, a play of a pcapng capture, chain and shares. The status is 1 where a run failed
or files differ.
"""

import argparse
import os
import shutil
import struct
import sys
import tempfile
import time

sys.dont_write_bytecode = True
HERE = os.path.dirname(os.path.abspath(__file__))
ROOT = os.path.dirname(HERE)
sys.path[:0] = [os.path.join(ROOT, "robust"), os.path.join(ROOT, "example"), HERE]

from generate import capture_head, record  # noqa: E402
from inputs import LINES, OTHERS, SLOW  # noqa: E402
from program import PROGRAM  # noqa: E402

ALL = {**{label: (*line, "play") for label, line in {**LINES, **SLOW}.items()}, **OTHERS}

# The options of each command that name a file, and what it is called; outputs end with a mark.
PLAYED = {"config": "altq.conf", "arrivals": "arrivals.pcap", "departures": "departures.pcap*", "fates": "fates.csv*", "stats": "stats.csv*"}
SECOND = {"departures2": "departures2.pcap*", "fates2": "fates2.csv*", "stats2": "stats2.csv*", "path": "path.csv*"}
FILES = {
    "play": PLAYED,
    "pcapng": PLAYED,
    "shares": PLAYED,
    "chain": {**PLAYED, **SECOND},
    "verify": {name: value.rstrip("*") for name, value in PLAYED.items() if name != "stats"},
    "condition": {"config": "altq.conf", "arrivals": "arrivals.pcap", "marked": "marked.pcap*"},
}
# Their other words.
WORDS = {"play": "--seed 1", "pcapng": "--seed 1", "shares": "--seed 1", "chain": "--seed 1 --next if1", "verify": "", "condition": ""}


def block(kind, body):
    """A block of a pcapng capture."""
    body += bytes(-len(body) % 4)
    return struct.pack("<II", kind, 12 + len(body)) + body + struct.pack("<I", 12 + len(body))


def pcapng_head():
    """A section and an interface of Ethernet whose stamps are in nanoseconds."""
    interface = struct.pack("<HHI", 1, 0, 0) + struct.pack("<HHBxxx", 9, 1, 9) + struct.pack("<HH", 0, 0)
    return block(0x0A0D0D0A, struct.pack("<IHHq", 0x1A2B3C4D, 1, 0, -1)) + block(1, interface)


def pcapng_record(stamp, frame, length):
    """A packet of that interface."""
    return block(6, struct.pack("<IIIII", 0, stamp >> 32, stamp & 0xFFFFFFFF, len(frame), length) + frame)


def peak_of(child):
    """The greatest resident set of a process so far in KiB; 0 where it has ended."""
    with open(f"/proc/{child}/status", encoding="ascii") as file:
        return next((int(line.split()[1]) for line in file if line.startswith("VmHWM:")), 0)


def started(words, target=None):
    """Starts a command, whose standard output goes to the target where one is given."""
    flags = os.O_WRONLY | os.O_CREAT | os.O_TRUNC
    actions = [(os.POSIX_SPAWN_OPEN, 1, target, flags, 0o644)] if target else []
    return os.posix_spawnp(words[0], words, os.environ, file_actions=actions)


def taken(words, target=None):
    """Runs a command: its status, its seconds by the clock, and those of processor time."""
    begun = time.monotonic()
    _, status, used = os.wait4(started(words, target), 0)
    return os.waitstatus_to_exitcode(status), time.monotonic() - begun, used.ru_utime + used.ru_stime


def timed(words, target):
    """Runs a command: its status, its seconds by the clock, and its peak memory in KiB by the last of the looks that are taken every 5 ms."""
    begun, child = time.monotonic(), started(words, target)
    peak = ended = 0
    while not ended:
        peak = peak_of(child) or peak
        time.sleep(0.005)
        ended, status = os.waitpid(child, os.WNOHANG)
    return os.waitstatus_to_exitcode(status), time.monotonic() - begun, peak


def write(lines, packets, command, count, folder):
    """Writes a line's configuration and capture."""
    head, one = (pcapng_head, pcapng_record) if command == "pcapng" else (capture_head, record)
    with open(os.path.join(folder, "altq.conf"), "w", encoding="ascii") as file:
        file.write("".join(line + "\n" for line in lines()))
    with open(os.path.join(folder, "arrivals.pcap"), "wb") as file:
        file.write(head())
        for stamp, length, frame in packets(count):
            file.write(one(stamp, frame, length))


def words_of(program, command, folder):
    """The words of a command in a folder."""
    names = FILES[command].items()
    words = [word for name, value in names for word in (f"--{name}", os.path.join(folder, value.rstrip("*")))]
    return [program, "play" if command == "pcapng" else command, "--interface", "if0", *WORDS[command].split(), *words]


def left(command, folder):
    """What a command left and said."""
    found = {}
    for name in [*(value.rstrip("*") for value in FILES[command].values() if value.endswith("*")), "said"]:
        with open(os.path.join(folder, name), "rb") as file:
            found[name] = file.read()
    return found


def columns(command, found, packets):
    """How many packets were sent and dropped, where the command writes fates."""
    if "fates.csv" not in found:
        return f"{'':>18}"
    lost = found["fates.csv"].count(b",,\n")
    return f"{packets - lost:>9}{lost:>9}"


def measure(label, options, folder):
    """Runs a line, and prints what it took; whether all went well."""
    lines, packets, command = ALL[label]
    write(lines, packets, command, options.packets, folder)
    programs = [it for it in (options.program, options.reference) if it]
    runs, files, said = {it: [] for it in programs}, {}, os.path.join(folder, "said")
    if command == "verify" and taken(words_of(options.program, "play", folder), said)[0] != 0:
        print(f"{label}: the play that is verified failed")
        return False
    for _ in range(options.runs):
        for program in programs:
            runs[program].append(taken(words_of(program, command, folder), said))
            if runs[program][-1][0] != 0:
                print(f"{label}: {program} ended with status {runs[program][-1][0]}")
                return False
            files.setdefault(program, left(command, folder))
    mine = files[options.program]
    inputs = [os.path.join(folder, name) for name in map(lambda it: it.rstrip("*"), FILES[command].values()) if name.endswith(("pcap", "csv")) and "stats" not in name]
    cat = min(taken(["cat", *inputs], os.path.join(folder, "copy"))[1] for _ in range(options.runs))
    clock, busy = (min(run[place] for run in runs[options.program]) * 1e9 / options.packets for place in (1, 2))
    memory = timed(words_of(options.program, command, folder), said)[2]
    line = f"{label:<14}{columns(command, mine, options.packets)}{busy:>10.0f}{clock:>10.0f}{memory / 1024:>10.1f}{clock * options.packets / 1e9 / cat:>9.1f}"
    same = all(found == mine for found in files.values())
    if options.reference:
        other = min(run[2] for run in runs[options.reference]) * 1e9 / options.packets
        line += f"{other:>11.0f}{other / busy:>8.2f}{'' if same else '  differ'}"
    print(line, flush=True)
    return same


def parsed(words):
    parser = argparse.ArgumentParser(description="Measures the program on a capture of each kind of scheduler.")
    parser.add_argument("packets", nargs="?", type=int, default=200_000)
    parser.add_argument("--runs", type=int, default=5)
    parser.add_argument("--only", help="the lines, with commas between them")
    parser.add_argument("--slow", action="store_true", help="the lines that are made to be slow")
    parser.add_argument("--others", action="store_true", help="a line of each other command")
    parser.add_argument("--program", type=os.path.abspath, default=PROGRAM)
    parser.add_argument("--reference", type=os.path.abspath)
    options = parser.parse_args(words)
    kind = SLOW if options.slow else OTHERS if options.others else LINES
    options.labels = options.only.split(",") if options.only else [*kind]
    unknown = [label for label in options.labels if label not in ALL]
    if unknown or options.packets < 1000:
        parser.error(f"no such line: {', '.join(unknown)}" if unknown else "a capture has 1,000 packets at least")
    return options


def main(words):
    options = parsed(words)
    if not os.access(options.program, os.X_OK):
        print(f"bench.py: no program {options.program}", file=sys.stderr)
        return 1
    print(f"{options.packets} packets a capture, the least of {options.runs} runs; {os.cpu_count()} processors; nanoseconds a packet")
    more = f"{'reference':>11}{'times':>8}" if options.reference else ""
    print(f"{'':<14}{'sent':>9}{'dropped':>9}{'busy ns':>10}{'clock ns':>10}{'peak MiB':>10}{'to cat':>9}{more}", flush=True)
    folder = tempfile.mkdtemp(prefix="altqplay-bench-", dir="/dev/shm" if os.access("/dev/shm", os.W_OK) else None)
    try:
        done = [measure(label, options, folder) for label in options.labels]
    finally:
        shutil.rmtree(folder)
    return 0 if all(done) else 1


if __name__ == "__main__":
    sys.exit(main(sys.argv[1:]))

#!/usr/bin/env python3
"""Runs the gate and says what processor time it took for each crate: its proof, the proof of its tests, its second proof, and its edits.

Takes no argument, and then runs `rt ci` at the top of the repository; or the words of another command, as
`rt must-fail link_clock`. What that prints goes to bench/out/gate.log. `--beside` runs nothing: it looks on until it is
ended by SIGTERM, and then says the three dearest crates and the sum in one line, as .ci/run has it do. It looks at /proc every 2 seconds, so of each
check up to 2 seconds are missed, about one in the mean; of an edit that takes 8 that is one in eight. What builds and
runs programs is not counted, and edits that another run tries meanwhile are. It needs Linux, and is no part of any test.

The table has minutes of processor time, the dearest crate first; in brackets stands how many checks there were. A crate with
several edits is checked once more from nothing: that is `again`, and its edits, which begin with what that check kept, are `edits`.
The exit status is the command's.
"""

import os
import signal
import subprocess
import sys
import time
from collections import defaultdict

ROOT = os.path.dirname(os.path.dirname(os.path.abspath(__file__)))
LOG = os.path.join(ROOT, "bench", "out", "gate.log")
TICKS = os.sysconf("SC_CLK_TCK")
KINDS = ["proof", "tests", "again", "edits"]


def kind_of(words, folder):
    """What a check is for, if it is one of the gate. What a crate's edits begin with is kept in a folder `seed`."""
    if "rt-edit" in folder:
        kept = words[words.index("--incremental") + 1] if "--incremental" in words else ""
        return "again" if os.path.basename(kept) == "seed" else "edits"
    if not folder.startswith(ROOT + os.sep):
        return None
    return "tests" if "--test" in words else "proof"


def checks():
    """The checks that run now: of each process a key that comes once, what it checks and the seconds that it took."""
    for name in filter(str.isdigit, os.listdir("/proc")):
        try:
            with open(f"/proc/{name}/cmdline", encoding="utf-8", errors="replace") as file:
                words = file.read().split("\0")
            folder = os.readlink(f"/proc/{name}/cwd")
            with open(f"/proc/{name}/stat", encoding="utf-8", errors="replace") as file:
                numbers = file.read().rpartition(")")[2].split()
        except OSError:
            continue  # it has ended
        if os.path.basename(words[0]) != "rattle" or "--crate-name" not in words:
            continue
        key = name, numbers[19]
        kind = kind_of(words, folder)
        if kind:
            yield key, (words[words.index("--crate-name") + 1], kind), sum(map(int, numbers[11:15])) / TICKS


def watched(process):
    """The seconds of each check until a process ends."""
    found = {}
    while process.poll() is None:
        found.update((key, (what, seconds)) for key, what, seconds in checks())
        time.sleep(2)
    return found.values()


def summed(found):
    """The minutes and the number of the checks of each crate and kind, and the crates, the dearest first."""
    took, count = defaultdict(float), defaultdict(int)
    for what, seconds in found:
        took[what] += seconds / 60
        count[what] += 1
    crates = sorted({crate for crate, _ in took}, key=lambda crate: -sum(took[crate, kind] for kind in KINDS))
    return took, count, crates


def beside():
    """Looks on beside a command that another runs, until SIGTERM; then says the dearest crates."""
    found, ended = {}, []
    signal.signal(signal.SIGTERM, lambda *_: ended.append(True))
    while not ended:
        found.update((key, (what, seconds)) for key, what, seconds in checks())
        time.sleep(2)
    took, _, crates = summed(found.values())
    if crates:
        dearest = ", ".join(f"{crate} {sum(took[crate, kind] for kind in KINDS):.1f}" for crate in crates[:3])
        kinds = ", ".join(f"{kind} {sum(took[crate, kind] for crate in crates):.1f}" for kind in KINDS)
        print(f"processor-minutes of checks: {sum(took.values()):.1f} ({kinds}); the dearest: {dearest}")


def main(words):
    os.makedirs(os.path.dirname(LOG), exist_ok=True)
    began = time.time()
    with open(LOG, "w", encoding="utf-8") as log:
        process = subprocess.Popen(words or ["rt", "ci"], cwd=ROOT, stdout=log, stderr=subprocess.STDOUT)
        took, count, crates = summed(watched(process))
    for crate in crates:
        print(f"{crate:18}" + "".join(f"{kind:>8} {took[crate, kind]:6.1f} ({count[crate, kind]})" for kind in KINDS))
    sums = [sum(took[crate, kind] for crate in crates) for kind in KINDS]
    print(f"{'all':18}" + "".join(f"{kind:>8} {total:6.1f}" for kind, total in zip(KINDS, sums)) + f"   together {sum(sums):.1f}")
    print(f"{(time.time() - began) / 60:.1f} minutes by the clock")
    return process.returncode


if __name__ == "__main__":
    sys.exit(beside() if sys.argv[1:] == ["--beside"] else main(sys.argv[1:]))

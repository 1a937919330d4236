"""Runs the program: finds it, asks `check`, plays a capture into a folder."""

import functools
import os
import shutil
import subprocess
import sys
import tempfile
from collections import namedtuple

from .faults import Missing, refusal

HERE = os.path.dirname(os.path.abspath(__file__))
TOP = os.path.dirname(os.path.dirname(HERE))  # where Python finds this package
RULE = os.path.join(os.path.dirname(TOP), "release", "program")  # of the repository: prints the path of its program
# Where a package has it: a wheel, and what is unpacked below a folder that has bin/ and share/.
PACKED = [os.path.join(TOP, "altqplay", "bin", "altqplay"), os.path.join(os.path.dirname(os.path.dirname(TOP)), "bin", "altqplay")]

# The files of a play.
Played = namedtuple("Played", "departures fates stats")


@functools.lru_cache
def of_repository():
    """The path of the repository's program, empty where there is none, or where this is a package."""
    if not os.access(RULE, os.X_OK):
        return ""
    return os.fsdecode(subprocess.run([RULE], stdout=subprocess.PIPE, stderr=subprocess.DEVNULL, check=False).stdout).strip()


def program(named=None):
    """The program's path: as named, else of ALTQPLAY, else of this repository or package, else on the path. `Missing` where there is none."""
    asked = named or os.environ.get("ALTQPLAY")
    if asked:
        found = shutil.which(asked)
        if found is None:
            raise Missing(f"no program {asked}")
        return found
    found = of_repository() or next((path for path in PACKED if os.access(path, os.X_OK)), None) or shutil.which("altqplay")
    if not found:
        advice = "example/run --build proves and builds it" if os.access(RULE, os.X_OK) else "install it"
        raise Missing(f"altqplay is not there: {advice}, or name it with --program")
    return found


def execute():
    """Becomes the program that is in the wheel, with the words of this process: the wheel's command `altqplay`."""
    os.execv(PACKED[0], ["altqplay", *sys.argv[1:]])


def usage():
    """How the program is called, as it says itself on standard error; empty where it is not there."""
    try:
        done = subprocess.run([program(), "--help"], stdout=subprocess.DEVNULL, stderr=subprocess.PIPE, stdin=subprocess.DEVNULL, check=False)
    except (Missing, OSError):
        return ""
    return done.stderr.decode("ascii", "replace")


def answer(named, words):
    """What the program says to some words. `Refused` with what it said where its status is not 0."""
    done = subprocess.run([program(named), *words], stdout=subprocess.PIPE, stderr=subprocess.PIPE, stdin=subprocess.DEVNULL, check=False)
    said = done.stdout.decode("ascii", "replace")
    if done.returncode != 0:
        hint = done.stderr.decode("ascii", "replace")
        raise refusal(done.returncode, said, hint, f"altqplay {words[0]}: status {done.returncode}: {(said + hint).strip()}")
    return said


def check(config, interface, named=None):
    """The lines of `altqplay check`: the canonical text, and whether the curves fit."""
    return answer(named, ["check", "--config", config, "--interface", interface]).splitlines()


def bounds(config, interface, longest, burst, named=None):
    """What `altqplay bound` says of each leaf: the most nanoseconds from a packet's arrival to its end, or None."""
    said = answer(named, ["bound", "--config", config, "--interface", interface, "--longest", str(longest), "--burst", str(burst)])
    return {words[0]: int(words[-1]) if words[-1] != "none" else None for words in map(str.split, said.splitlines())}


def play(config, interface, arrivals, folder, seed=42, named=None):
    """Plays a capture that the program reads; answers its files, departures.pcap, fates.csv and stats.csv of the folder, which come
    there when all of them are whole."""
    os.makedirs(folder, exist_ok=True)
    names = ("departures.pcap", "fates.csv", "stats.csv")
    files = Played(*(os.path.join(folder, name) for name in names))
    with tempfile.TemporaryDirectory(prefix=".play-", dir=folder) as room:
        made = Played(*(os.path.join(room, name) for name in names))
        answer(named, ["play", "--config", config, "--interface", interface, "--arrivals", arrivals, "--departures", made.departures,
                       "--fates", made.fates, "--stats", made.stats, "--seed", str(seed)])
        for one, name in zip(made, files):
            os.replace(one, name)
    return files


def add_program(parser):
    """The words that say what is played by what."""
    parser.add_argument("--interface", metavar="NAME", default=None, help="the interface; not needed where the configuration has one")
    parser.add_argument("--program", metavar="FILE", help="the program; else that of ALTQPLAY, of this repository, or on the path")

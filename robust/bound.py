#!/usr/bin/env python3
"""Plays random configurations and captures, and holds the delay of each class with a real-time curve to its bound.

    bound.py [SEED [PLAYS]] [--quick] [--first NUMBER] [--only NUMBER] [--keep FOLDER] [--program PROGRAM]

The cases follow from SEED and their numbers, PLAYS of them (1,000 without the word) from 0 or from --first on, of SEED 1 where none is said:
trees of HFSC whose real-time curves fit the link, classes that send bursts of all sizes, limits, RED, conditioners, and packets of the others that
hold the link. Of each class with a real-time curve the least burst for its second slope, and for a lesser rate, is reckoned over all stretches
of its packets, as the definition has it, and must be what `altqwork bound` measures; so must the bound be. No packet of it may take longer than
that. The nearest ratio of a delay to its bound is said, and the play it is of. --quick is 20 plays of a fixed seed, which the gate runs. --keep leaves
the files of the plays in a folder. The exit status is 0 where each bound is kept, 1 where one is not, 2 for other words.
"""

import argparse
import os
import random
import shutil
import subprocess
import sys
import tempfile
from fractions import Fraction

sys.dont_write_bytecode = True
sys.path.insert(0, os.path.join(os.path.dirname(os.path.dirname(os.path.abspath(__file__))), "python"))

from altqplay.workbench import libraries  # noqa: E402
from altqplay.workbench.conf import read_conf  # noqa: E402
from altqplay.workbench.play import play  # noqa: E402
from altqplay.workbench.rows import fate_rows  # noqa: E402
from program import PROGRAM, prepare, store  # noqa: E402
from transcript import Case  # noqa: E402

QUICK = ("7", 20)
BYTE = 8 * 10**9  # units
MILLISECOND = 10**6
NAMES = {"config": "c.conf", "arrivals": "a.pcap"}


def curve(rng, rate):
    """A curve (m1, d in milliseconds, m2) of a link's rate: one that falls, one that rises from 0, or a line."""
    slow, fast = sorted(max(1, rate * rng.randrange(1, 1000) // 1000) for _ in range(2))
    return rng.choice([(fast, rng.choice((1, 3, 10)), slow), (0, rng.choice((1, 2, 8)), fast), (fast, 0, fast)])


def at(one, time):
    """The units that a curve gives by a moment."""
    m1, d, m2 = one
    return m1 * min(time, d * MILLISECOND) + m2 * max(time - d * MILLISECOND, 0)


def fitting(rng, rate, count):
    """Real-time curves of some leaves, made less until they fit the link; at times so that they just do."""
    curves = [curve(rng, rate) for _ in range(count)]
    while True:
        moments = [d * MILLISECOND for _m1, d, _m2 in curves]
        sums = [(sum(at(one, time) for one in curves), rate * time) for time in moments if time] + [(sum(one[2] for one in curves), rate)]
        over = max([Fraction(total, most) for total, most in sums], default=Fraction(0))
        if over <= 1:
            return curves
        curves = [(m1 * over.denominator // over.numerator, d, max(1, m2 * over.denominator // over.numerator)) for m1, d, m2 in curves]


def statements(rng):
    """The lines of an interface, its rate, and the number of its leaves."""
    rate, count = rng.choice((1_000_000, 3_000_000, 8_000_000)), rng.choice((1, 2, 2, 3, 5))
    curves = fitting(rng, rate, max(1, count - rng.randrange(2)))
    lines = [f"interface if0 bandwidth {rate} hfsc", "class hfsc if0 root NULL pshare 100", "class hfsc if0 inner root pshare 50"]
    for place in range(count):
        real = " rt {} {} {}".format(*curves[place]) if place < len(curves) else ""
        limit = f" ul {rng.choice((1, 2))}M 0 {rng.choice((1, 2))}M" if rng.random() < 0.2 else ""
        queue = rng.choice(("", "", " red", " ecn")) + f" qlimit {rng.choice((2, 20, 300))}"
        lines.append(f"class hfsc if0 c{place} {rng.choice(('root', 'inner'))} pshare {rng.randrange(1, 60)}{real}{limit}{queue}{' default' if place == count - 1 else ''}")
    if not any(" inner " in line for line in lines[3:]):
        del lines[2]
    lines += [f"filter if0 c{place} 0 {5000 + place} 0 0 17" for place in range(count)]
    if rng.random() < 0.2:
        lines.append(f"conditioner if0 c0 srtcm {rate // 2} 3000 3000 1")
    return lines, rate, count


def packets(rng, rate, count):
    """What comes: classes that all send at once, ones that go on at a rate, and ones that come just as a long packet began."""
    moment, longest = 0, rng.choice((1000, 1500, 9000))
    for _ in range(rng.choice((1, 3, 10, 25))):
        one = longest * BYTE // rate
        moment += rng.choice((0, 1, 1, one, rng.randrange(3 * one), rng.randrange(60_000_000)))
        heads = f" udp 10.0.0.1:1027 > 10.0.0.2:{5000 + rng.randrange(count)}"
        yield f"{moment} {rng.choice((64, 200, longest, longest, rng.randrange(60, longest + 1)))}{heads} times {rng.choice((1, 1, 2, 6, 20))}"


def draw(rng, folder):
    """Writes a configuration and a capture."""
    case = Case("-")
    lines, rate, count = statements(rng)
    for line in [*("    " + line for line in lines), *packets(rng, rate, count)]:
        case.follow(line)
    store(os.path.join(folder, NAMES["config"]), case.config.encode())
    store(os.path.join(folder, NAMES["arrivals"]), bytes(case.capture))


def burst_of(fates, rate):
    """The least burst over all stretches of some packets, in bytes."""
    most = 0
    for first, one in enumerate(fates):
        total = 0
        for last in fates[first:]:
            total += last.length * BYTE
            most = max(most, total - rate * (last.arrival - one.arrival))
    return max(1, -(-most // BYTE))


def limit_of(one, rate, longest, burst):
    """The bound, by the first moment at which the curve gives the burst, sought by halving."""
    low, high = -1, 1
    while at(one, high) < burst * BYTE:
        low, high = high, 2 * high
    while high - low > 1:
        middle = (low + high) // 2
        low, high = (low, middle) if at(one, middle) >= burst * BYTE else (middle, high)
    return high - (-longest * BYTE // rate)


def fault_of(options, folder):
    """What is wrong with a case, or None, and the ratio of each delay to its bound."""
    from altqplay.workbench.bound import Measured
    from altqplay.workbench.rows import read_fates

    interface = read_conf(os.path.join(folder, NAMES["config"]), "if0", options.program)
    if interface.fit != "fits":
        return f"the curves do not fit: {interface.fit}", []
    name = play(*(os.path.join(folder, NAMES[what]) if what in NAMES else "if0" for what in ("config", "interface", "arrivals")), folder, 42, options.program).fates
    fates, measured, ratios = sorted(fate_rows(name), key=lambda fate: fate.number), Measured(interface, [read_fates(name)], os.path.join(folder, NAMES["config"]), options.program), []
    longest = max((fate.length for fate in fates), default=0)
    for of in interface.classes:
        own, curve_of = [fate for fate in fates if fate.name == of], interface.promised(of)
        if curve_of is None or curve_of.m2 == 0 or not own:
            continue
        one = (curve_of.m1, curve_of.d // MILLISECOND, curve_of.m2)
        for rate in (None, max(1, curve_of.m2 * 2 // 3)):
            row, burst = measured.row(of, rate), burst_of(own, rate or curve_of.m2)
            limit = limit_of(one, interface.bandwidth, longest, burst)
            if (row.burst, row.bound) != (burst, limit):
                return f"{of} has burst {burst} and bound {limit}, and by the workbench and the program {row.burst} and {row.bound}", []
            delays = [fate.end - fate.arrival for fate in own if fate.end is not None]
            ratios += [Fraction(max(delays), limit)] if delays else []
            if delays and max(delays) > limit:
                return f"{of} takes {max(delays)}, and its bound is {limit}", ratios
    return None, ratios


def another_python():
    """A Python that sees numpy where this one does not, as python/altqwork seeks it, or None."""
    venv = os.environ.get("ALTQWORK_VENV") or os.path.join(os.environ.get("XDG_CACHE_HOME") or os.path.expanduser("~/.cache"), "altqplay", "venv")
    for python in (os.environ.get("ALTQWORK_PYTHON"), os.path.join(venv, "bin", "python3"), "/usr/bin/python3"):
        if python and os.access(python, os.X_OK) and subprocess.run([python, libraries.__file__, "numpy"], stdout=subprocess.DEVNULL, check=False).returncode == 0:
            return python
    return None


def options_of(words):
    """The options of the words of this script."""
    parser = argparse.ArgumentParser(description="Plays random configurations and captures, and holds delays to their bounds.")
    parser.add_argument("seed", nargs="?", default="1")
    parser.add_argument("plays", nargs="?", type=int, default=1000)
    parser.add_argument("--quick", action="store_true")
    parser.add_argument("--first", type=int, default=0, metavar="NUMBER")
    parser.add_argument("--only", type=int, metavar="NUMBER")
    parser.add_argument("--keep", type=os.path.abspath, metavar="FOLDER")
    parser.add_argument("--program", type=os.path.abspath, default=PROGRAM)
    options = parser.parse_args(words)
    if options.quick:
        options.seed, options.plays = QUICK
    return options


def main(words):
    options = options_of(words)
    if not os.access(options.program, os.X_OK):
        print(f"bound.py: no program {options.program}", file=sys.stderr)
        return 1
    if libraries.missing(["numpy"]):
        python = another_python()
        if python is None:
            print("bound.py: passed over: it needs numpy")
            return 0
        os.execv(python, [python, "-B", os.path.abspath(__file__), *words])
    prepare()
    numbers = range(options.first, options.first + options.plays) if options.only is None else [options.only]
    held, differing, nearest = 0, 0, (Fraction(0), None)
    for number in numbers:
        with tempfile.TemporaryDirectory(prefix="altqplay-bound-") as folder:
            draw(random.Random(f"{options.seed} {number}"), folder)
            fault, ratios = fault_of(options, folder)
            if options.keep:
                shutil.copytree(folder, os.path.join(options.keep, str(number)), dirs_exist_ok=True)
        held += len(ratios)
        nearest = max([nearest, *((ratio, number) for ratio in ratios)], key=lambda one: one[0])
        if fault is not None:
            differing += 1
            print(f"play {number}: {fault}", flush=True)
    print(f"{len(numbers)} plays of seed {options.seed}, {held} bounds, {differing} differ; the nearest delay is {float(nearest[0]):.6f} of its bound, in play {nearest[1]}")
    return 1 if differing else 0


if __name__ == "__main__":
    sys.exit(main(sys.argv[1:]))

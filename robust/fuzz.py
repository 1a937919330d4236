#!/usr/bin/env python3
"""Runs the built program on random and changed configurations, captures and words, and judges how each run ends.

    fuzz.py SEED [RUNS] [--valgrind COUNT] [--reference PROGRAM] [--once] [--first NUMBER] [--only NUMBER] [--keep FOLDER] [--program PROGRAM]

No part of any test: it takes minutes. The cases follow from SEED and their numbers, RUNS of them (1000 without the word)
from 0 or from --first on, so a run of this script repeats. Each case is run twice in a new folder, or once with --once, and

  - ends within a second of processor time, and one more for each megabyte of its files, by no signal,
  - with a status and a message of docs/reference/MANUAL.md, and nothing on standard error,
  - the same both times: status, standard output and every file,
  - and its files are as judge.py says: nothing is created before the configuration is accepted, fates are whole rows that
    agree with the capture, departures are the packets of the fates, damages are named at their bytes.

COUNT of the cases, evenly spread, are run once more under valgrind, which must find no fault and let the case end alike.
With --reference each case is run by another program of the same command line, too, and status, standard output and all
files are compared byte for byte; but for cases with a word that is no UTF-8, of which this program says nothing.

With --only the one case of this number is run; --keep leaves its files in a folder, and prints its words. An interrupt ends
the script with the counts of what was run so far. The exit status is 0 where nothing was found, 1 where something was, 2 for
other words. What was found is printed, a line each.
"""

import argparse
import contextlib
import os
import shlex
import shutil
import signal
import sys
import tempfile
from collections import Counter

sys.dont_write_bytecode = True

from cases import case  # noqa: E402
from judge import wrong  # noqa: E402
from program import PROGRAM, Late, content, kind_of, prepare, run, store  # noqa: E402

VALGRIND = ["valgrind", "--quiet", "--error-exitcode=99", "--log-file=/dev/null"]
AT_MOST = 1200  # seconds by the clock, after which a run is ended


def laid(folder, files):
    """Makes a new folder of these files."""
    shutil.rmtree(folder, ignore_errors=True)
    os.mkdir(folder)
    for name, data in files.items():
        store(os.path.join(os.fsencode(folder), name), data)


def found_in(folder):
    """The files of a folder, by their names."""
    return {name: content(os.path.join(os.fsencode(folder), name)) for name in os.listdir(os.fsencode(folder))}


def ending(given, folder, command):
    """Runs a case by a command: how it ended, and the files that stand there then."""
    laid(folder, given.files)
    ended = run([*command, *given.words], folder, AT_MOST)
    return ended, found_in(folder)


def is_same(one, other):
    """Whether two runs of a case ended alike, whatever time they took."""
    return one[0][:2] == other[0][:2] and one[1] == other[1]


def judged(given, folder, options, with_valgrind):
    """How a case ends, and what is wrong with it, or None."""
    first = ending(given, folder, [options.program])
    fault = wrong(given.words, given.files, first[1], first[0], given.is_text)
    allowed = 1 + sum(len(data) for data in given.files.values()) / 1e6
    if fault is None and first[0].seconds > allowed:
        fault = f"it took {first[0].seconds:.2f} s of processor time"
    if fault is None and not options.once and not is_same(first, ending(given, folder, [options.program])):
        fault = "it ended otherwise when it was run again"
    if fault is None and with_valgrind and not is_same(first, ending(given, folder, [*VALGRIND, options.program])):
        fault = "under valgrind it ended otherwise, or valgrind found a fault"
    if fault is None and options.reference and given.is_text:
        other = ending(given, folder, [options.reference])
        fault = None if is_same(first, other) else f"the reference ended otherwise, with status {other[0].status} {other[0].said[-60:]!r}"
    return first[0], fault


def is_for_valgrind(number, options):
    """Whether the case of this number is one of those, evenly spread, that are run under valgrind."""
    place = number - options.first
    return place * options.valgrind // options.runs != (place + 1) * options.valgrind // options.runs


def keep(given, options):
    """Leaves the files of a case in a folder, and prints its words."""
    laid(options.keep, given.files)
    print(options.program, *(shlex.quote(word.decode(errors="backslashreplace")) for word in given.words))


def tried(number, folder, options):
    """Runs the case of a number: a few words on how it ended, and whether something was found, which it prints."""
    given = case(options.seed, number)
    if options.keep:
        keep(given, options)
    try:
        ended, fault = judged(given, folder, options, is_for_valgrind(number, options) or (options.only is not None and options.valgrind > 0))
    except Late:
        ended, fault = None, "it did not end"
    if fault is not None:
        print(f"case {number}: {fault}" + (f" (status {ended.status}, {ended.said[-60:]!r})" if ended else ""), flush=True)
    return kind_of(ended) if ended else "none", fault is not None


def options_of(words):
    """The options of the words of this script."""
    parser = argparse.ArgumentParser(description="Runs the built program on random and changed input.")
    parser.add_argument("seed")
    parser.add_argument("runs", nargs="?", type=int, default=1000)
    parser.add_argument("--valgrind", type=int, default=0, metavar="COUNT")
    parser.add_argument("--reference", type=os.path.abspath, metavar="PROGRAM")
    parser.add_argument("--once", action="store_true")
    parser.add_argument("--first", type=int, default=0, metavar="NUMBER")
    parser.add_argument("--only", type=int, metavar="NUMBER")
    parser.add_argument("--keep", type=os.path.abspath, metavar="FOLDER")
    parser.add_argument("--program", type=os.path.abspath, default=PROGRAM)
    options = parser.parse_args(words)
    if options.keep and options.only is None:
        parser.error("--keep wants --only")
    return options


def main(words):
    options = options_of(words)
    if not os.access(options.program, os.X_OK):
        print(f"fuzz.py: no program {options.program}", file=sys.stderr)
        return 1
    if options.valgrind:
        VALGRIND[0] = shutil.which("valgrind") or sys.exit("fuzz.py: valgrind was not found on this machine")
    prepare()
    numbers = range(options.first, options.first + options.runs) if options.only is None else [options.only]
    results = []
    signal.signal(signal.SIGTERM, signal.default_int_handler)
    with tempfile.TemporaryDirectory(prefix="altqplay-fuzz-") as top, contextlib.suppress(KeyboardInterrupt):
        for number in numbers:
            results.append(tried(number, os.path.join(top, "case"), options))
    for what, count in sorted(Counter(what for what, _ in results).items()):
        print(f"{count:>8}  status {what}")
    bad = sum(is_bad for _, is_bad in results)
    print(f"{len(results)} cases of seed {options.seed}, {bad} with something found")
    return 1 if bad else 0


if __name__ == "__main__":
    sys.exit(main(sys.argv[1:]))

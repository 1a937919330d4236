"""Tests the fates of any program against a configuration and the arrivals: could a link have done this? Each row that fails is named,
with what was found, what was expected, and why.

    altqwork verify --config altq.conf --arrivals arrivals.pcap fates.csv
    altqwork verify --config altq.conf --arrivals arrivals.pcap --departures theirs.pcap --foreign theirs.csv

It makes the tests of `altqplay verify` by plain Python, and one that the program does not make: whether a packet that is `full` found a
full queue. Which class is picked is not tested. The rows stand in the order of decision; --departures is the capture of what left. The
program is asked too, and what it says stands last: its answer is the proved one.

--foreign takes rows of another program that say the same in another way, and departures in microseconds; without it each such way is
named. The exit status is 0 where nothing fails, 1 where something does, and 2 where a file cannot be read.
"""

from __future__ import annotations

import csv
from argparse import ArgumentParser, Namespace
from typing import TYPE_CHECKING

from .conf import interface_named
from .foreign import add_foreign
from .play import add_program
from .written import new_file

if TYPE_CHECKING:
    from ..verifying import Verified

NAME = "verify"
HELP = "every row of given fates that no link could have produced, and why"
SHOWN = 10


def add_arguments(parser: ArgumentParser) -> None:
    parser.add_argument("--config", required=True, metavar="FILE", help="the configuration")
    parser.add_argument("--arrivals", required=True, metavar="FILE", help="the capture of the arrivals")
    parser.add_argument("--departures", metavar="FILE", help="the capture of what left, which is tested too")
    parser.add_argument("--shown", type=int, default=SHOWN, metavar="N", help=f"prints so many failures, {SHOWN} without it")
    parser.add_argument("--rows", metavar="FILE", help="writes all failures as comma-separated values")
    add_program(parser)
    add_foreign(parser, True)
    parser.add_argument("fates", metavar="FATES", help="the fates, in the order of decision")


def told(found: Verified, shown: int) -> str:
    """What was found, with the words of this command in place of those of the package."""
    return "\n".join(found.lines(shown)).replace("each_rounded=True", "--each-rounded").replace("foreign=True", "--foreign")


def run(args: Namespace) -> int:
    from ..verifying import verify

    found = verify(args.config, args.arrivals, args.fates, args.departures, foreign=args.foreign, each_rounded=args.each_rounded,
                   interface=interface_named(args.config, args.interface), program=args.program)
    print(f"{args.fates}: {told(found, args.shown)}")
    print("the program: " + found.said.replace("given.csv", args.fates) if found.said else "the program was not asked: an end is of no capture")
    if args.rows:
        with new_file(args.rows, "w", newline="", encoding="utf-8") as file:
            csv.writer(file, lineterminator="\n").writerows([found.columns, *found.failures])
    return 0 if found else 1

"""Says for each class what two links in a row make of its packets: drops on each link, and delays over both.

    altqwork path path.csv fates.csv

It takes the path that `altqplay chain` wrote and the fates of its first link, which tell the class of each packet. For each class
there is a line: its packets, those that the first link dropped, those that the second did, those that were sent on both, and of
these the delays.

The delay of a packet that was sent is its end on the second link minus its arrival on the first. `median` is the delay that half
of the packets do not pass, `95 in 100` and `99 in 100` those which 95 and 99 of a hundred do not pass: of n delays in rising
order the one at n/2, 95n/100 or 99n/100, rounded up. With --config the classes stand in the configuration's order, else in that
in which packets of them came. The exit status is 0, and 2 where the files are not the path and the fates of one chain.
"""

from __future__ import annotations

from argparse import ArgumentParser, Namespace
from typing import TYPE_CHECKING

from .conf import read_conf
from .delays import ranks
from .faults import Refused
from .play import add_program
from .rows import OUTCOMES, place
from .texts import Times, add_times, aligned

if TYPE_CHECKING:
    import numpy

    from .columns import Fates, Paths

NAME = "path"
HELP = "what two links in a row make of each class: drops on each, delays over both"
DELAYS = ("least", "median", "95 in 100", "99 in 100", "greatest")
PARTS = (0, 50, 95, 99, 100)


def add_arguments(parser: ArgumentParser) -> None:
    parser.add_argument("--config", metavar="FILE", help="the configuration of the chain, in whose order the classes stand")
    add_program(parser)
    add_times(parser)
    parser.add_argument("path", help="the path of a chain")
    parser.add_argument("fates", help="the fates of its first link")


def beside(paths: Paths, fates: Fates) -> numpy.ndarray:
    """For each path the place of its packet's fate on the first link. `Refused` where they are not those of one chain."""
    import numpy

    falls = numpy.flatnonzero(numpy.diff(paths.number, prepend=-1) <= 0)
    order = numpy.argsort(fates.number, kind="stable")
    at = numpy.minimum(numpy.searchsorted(fates.number[order], paths.number), max(len(fates) - 1, 0))
    places = order[at] if len(fates) else at - 1
    lacks = (fates.number[places] != paths.number) if len(fates) else paths.number >= 0
    end, is_dropped = fates.end[places], paths.outcome_is("dropped1")
    wrong = lacks | (fates.arrival[places] != paths.arrival) | (is_dropped != (end < 0)) | (paths.end >= 0) & (paths.end < end)
    first = min([int(rows[0]) for rows in (falls, numpy.flatnonzero(wrong)) if len(rows)], default=None)
    if first is not None:
        raise Refused(f"{paths.name}: {place(first + 2)}: packet {paths.number[first]} {fault(paths, fates, first, None if lacks[first] else int(places[first]))}")
    if len(paths) < len(fates):
        raise Refused(f"{paths.name}: packet {numpy.setdiff1d(fates.number, paths.number)[0]} has a fate and no row")
    return places


def fault(paths: Paths, fates: Fates, row: int, own: int | None) -> str:
    """Why a path is not that of a packet with a fate at a place of the first link's."""
    if row and paths.number[row] <= paths.number[row - 1]:
        return f"comes after packet {paths.number[row - 1]}: the numbers do not rise"
    if own is None:
        return "has no fate"
    if paths.arrival[row] != fates.arrival[own]:
        return f"arrives at {paths.arrival[row]}, and by its fate at {fates.arrival[own]}"
    if (paths.outcomes[paths.of_outcome[row]] == "dropped1") != (fates.end[own] < 0):
        return f"is {paths.outcomes[paths.of_outcome[row]]}, and its fate is {fates.fates[fates.of_fate[own]]}"
    return f"ends before it left the first link at {fates.end[own]}"


def class_rows(paths: Paths, fates: Fates, known: list[str], times: Times) -> list[list[str]]:
    """The rows of the table: a head, and one for each class."""
    import numpy

    of = fates.of_class[beside(paths, fates)]
    came = {fates.classes[code]: int(first) for code, first in zip(*numpy.unique(of, return_index=True))}
    names = sorted(came, key=lambda name: (known.index(name) if name in known else len(known), came[name]))
    rows = [[f"times in {times.unit}", "packets", *OUTCOMES, *DELAYS]]
    for name in names:
        own = of == fates.classes.index(name)
        outcomes = [int((own & paths.outcome_is(outcome)).sum()) for outcome in OUTCOMES]
        sent = own & (paths.end >= 0)
        numbers = ranks(paths.end[sent] - paths.arrival[sent], PARTS)
        rows.append([name, str(int(own.sum())), *map(str, outcomes), *(times.number(number) for number in numbers)])
    return rows


def run(args: Namespace) -> int:
    from .columns import read, read_paths

    known = list(read_conf(args.config, args.interface, args.program).classes) if args.config else []
    print("\n".join(aligned(class_rows(read_paths(args.path), read(args.fates), known, Times(args.ns)))))
    return 0

"""Says for each class what two plays of the same arrivals make of its packets: drops and delays, and what changed.

    altqwork delays before.csv after.csv
    altqwork delays --config altq.conf before.csv after.csv

It takes the fates of both plays, say before and after a change of a rate. For each class there is a line for each play,
and a third one on what changed for the packets that are of the class in either play. With --config the classes stand in the
configuration's order, else in the order in which packets of them came.

The delay of a packet that was sent is its end minus its arrival. `median` is the delay that half of the packets do not pass,
`99 in 100` that which 99 of a hundred do not pass: of n delays in rising order the one at n/2 or 99n/100, rounded up. The
exit status is 0 where nothing changed, 1 where something did, and 2 where the files are no fates of the same arrivals.
"""

from __future__ import annotations

from argparse import ArgumentParser, Namespace
from typing import TYPE_CHECKING, Optional

from .conf import read_conf
from .faults import Refused
from .foreign import add_foreign
from .play import add_program
from .texts import Times, add_times, aligned

if TYPE_CHECKING:
    import numpy

    from .numbered import Numbered

NAME = "delays"
HELP = "what two plays make of each class: drops, delays and what changed"
HEAD = ["packets", "dropped", "least", "median", "99 in 100", "greatest"]
RANKS = (0, 50, 99, 100)  # of a hundred delays; 0 is the least


def add_arguments(parser: ArgumentParser) -> None:
    parser.add_argument("--config", metavar="FILE", help="a configuration of the plays, in whose order the classes stand")
    add_program(parser)
    add_foreign(parser)
    add_times(parser)
    parser.add_argument("first", help="fates")
    parser.add_argument("second", help="fates of the same arrivals")


def same_arrivals(first: Numbered, second: Numbered) -> None:
    """Refuses two plays that are not of the same arrivals."""
    odd = first.alone(second)
    if odd is not None:
        raise Refused(f"packet {odd} stands in one file alone: not the same arrivals, or a play that was cut off")
    odd = first.otherwise(second)
    if odd is not None:
        raise Refused(f"packet {odd} has another arrival or length in the second file")


def line(label: str, play: Numbered, own: numpy.ndarray, times: Times) -> list[str]:
    """What a play makes of some packets: a row of the table."""
    delays = play.delays(own)
    return [f"  {label}", str(len(own)), str(len(own) - len(delays)), *(times.number(value) for value in ranks(delays))]


def ranks(values: numpy.ndarray, parts: tuple[int, ...] = RANKS) -> list[Optional[int]]:
    """Of some delays those that so many of a hundred do not pass; None each where there is no delay."""
    if not len(values):
        return [None] * len(parts)
    places = [max(-(-part * len(values) // 100) - 1, 0) for part in parts]
    values = values.copy()
    values.partition(sorted(set(places)))
    return [int(values[place]) for place in places]


def changes(first: Numbered, second: Numbered, own: numpy.ndarray, times: Times) -> tuple[str, int]:
    """What changed for some packets, and how many did."""
    was, now = first.is_sent[own], second.is_sent[own]
    moved, lost, won = (int(found.sum()) for found in (first.names[first.of[own]] != second.names[second.of[own]], was & ~now, now & ~was))
    both = own[was & now]
    steps = second.end[both] - first.end[both]
    sooner, later = steps[steps < 0], steps[steps > 0]
    told = [f"{lost} dropped now, {won} sent now"] + ([f"{moved} of another class"] if moved else [])
    told += [f"{len(sooner)} sooner" + (f" by up to {times.text(-int(sooner.min()))}" if len(sooner) else "")]
    told += [f"{len(later)} later" + (f" by up to {times.text(int(later.max()))}" if len(later) else "")]
    return "  changed: " + ", ".join(told), moved + lost + won + len(sooner) + len(later)


def class_rows(first: Numbered, second: Numbered, names: list[str], times: Times) -> tuple[list[list[str]], int]:
    """The rows of the table by class, and how many packets changed."""
    rows, changed = [[f"times in {times.unit}", *HEAD]], 0
    for name in names:
        told, count = changes(first, second, first.of_either(second, name), times)
        rows += [[name], line("first", first, first.class_is(name), times), line("second", second, second.class_is(name), times), [told]]
        changed += count
    return rows, changed


def run(args: Namespace) -> int:
    from .numbered import Numbered, classes_of
    from .rows import read_fates

    known = read_conf(args.config, args.interface, args.program).classes if args.config else ()
    first, second = (Numbered.of_fates(read_fates(name, args.foreign)) for name in (args.first, args.second))
    same_arrivals(first, second)
    rows, changed = class_rows(first, second, classes_of(first, second, known), Times(args.ns))
    print("\n".join(aligned(rows)))
    return 1 if changed else 0

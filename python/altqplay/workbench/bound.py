"""How long a packet of each class takes at most, whatever the other classes send, by what a capture shows of the class.

    altqwork bound today.conf monday.pcap
    altqwork bound today.conf --class voice --rate 100K --rate 400K --picture burst.svg monday.pcap
    altqwork bound today.conf --class voice --target 10ms monday.pcap

A class conforms to a rate and a burst where in no stretch of its packets more comes than the burst and what the rate carries from
the first of them to the last. For each class this measures the least burst in bytes with which the packets that the play is offered
conform to the second slope of its real-time curve, and to each --rate. By these, by the curve and by the longest packet of the interface
there is a bound on the time from a packet's arrival to its end (docs/teaching/BOUND.md has the theorem, which is proved). It holds in
every capture in which the class conforms to that rate and burst, and no packet is longer, whatever else comes. `none` says why there is
none. The greatest delay of the play stands beside it. Captures may be of any kind; of several each is played by itself, and of all
the greatest counts.

--picture draws the least burst over the rate as SVG, from the class's mean rate or a lesser --rate on, and --reasons draws the curve, the burst and the
bound. --target says the least curve for which the bound is below a time and the curves fit the link: the least m2, then m1, then d. With
--rate its m2 is at least the greatest of these; a class goes on at its mean rate, so an m2 below that is told. Rates go in steps of
the link's rate by 1,000 or less, d in milliseconds; `check` has the last word on whether the curves fit.

The exit status is 0; 1 where no curve keeps the target, or a packet of the play took longer than its bound.
"""

from __future__ import annotations

import argparse
import os
import re
import tempfile
from argparse import ArgumentParser, Namespace
from dataclasses import dataclass
from fractions import Fraction
from typing import NamedTuple, Optional, Sequence

import numpy

from . import bound_picture, operator_inputs
from .bound_target import Least, Link, Search
from .columns import Fates
from .conf import Curve, Interface, interface_named, read_conf
from .conforming import least_burst, mean_rate, neediest
from .delay_bound import bound, why_none
from .faults import Refused
from .play import add_program, bounds, play
from .rows import read_fates
from .rules.units import time_of
from .sweep import changed
from .texts import Times, add_times, aligned
from .wants import UNITS
from .written import new_file

NAME = "bound"
HELP = "how long a packet of each class takes at most, whatever the others send"
DRAWN = 200  # rates of the picture
MOST_PACKETS = 500  # of a picture
MOST_BURST = 2**30  # bytes, of which the program says a bound


class Offered(NamedTuple):
    """What a play is offered of a class, in the order of the packets: arrivals and lengths; and the greatest delay of those sent."""

    arrival: numpy.ndarray
    length: numpy.ndarray
    greatest: Optional[int]


@dataclass(frozen=True)
class Row:
    """A class at a rate: how many packets came, the least burst in bytes, the bound in nanoseconds, the greatest delay of the play, and
    why there is no bound. What is not known is None, or empty."""

    of: str
    packets: int
    rate: Optional[int]
    burst: Optional[int]
    bound: Optional[int]
    greatest: Optional[int]
    reason: str = ""


def number_of(text: str, units: str) -> Fraction:
    """A number with a unit: of `delay` a time in nanoseconds, of `rate` bits per second."""
    match = re.fullmatch(r"(\d+(?:\.\d+)?)([A-Za-z]*)", text)
    if match is None or match[2] not in UNITS[units]:
        raise argparse.ArgumentTypeError(f"{text!r} is no number with one of {', '.join(unit or 'no unit' for unit in UNITS[units])}")
    return Fraction(match[1]) * UNITS[units][match[2]]


def rate_of(text: str) -> int:
    """A rate in whole bits per second, at least 1."""
    found = number_of(text, "rate")
    if found.denominator != 1 or not 1 <= found <= 10**12:
        raise argparse.ArgumentTypeError(f"{text!r} is no whole number of bits per second from 1 to 10^12")
    return int(found)


def target_of(text: str) -> int:
    """A time in nanoseconds, rounded up: what is below it is below the time."""
    return -int(-number_of(text, "delay") // 1)


def add_arguments(parser: ArgumentParser) -> None:
    parser.add_argument("--class", dest="of", metavar="NAME", help="this class alone")
    parser.add_argument("--rate", dest="rates", action="append", default=[], type=rate_of, metavar="RATE", help="also the least burst for this rate, as 400K")
    parser.add_argument("--picture", metavar="FILE", help="draws the least burst of the class over its rate, as SVG")
    parser.add_argument("--reasons", metavar="FILE", help="draws the class's curve, the packets with the greatest burst, and the bound, as SVG")
    parser.add_argument("--target", type=target_of, metavar="TIME", help="says the least curve of the class whose bound is below this, as 10ms")
    parser.add_argument("--seed", type=int, default=42, metavar="N", help="the seed of the plays, 42 by default")
    add_program(parser)
    add_times(parser)
    parser.add_argument("config", metavar="CONFIG", help="the configuration")
    parser.add_argument("arrivals", nargs="+", metavar="CAPTURE", help="the captures")


def offered(fates: Fates, name: str) -> Offered:
    """What a play is offered of a class."""
    own = numpy.flatnonzero(fates.class_is(name))
    own = own[numpy.argsort(fates.number[own], kind="stable")]
    delays = fates.delays()[own[fates.is_sent[own]]]
    return Offered(fates.arrival[own], fates.length[own], int(delays.max()) if len(delays) else None)


def holders(interface: Interface) -> list[str]:
    """The classes that hold packets, in the configuration's order."""
    inner = {one.parent for one in interface.classes.values()} if interface.discipline == "hfsc" else set()
    return [name for name in interface.classes if name not in inner]


class Measured:
    """The classes of an interface as some plays are offered them, and the longest packet of the interface in bytes, 0 without any."""

    def __init__(self, interface: Interface, plays: Sequence[Fates], config: str, program: Optional[str] = None) -> None:
        self.interface, self.config, self.program = interface, config, program
        self.longest = max((int(fates.length.max()) for fates in plays if len(fates)), default=0)
        self.offers = {name: [offered(fates, name) for fates in plays] for name in holders(interface)}

    def packets(self, name: str) -> int:
        """How many packets came to a class."""
        return sum(len(one.arrival) for one in self.offers[name])

    def burst(self, name: str, rate: int) -> int:
        """The least burst with which a class conforms to a rate in each play."""
        return max((least_burst(one.arrival, one.length, rate) for one in self.offers[name]), default=1)

    def mean(self, name: str) -> int:
        """The greatest mean rate of a class in a play."""
        return max((mean_rate(one.arrival, one.length) for one in self.offers[name]), default=0)

    def row(self, name: str, rate: Optional[int] = None) -> Row:
        """A class at a rate, or at the second slope of its real-time curve."""
        curve, packets = self.interface.promised(name), self.packets(name)
        own = rate or (curve.m2 if curve else None) or None
        reason = why_none(self.interface, name, own) or ("" if packets else "no packet of it came")
        burst = self.burst(name, own) if packets and own else None
        greatest = max((one.greatest for one in self.offers[name] if one.greatest is not None), default=None)
        limit = self.limit(name, burst) if curve and burst and not reason else None
        return Row(name, packets, own, burst, limit, greatest, reason)

    def limit(self, name: str, burst: int) -> Optional[int]:
        """What the program says of a class with this burst; of a burst that it does not take, the same formula."""
        curve = self.interface.promised(name)
        if curve is not None and burst > MOST_BURST:
            return bound(curve, self.interface.bandwidth, self.longest, burst)
        return bounds(self.config, self.interface.name, self.longest, burst, self.program)[name]

    def rows(self, names: Sequence[str], rates: Sequence[int]) -> list[Row]:
        """Each of some classes at its second slope, and where it has a real-time curve at each of some rates."""
        return [row for name in names for row in [self.row(name), *(self.row(name, rate) for rate in rates if self.interface.promised(name))]]

    def least(self, name: str, target: int, least_rate: int = 1) -> Optional[Least]:
        """The least curve of a class for which the bound is below a target and the curves fit, or None; not yet asked of `check`."""
        time = target - 1 - time_of(self.longest, self.interface.bandwidth)
        if time < 1 or not self.packets(name):
            return None
        promised = [self.interface.promised(other) for other in holders(self.interface) if other != name]
        link = Link(self.interface.bandwidth, [curve for curve in promised if curve])
        return Search(link, lambda rate: self.burst(name, rate), time, least_rate).least()

    def points(self, name: str, rates: Sequence[int]) -> list[tuple[int, int]]:
        """The least bursts of a class from its mean rate, or a lesser one that is asked for, to twice the greatest, as a picture draws them."""
        curve = self.interface.promised(name)
        asked = [max(1, self.mean(name)), *rates, *([curve.m2] if curve and curve.m2 else [])]
        begin, end = min(asked), 2 * max(asked)
        return [(rate, self.burst(name, rate)) for rate in range(begin, end + 1, max(1, (end - begin) // DRAWN))]


def measured(config: str, interface: Interface, captures: Sequence[str], seed: int, program: Optional[str]) -> Measured:
    """Plays captures of any kind, each by itself."""
    plays = []
    with tempfile.TemporaryDirectory(prefix="altqwork-") as folder:
        for number, capture in enumerate(captures):
            room = os.path.join(folder, str(number))
            os.mkdir(room)
            played = operator_inputs.playable([capture], room, operator_inputs.Options())[0]
            plays.append(read_fates(play(config, interface.name, played, room, seed, program).fates))
    return Measured(interface, plays, config, program)


def confirmed(text: str, config: str, interface: Interface, name: str, curve: Curve, program: Optional[str]) -> str:
    """What `check` says of a configuration in which a class has a real-time curve."""
    words = f"{curve.m1}/{curve.d // 10**6}/{curve.m2}"
    with tempfile.TemporaryDirectory(prefix="altqwork-") as folder:
        made = os.path.join(folder, "altq.conf")
        with open(made, "w", encoding="ascii", errors="replace") as file:
            file.write(changed(text, interface.name, [((name, "rt"), words)], config))
        return str(read_conf(made, interface.name, program).fit)


def target_lines(found: Measured, name: str, args: Namespace, times: Times) -> tuple[list[str], bool]:
    """What is said of the least curve for a target, and whether there is one."""
    interface, target = found.interface, args.target
    if interface.discipline == "cbq":
        raise Refused(f"{args.config}: CBQ has no service curves")
    least = found.least(name, target, max(args.rates, default=1))
    if least is None:
        own = time_of(found.longest, interface.bandwidth)
        why = ("no packet of it came" if not found.packets(name) else f"the longest packet alone takes {times.text(own)}" if own >= target - 1
               else "none whose second slope is a rate of the link fits beside the others")
        return [f"{name}: no curve has a bound below {times.text(target)}: {why}"], False
    curve = least.curve
    with open(args.config, encoding="ascii", errors="replace") as file:
        fit = confirmed(file.read(), args.config, interface, name, curve, args.program)
    if fit != "fits":
        raise Refused(f"{args.config}: check says {fit} of rt {curve.m1} {curve.d // 10**6} {curve.m2}")
    limit = bound(curve, interface.bandwidth, found.longest, least.burst)
    lines = [f"{name}: rt {curve.m1} {curve.d // 10**6} {curve.m2} is the least curve with a bound below {times.text(target)}: {times.text(limit)},"
             f" with a burst of {least.burst} bytes; the curves fit"]
    mean = found.mean(name)
    if curve.m2 < mean:
        lines.append(f"  its second slope is below the mean rate of {name}, {mean}: it does for these captures, and for no longer ones (--rate {mean} asks for more)")
    return lines, True


def lines_of(found: Measured, rows: Sequence[Row], times: Times) -> list[str]:
    """The table."""
    interface = found.interface
    told = [f"{interface.name}: {interface.fit}; longest packet {found.longest} bytes, {times.text(time_of(found.longest, interface.bandwidth))} on the link"]
    table: list[list[str]] = [[f"times in {times.unit}", "packets", "rate", "burst", "bound", "greatest"]]
    for row in rows:
        numbers = ["-" if number is None else str(number) for number in (row.rate, row.burst)]
        table.append([row.of, str(row.packets), *numbers, "none" if row.bound is None else times.number(row.bound), times.number(row.greatest)])
        if row.reason:
            table.append([f"  none: {row.reason}"])
    return told + aligned(table)


def only(args: Namespace, interface: Interface) -> str:
    """The class that one question is about."""
    names = [args.of] if args.of else [name for name in holders(interface) if interface.promised(name)]
    if len(names) != 1:
        raise Refused(f"{args.config}: {len(names)} classes have a real-time curve: name one with --class")
    return str(names[0])


def write_pictures(args: Namespace, found: Measured) -> None:
    """Writes the pictures that are asked for."""
    if not (args.picture or args.reasons):
        return
    name = only(args, found.interface)
    row, curve = found.row(name), found.interface.promised(name)
    if not row.packets:
        raise Refused(f"{name}: no packet of it came")
    if args.picture:
        own = (row.rate, row.burst) if row.rate and row.burst else None
        others = [(rate, found.burst(name, rate)) for rate in args.rates]
        with new_file(args.picture, "w", encoding="ascii") as file:
            file.write(bound_picture.bursts(name, found.points(name, args.rates), own, others))
    if args.reasons:
        if curve is None or row.rate is None or row.burst is None or row.bound is None:
            raise Refused(f"{name}: there is no bound: {row.reason}")
        packets = needy_packets(found, name, row.rate)
        with new_file(args.reasons, "w", encoding="ascii") as file:
            file.write(bound_picture.reasons(name, curve, row.rate, row.burst, (found.longest, found.interface.bandwidth), packets))


def needy_packets(found: Measured, name: str, rate: int) -> list[tuple[int, int]]:
    """The first packets from the begin of the stretch that needs the greatest burst, with their moments after it."""
    one = max((one for one in found.offers[name] if len(one.arrival)), key=lambda one: neediest(one.arrival, one.length, rate).burst)
    begin = neediest(one.arrival, one.length, rate).begin
    part = slice(begin, begin + MOST_PACKETS)
    return list(zip((one.arrival[part] - one.arrival[begin]).tolist(), one.length[part].tolist()))


def run(args: Namespace) -> int:
    interface, times = read_conf(args.config, interface_named(args.config, args.interface), args.program), Times(args.ns)
    names = holders(interface)
    if args.of is not None and args.of not in names:
        raise Refused(f"{args.config}: no class that holds packets has the name {args.of}: {', '.join(names)}")
    of_target = only(args, interface) if args.target is not None else ""
    found = measured(args.config, interface, args.arrivals, args.seed, args.program)
    rows = found.rows([args.of] if args.of else names, args.rates)
    print("\n".join(lines_of(found, rows, times)))
    write_pictures(args, found)
    is_well = all(row.bound is None or row.greatest is None or row.greatest <= row.bound for row in rows)
    if args.target is not None:
        lines, is_kept = target_lines(found, of_target, args, times)
        print("\n".join(lines))
        is_well = is_well and is_kept
    return 0 if is_well else 1

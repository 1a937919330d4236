"""Wants: what an operator asks of a class, as `voip delay<10ms`, `voip drop=0` or `bulk rate>=2M`, and whether a play keeps it.

    WANT   CLASS delay < TIME    every packet sent ends less than TIME after it arrives; also <=
           CLASS drop = COUNT    so many packets are dropped; also < and <=, and a share of those that arrive, as drop<1%
           CLASS rate >= RATE    bits a second sent while a packet of the class waits or is being sent; also >
    TIME   a number and ns, us, ms or s
    RATE   a number, which K, M or G may follow, as in a configuration

Numbers may have decimals; a COUNT has none. All is reckoned exactly. A want that no packet tests is not kept: it is untested.
"""

from __future__ import annotations

import argparse
import math
import re
from dataclasses import dataclass
from fractions import Fraction
from typing import Any, Iterable, Optional, Sequence

from .faults import Refused
from .texts import Times

KEPT, BROKEN, UNTESTED = "kept", "broken", "untested"
FORM = re.compile(r"\s*([A-Za-z0-9_.:/-]{1,64})\s+(delay|drop|rate)\s*([<>]?=|[<>])\s*(\d+(?:\.\d+)?)\s*(%|[A-Za-z]*)\s*")
OPERATORS: dict[str, tuple[str, ...]] = {"delay": ("<", "<="), "drop": ("=", "<", "<="), "rate": (">=", ">")}
UNITS: dict[str, dict[str, Fraction | int]] = {
    "delay": {"ns": 1, "us": 10**3, "ms": 10**6, "s": 10**9}, "drop": {"": 1, "%": Fraction(1, 100)},
    "rate": {"": 1, "K": 10**3, "M": 10**6, "G": 10**9}}


@dataclass(frozen=True)
class Want:
    """What is asked of a class: its `bound` is in nanoseconds, packets, a share of the packets (`is_share`) or bits per second."""

    of: str
    measure: str
    operator: str
    bound: Fraction
    is_share: bool
    text: str

    def holds(self, value: Fraction | int) -> bool:
        """Whether a value is as it is asked for."""
        return {"<": value < self.bound, "<=": value <= self.bound, "=": value == self.bound,
                ">=": value >= self.bound, ">": value > self.bound}[self.operator]

    def most(self) -> int:
        """The greatest whole number below the bound, or at most at it."""
        return math.ceil(self.bound) - 1 if self.operator == "<" else math.floor(self.bound)


@dataclass(frozen=True)
class Verdict:
    """What a play makes of a want: kept, broken or untested; how many packets break it, of how many; and the worst: the greatest
    delay in nanoseconds, the packets dropped, or the rate in bits per second."""

    want: Want
    state: str
    breaking: int
    packets: int
    worst: Optional[Fraction | int]

    def told(self, times: Times) -> str:
        """The verdict in words."""
        if self.worst is None:
            return f"{self.state}: no packet of {self.want.of} was {'sent' if self.want.measure == 'delay' else 'there'}"
        if self.want.measure == "drop":
            return f"{self.state}: {self.worst:,} of {self.packets:,} packets dropped"
        if self.want.measure == "rate":
            return f"{self.state}: {rate_text(self.worst)} over {self.packets:,} packets"
        if self.state == KEPT:
            return f"{self.state}: {self.packets:,} packets, the slowest {times.text(int(self.worst))}"
        return f"{self.state}: {self.breaking:,} of {self.packets:,} packets, the slowest {times.text(int(self.worst))}"


def rate_text(rate: Fraction | int) -> str:
    """A rate in megabits per second with three digits, the last one cut off."""
    return f"{int(rate) // 10**6}.{int(rate) // 1000 % 1000:03} Mbit/s"


def want_of(text: str) -> Want:
    """The want of a text. `Refused` where it is none."""
    match = FORM.fullmatch(text)
    if match is None:
        raise Refused(f"--want {text!r}: not CLASS delay<TIME, CLASS drop=COUNT or CLASS rate>=RATE")
    of, measure, operator, number, unit = match.groups()
    if operator not in OPERATORS[measure]:
        raise Refused(f"--want {text!r}: {measure} takes {' or '.join(OPERATORS[measure])}")
    if unit not in UNITS[measure]:
        raise Refused(f"--want {text!r}: {measure} takes a number and {' or '.join(word or 'nothing' for word in UNITS[measure])}")
    if measure == "drop" and not unit and "." in number:
        raise Refused(f"--want {text!r}: a count of packets is a whole number")
    return Want(of, measure, operator, Fraction(number) * UNITS[measure][unit], unit == "%", f"{of} {measure}{operator}{number}{unit}")


def add_wants(parser: argparse.ArgumentParser) -> None:
    """The word that names a want."""
    parser.add_argument("--want", dest="wants", action="append", default=[], type=want_of, metavar="'CLASS WANT'",
                        help="what is asked of a class: delay<10ms, drop=0 or rate>=2M; the status is 1 where it is not kept")


def busy(arrival: Any, end: Any) -> int:
    """The nanoseconds in which at least one of some packets, in columns, has arrived and not ended."""
    import numpy

    if not len(arrival):
        return 0
    order = numpy.argsort(arrival, kind="stable")
    begins, ends = arrival[order], numpy.maximum.accumulate(end[order])
    begins[1:] = numpy.maximum(begins[1:], ends[:-1])
    return int((ends - begins).sum())


def judged(want: Want, arrival: Any, end: Any, length: Any, is_sent: Any) -> Verdict:
    """What the packets of the want's class, in columns of numpy, make of it; `end` has no meaning where a packet was not sent."""
    packets, sent = len(arrival), int(is_sent.sum())
    if not (sent if want.measure == "delay" else packets):
        return Verdict(want, UNTESTED, 0, 0, None)
    if want.measure == "delay":
        delays = (end - arrival)[is_sent]
        breaking = int((delays > want.most()).sum())
        return Verdict(want, BROKEN if breaking else KEPT, breaking, sent, int(delays.max()))
    if want.measure == "drop":
        dropped = packets - sent
        is_kept = want.holds(Fraction(dropped, packets) if want.is_share else dropped)
        return Verdict(want, KEPT if is_kept else BROKEN, 0 if is_kept else dropped, packets, dropped)
    rate = Fraction(8 * 10**9 * int(length[is_sent].sum()), max(busy(arrival[is_sent], end[is_sent]), 1))
    is_kept = want.holds(rate)
    return Verdict(want, KEPT if is_kept else BROKEN, 0 if is_kept else sent, sent, rate)


def known(wants: Iterable[Want], classes: Iterable[str]) -> None:
    """Refuses a want of a class that is none of some."""
    names = list(classes)
    for want in wants:
        if want.of not in names:
            raise Refused(f"--want {want.text!r}: no configuration has a class {want.of}; there are {', '.join(names)}")


def of_sides(wants: Sequence[Want], sides: Sequence[Any]) -> list[list[Verdict]]:
    """What plays (`plays.Side`) make of each want. `Refused` where no play has its class."""
    known(wants, dict.fromkeys(name for side in sides for name in side.interface.classes))
    return [[of_side(want, side) for side in sides] for want in wants]


def of_side(want: Want, side: Any) -> Verdict:
    """What a play (`plays.Side`) makes of a want."""
    own = side.class_is(want.of)
    return judged(want, side.arrival[own], side.end[own], side.length[own], side.is_sent[own])


def lines(labels: Sequence[str], verdicts: Sequence[Sequence[Verdict]], times: Times) -> list[str]:
    """The verdicts of each want on some plays, in lines."""
    told = ["wants:"] if verdicts else []
    for row in verdicts:
        told.append(row[0].want.text)
        told += [f"  {label:<8}{verdict.told(times)}" for label, verdict in zip(labels, row)]
    return told


def all_kept(verdicts: Iterable[Sequence[Verdict]]) -> bool:
    """Whether the last play keeps each want."""
    return all(row[-1].state == KEPT for row in verdicts)

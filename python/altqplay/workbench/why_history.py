"""What a play had done by some point of it, in columns: how `why` knows the state of one packet of a million without a replay.

The fates tell what was kept, when it was sent and by which rule; with the rules all that a decision looks at follows from that. A
`History` is a play up to a point: behind the offers of the first packets and the first of the sendings, in the order of decisions.
"""

from __future__ import annotations

from dataclasses import dataclass
from math import gcd

import numpy

from .columns import Fates
from .conf import Interface
from .rules.classes import classes_of
from .rules.units import BYTE
from .why_inputs import places_of

MOST = 2**62


class Unordered(Exception):
    """The fates are not such as a play writes them, so nothing follows from them without a replay."""


@dataclass(frozen=True)
class Point:
    """A point of a play: behind the offers of so many packets, and behind so many sendings."""

    offers: int
    sendings: int


class Columns:
    """The fates of a play by packet and by sending. `Unordered` where they are not those of a whole play in the order of decisions."""

    def __init__(self, fates: Fates, interface: Interface) -> None:
        self.fates, self.interface, count = fates, interface, len(fates)
        self.row_of = numpy.empty(count, dtype=numpy.int64)  # the row of each packet, by its number less 1
        self.parents = [given.parent for given in classes_of(interface)]
        known = places_of(interface)
        if not set(fates.classes) <= set(known) or int(fates.number.min(initial=1)) < 1 or int(fates.number.max(initial=0)) != count:
            raise Unordered
        self.row_of[fates.number - 1] = numpy.arange(count)
        if (numpy.bincount(fates.number, minlength=count + 1)[1:] != 1).any():
            raise Unordered
        self.arrival, self.length, self.is_kept = (values[self.row_of] for values in (fates.arrival, fates.length, fates.is_sent))
        self.of = numpy.array([known[name] for name in fates.classes], dtype=numpy.int64)[fates.of_class[self.row_of]] if count else self.row_of
        self.rows = numpy.flatnonzero(fates.is_sent)  # of the sendings, in their order
        self.packet, self.start, self.end = fates.number[self.rows] - 1, fates.start[self.rows], fates.end[self.rows]
        self.sent_length, self.sent_of = fates.length[self.rows], self.of[self.packet]
        self.is_real = fates.fate_is("realtime")[self.rows]
        self.kept = numpy.flatnonzero(self.is_kept)  # the packets that are kept, in their order
        if not self.is_in_order():
            raise Unordered

    def is_in_order(self) -> bool:
        """Whether rows stand in the order of decisions, and each class leaves in the order of its numbers."""
        fates = self.fates
        moment, number = numpy.where(fates.is_sent, fates.start, fates.arrival), numpy.where(fates.is_sent, 0, fates.number)
        is_tie = moment[1:] == moment[:-1]
        is_wrong = (moment[1:] < moment[:-1]) | (is_tie & ~fates.is_sent[1:] & (fates.is_sent[:-1] | (number[1:] < number[:-1])))
        by_class = numpy.argsort(self.sent_of, kind="stable")
        packet, of = self.packet[by_class], self.sent_of[by_class]
        return not (is_wrong.any() or (numpy.diff(self.arrival) < 0).any() or (self.length == 0).any() or (fates.start < fates.arrival)[self.rows].any()
                    or ((numpy.diff(packet) < 0) & (numpy.diff(of) == 0)).any() or (self.start[1:] < self.end[:-1]).any())

    def offered(self, packet: int) -> Point:
        """The point before the offer of a packet, by its number less 1."""
        return Point(packet, int(numpy.searchsorted(self.start, self.arrival[packet], side="left")))

    def sent(self, sending: int) -> Point:
        """The point before a sending."""
        return Point(int(numpy.searchsorted(self.arrival, self.start[sending], side="right")), sending)

    def at(self, moment: int) -> Point:
        """The point before whatever is decided at a moment."""
        return Point(*(int(numpy.searchsorted(values, moment, side="left")) for values in (self.arrival, self.start)))

    def behind(self, moment: int) -> Point:
        """The point behind whatever is decided at a moment."""
        return Point(*(int(numpy.searchsorted(values, moment, side="right")) for values in (self.arrival, self.start)))

    def row(self, point: Point) -> int:
        """How many rows of the file stand before a point."""
        return point.sendings + int((~self.is_kept[:point.offers]).sum())

    def sending_of(self, packet: int) -> int | None:
        """The place of a packet among the sendings, None where it was dropped."""
        if not self.is_kept[packet]:
            return None
        return int(numpy.searchsorted(self.rows, self.row_of[packet]))


class Below:
    """What came and went of a class up to a point: of a leaf its own packets, of an inner class also those below it.

    `came` are places of the packets kept so far, `went` the sendings. The class becomes active with the packets at the places `wakes` of
    `came`: then as many had gone as had come. `sums` are the bytes that had gone before each sending, and behind the last.
    """

    def __init__(self, history: History, came: numpy.ndarray, went: numpy.ndarray) -> None:
        self.came, self.went = came, went
        self.came_at, self.went_at = history.came_at[came], history.went_at[went]
        self.sums = numpy.concatenate([[0], numpy.cumsum(history.columns.sent_length[went])])
        self.wakes = numpy.flatnonzero(numpy.searchsorted(self.went_at, self.came_at) == numpy.arange(len(came)))
        self.is_active = len(came) > len(went)

    @property
    def total(self) -> int:
        """The bytes that were sent."""
        return int(self.sums[-1])


class History:
    """A play up to a point. `kept` are the packets that were kept; `came_at` and `went_at` are the places of their offers and of the
    sendings among both."""

    def __init__(self, columns: Columns, point: Point) -> None:
        self.columns, self.point = columns, point
        self.kept = columns.kept[:int(numpy.searchsorted(columns.kept, point.offers))]
        self.arrival, start = columns.arrival[self.kept], columns.start[:point.sendings]
        self.came_at = numpy.arange(len(self.kept)) + numpy.searchsorted(start, self.arrival, side="left")
        self.went_at = numpy.arange(len(start)) + numpy.searchsorted(self.arrival, start, side="right")
        count = len(columns.parents)
        self.came, self.went = (grouped(of, count) for of in (columns.of[self.kept], columns.sent_of[:point.sendings]))

    def own(self, place: int) -> Below:
        """What came and went of a class itself."""
        return Below(self, self.came[place], self.went[place])

    def below(self, place: int) -> Below:
        """What came and went of a class and of those below it."""
        parents, found = self.columns.parents, {place}
        for child in range(place + 1, len(parents)):  # a class stands behind its parent
            if parents[child] in found:
                found.add(child)
        return self.of(sorted(found))

    def of(self, places: list[int]) -> Below:
        """What came and went of some classes together."""
        if len(places) == 1:
            return self.own(places[0])
        if sum(len(self.came[one]) for one in places) == len(self.kept):
            return Below(self, numpy.arange(len(self.kept)), numpy.arange(self.point.sendings))
        return Below(self, *(numpy.sort(numpy.concatenate([parts[one] for one in places])) for parts in (self.came, self.went)))


def grouped(values: numpy.ndarray, count: int) -> list[numpy.ndarray]:
    """Of some numbers below `count` the places of each, in rising order."""
    ends = numpy.cumsum(numpy.bincount(values, minlength=count))
    kind = numpy.int16 if count < 2**15 else numpy.int64  # numpy sorts the former digit by digit
    return numpy.split(numpy.argsort(values.astype(kind), kind="stable"), ends[:-1])


def highest(slope: int, moments: numpy.ndarray, counts: numpy.ndarray) -> int:
    """The greatest of slope * moment - units of a count of bytes, exact."""
    part = gcd(slope, BYTE)
    rise, byte, origin = slope // part, BYTE // part, int(moments[0])
    shifted = moments - origin
    if rise * int(shifted[-1]) + byte * int(counts[-1]) >= MOST:
        shifted, counts = shifted.astype(object), counts.astype(object)
    return int((rise * shifted - byte * counts).max()) * part + slope * origin

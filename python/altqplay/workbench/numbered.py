"""The fates of a play in columns by the packets' numbers, so those of two plays of the same arrivals stand beside each other."""

from __future__ import annotations

from collections.abc import Iterable, Sequence
from typing import Optional

import numpy

from .columns import Fates
from .rows import Fate


class Numbered:
    """The columns of a play, in rising order of numbers: `of` is each packet's class as a place of `names`; `end` is -1 of a drop."""

    def __init__(self, names: Sequence[str], **columns: numpy.ndarray) -> None:
        order = numpy.argsort(columns["number"], kind="stable")
        self.number, self.arrival, self.length, self.of, self.end = (columns[name][order] for name in ("number", "arrival", "length", "of", "end"))
        self.names, self.is_sent = numpy.array(list(names), dtype=object), self.end >= 0
        ends = numpy.cumsum(numpy.bincount(self.of, minlength=len(names)))
        self.places = dict(zip(names, numpy.split(numpy.argsort(self.of, kind="stable"), ends[:-1]))) if len(names) else {}

    @classmethod
    def of_fates(cls, fates: Fates) -> Numbered:
        """Those of fates that were read as columns."""
        return cls(fates.classes, number=fates.number, arrival=fates.arrival, length=fates.length, of=fates.of_class, end=fates.end)

    @classmethod
    def of_rows(cls, rows: Iterable[Fate]) -> Numbered:
        """Those of fates that were read row by row."""
        found = [(fate.number, fate.arrival, fate.length, fate.name, -1 if fate.end is None else fate.end) for fate in rows]
        numbers = [numpy.array([row[place] for row in found], dtype=numpy.int64) for place in (0, 1, 2, 4)]
        names = sorted({row[3] for row in found})
        of = numpy.array([names.index(row[3]) for row in found], dtype=numpy.int64)
        return cls(names, number=numbers[0], arrival=numbers[1], length=numbers[2], of=of, end=numbers[3])

    def class_is(self, name: str) -> numpy.ndarray:
        """The places of the packets of a class, in rising order."""
        return self.places.get(name, numpy.zeros(0, dtype=numpy.int64))

    def of_either(self, other: Numbered, name: str) -> numpy.ndarray:
        """The places of the packets that are of a class here or in another play of the same arrivals."""
        own, others = self.class_is(name), other.class_is(name)
        return own if numpy.array_equal(own, others) else numpy.union1d(own, others)

    def delays(self, own: numpy.ndarray) -> numpy.ndarray:
        """The delays of those of some packets that were sent."""
        sent = own[self.is_sent[own]]
        return self.end[sent] - self.arrival[sent]

    def alone(self, other: Numbered) -> Optional[int]:
        """The least number that stands in one of two plays alone; None where there is none."""
        if numpy.array_equal(self.number, other.number):
            return None
        return int(numpy.setxor1d(self.number, other.number)[0])

    def otherwise(self, other: Numbered) -> Optional[int]:
        """The first packet with another arrival or length in another play of the same numbers; None where there is none."""
        odd = numpy.flatnonzero((self.arrival != other.arrival) | (self.length != other.length))
        return int(self.number[odd[0]]) if len(odd) else None


def classes_of(first: Numbered, second: Numbered, known: Iterable[str] = ()) -> list[str]:
    """The classes of two plays: those of a configuration in its order, then the others in the order in which packets of them came."""
    came = {}
    for play in (second, first):
        came.update({name: (play is second, int(places[0])) for name, places in play.places.items() if len(places)})
    ordered = [name for name in known if name in came]
    return ordered + sorted((name for name in came if name not in ordered), key=lambda name: came[name])

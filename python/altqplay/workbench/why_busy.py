"""The virtual times of HFSC's children in many busy periods at once.

A busy period of the children of a class begins where none is active and ends where none is again. The first that opens in it takes the high mark, and no
virtual time in it is before that. So but for the mark at its begin it tells the same whatever was before, where no curve falls: the periods
are reckoned from 0 beside each other, the first event of each, then the second of each, and so on, and each is moved to its mark then.
"""

from __future__ import annotations

from dataclasses import dataclass

import numpy

from .why_history import MOST

FEW = 16  # periods beside each other, below which a pass over their events one by one takes less time


@dataclass
class Events:
    """The events of a class's children, in order: `wakes`, whether a child becomes active; `gained`, by how much the high mark moved before it since the
    event before; `stay`, of one where a child is no more active the event by which it became so, and `moved`, by how much it moved since;
    `before`, where the same child was no more active last, -1 where it never was. Looks of an event stand from its place of `looks` up to
    the next: at the children that are active then, by the events by which they became so, `look_stay`, and how much they moved since, `look_moved`."""

    wakes: numpy.ndarray
    gained: numpy.ndarray
    stay: numpy.ndarray
    moved: numpy.ndarray
    before: numpy.ndarray
    looks: numpy.ndarray
    look_stay: numpy.ndarray
    look_moved: numpy.ndarray

    def fits(self) -> bool:
        """Whether 64 bits hold twice each virtual time: no event moves one by more than the most that is seen."""
        most = max(int(values.max(initial=0)) for values in (self.moved, self.look_moved))
        return most * (len(self.wakes) + 1) + int(self.gained.astype(object).sum()) < MOST

    def virtual_times(self) -> tuple[numpy.ndarray, numpy.ndarray]:
        """The virtual time of the child of each event behind it, and the high mark behind each, the first that before all."""
        active = numpy.cumsum(numpy.where(self.wakes, 1, -1))
        begins = numpy.flatnonzero(numpy.concatenate([[True], active[:-1] == 0])) if len(active) else active
        sizes = numpy.diff(numpy.append(begins, len(active)))
        self.before = numpy.where(self.before >= numpy.repeat(begins, sizes), self.before, -1)  # what was earlier is not after the mark
        found, marks = self.beside(begins, sizes)
        grown = numpy.concatenate([[0], marks[begins + sizes - 1][:-1]])[:len(begins)]
        base = numpy.repeat(numpy.cumsum(self.gained[begins] + grown), sizes)
        return found + base, numpy.concatenate([[0], marks + base])

    def beside(self, begins: numpy.ndarray, sizes: numpy.ndarray) -> tuple[numpy.ndarray, numpy.ndarray]:
        """Both, counted from the high mark at the begin of each busy period."""
        found, marks = numpy.zeros(len(self.wakes), dtype=numpy.int64), numpy.zeros(len(self.wakes), dtype=numpy.int64)
        order = numpy.argsort(-sizes, kind="stable")
        begins, sizes = begins[order], sizes[order]
        counts = len(sizes) - numpy.cumsum(numpy.bincount(sizes))  # how many periods have more events than so many
        step = 1
        while step < len(counts) and counts[step] >= FEW:
            rows = begins[:counts[step]] + step
            virtual = numpy.where(self.wakes[rows], 0, found[self.stay[rows]] + self.moved[rows])
            self.open(rows[self.wakes[rows]], found, virtual, self.wakes[rows])
            found[rows], marks[rows] = virtual, numpy.maximum(marks[rows - 1], virtual)
            step += 1
        longer = sizes > step
        self.one_by_one([(begin, begin + step, begin + size) for begin, size in zip(begins[longer].tolist(), sizes[longer].tolist())], found, marks)
        return found, marks

    def open(self, rows: numpy.ndarray, found: numpy.ndarray, virtual: numpy.ndarray, places: numpy.ndarray) -> None:
        """Sets the virtual times, at some places, of children that open at some events while others are active: the middle of those, or its own where that is later."""
        if not len(rows):
            return
        first, count = self.looks[rows], self.looks[rows + 1] - self.looks[rows]
        ends = numpy.cumsum(count)
        looks = numpy.arange(int(ends[-1])) + numpy.repeat(first - ends + count, count)
        seen = found[self.look_stay[looks]] + self.look_moved[looks]
        least, greatest = numpy.minimum.reduceat(seen, ends - count), numpy.maximum.reduceat(seen, ends - count)
        own = numpy.where(self.before[rows] >= 0, found[self.before[rows]], 0)
        virtual[places] = numpy.maximum((least + greatest) // 2, own)

    def one_by_one(self, parts: list[tuple[int, int, int]], found: numpy.ndarray, marks: numpy.ndarray) -> None:
        """Both of some events, one after the other: of each busy period its begin, the first that is left and its end."""
        for begin, left, end in parts:
            first = int(self.looks[left])
            own = slice(left, end)
            stays, moved, before = ((values[own] - less).tolist() for values, less in ((self.stay, begin), (self.moved, 0), (self.before, begin)))
            bounds = (self.looks[left:end + 1] - first).tolist()
            seen = slice(first, first + bounds[-1])
            look_stays, look_moved = (self.look_stay[seen] - begin).tolist(), self.look_moved[seen].tolist()
            virtual, marked = found[begin:left].tolist(), [int(marks[left - 1])]
            for at, wakes in enumerate(self.wakes[own].tolist()):
                if not wakes:
                    one = virtual[stays[at]] + moved[at]
                elif bounds[at + 1] == bounds[at] + 1:
                    look = bounds[at]
                    one = virtual[look_stays[look]] + look_moved[look]
                    one = max(one, virtual[before[at]]) if before[at] >= 0 else one
                else:
                    times = [virtual[look_stays[look]] + look_moved[look] for look in range(bounds[at], bounds[at + 1])]
                    one = (min(times) + max(times)) // 2
                    one = max(one, virtual[before[at]]) if before[at] >= 0 else one
                virtual.append(one)
                marked.append(one if one > marked[-1] else marked[-1])
            found[own], marks[own] = virtual[left - begin:], marked[1:]

"""The virtual times of HFSC at a point of a play, from what came and went of each class by then (`why_history`): exact, without a replay.

The children of a class become active, and are no more, by events that the fates tell. Between two of them a child's virtual time is that
of its last opening and what its curve says of the bytes since, which numpy reckons for all events at once. What is left to do one
event after the other is where a child opens: at the high mark where no other is active, else in the middle of those that are, but
never before its own virtual time. A line through an opening is above those of all earlier ones, since no opening is before the
virtual time that they give; only of a curve that falls the second slope keeps its highest line.
"""

from __future__ import annotations

from collections.abc import Iterator
from dataclasses import dataclass

import numpy

from .rules.hfsc import Node
from .rules.units import BYTE
from .why_busy import Events
from .why_history import MOST, Below, Unordered

MANY = 2**24  # looks at active siblings, more of which take more memory than a replay takes time


@dataclass
class Looks:
    """Looks at active siblings, event by event: those of event n stand from `bounds[n]` up to `bounds[n + 1]`. Of each the sibling, by how much
    it moved since its opening, what it was sent, and the event by which it became active."""

    bounds: numpy.ndarray
    sibling: numpy.ndarray
    moved: numpy.ndarray
    total: numpy.ndarray
    stay: numpy.ndarray


def bounds_of(values: numpy.ndarray, count: int) -> Iterator[tuple[int, int]]:
    """Of rising numbers below `count`, where each begins and ends."""
    found = numpy.searchsorted(values, numpy.arange(count + 1)).tolist()
    return zip(found[:-1], found[1:])


def last_of(of: numpy.ndarray, rows: numpy.ndarray, count: int) -> list[int]:
    """The last of some rows of each number below `count`, -1 where it has none."""
    found = numpy.full(count, -1)
    found[of[rows]] = rows  # of several numpy keeps the last
    return found.tolist()


class Family:
    """The children of a class and their events, in order: of each the child's place among them (`place`), where it stands among all events
    of the play (`at`), the bytes that the child was sent before it (`sent`), and whether the child becomes active or is no more.

    A child whose curve does not fall may become active, and be no more, while no other is: then it moves the high mark, and itself to it, by
    what its curve says of its bytes. Of such pairs of events, `pairs`, the sums of these `gains` are enough. `rows` are the other events, and
    `passed` says how many pairs are before each; `highs` are the high marks behind them, the first that before all.
    """

    def __init__(self, parent: Node, below: dict[int, Below]) -> None:
        self.parent, self.nodes = parent, parent.children
        self.below = [below[node.place] for node in self.nodes]
        self.curves = [node.sharing for node in self.nodes if node.sharing is not None and node.sharing.m2]
        if len(self.curves) < len(self.nodes):
            raise Unordered  # no such class is read
        self.bends = [(curve.m1 - curve.m2) * curve.d if curve.m1 > curve.m2 else 0 for curve in self.curves]
        self.slopes = numpy.array([curve.m1 if bend else curve.m2 for curve, bend in zip(self.curves, self.bends)], dtype=numpy.int64)
        self.waits = numpy.array([0 if bend else curve.d for curve, bend in zip(self.curves, self.bends)], dtype=numpy.int64)
        self.place, self.at, self.sent, self.wakes = self.events()
        self.pairs, self.gains = self.alone()
        self.sums = numpy.concatenate([[0], numpy.cumsum(self.gains)])
        is_other = numpy.ones(len(self.at), dtype=bool)
        is_other[self.pairs], is_other[self.pairs + 1] = False, False
        self.rows = numpy.flatnonzero(is_other)
        self.passed = numpy.searchsorted(self.pairs, self.rows)
        self.opened, self.base, self.own, self.flat = ([0] * len(self.nodes) for _ in range(4))
        self.highs = numpy.zeros(1, dtype=numpy.int64)

    def events(self) -> tuple[numpy.ndarray, ...]:
        """The columns of all events."""
        places, at, sent, wakes = [], [], [], []
        for number, found in enumerate(self.below):
            begins, ends = found.wakes, found.wakes[1:] if found.is_active else numpy.append(found.wakes[1:], len(found.came))
            ends = ends[ends > 0]
            at += [found.came_at[begins], found.went_at[ends - 1]]
            sent += [found.sums[begins], found.sums[ends]]
            wakes += [numpy.ones(len(begins), dtype=bool), numpy.zeros(len(ends), dtype=bool)]
            places.append(numpy.full(len(begins) + len(ends), number, dtype=numpy.int64))
        order = numpy.argsort(numpy.concatenate(at), kind="stable")
        return tuple(numpy.concatenate(values)[order] for values in (places, at, sent, wakes))

    def gained(self, places: numpy.ndarray, sizes: numpy.ndarray) -> numpy.ndarray:
        """By how much bytes since its opening move a child, by its first slope where its curve falls."""
        sizes = sizes.astype(object) if int(sizes.max(initial=0)) * BYTE >= MOST else sizes
        return numpy.where(sizes > 0, self.waits[places] - -BYTE * sizes // self.slopes[places], 0)

    def alone(self) -> tuple[numpy.ndarray, numpy.ndarray]:
        """The first events of the pairs, and how each moves the high mark; none where 64 bits do not hold the sum."""
        active = numpy.cumsum(numpy.where(self.wakes, 1, -1))
        is_bent = numpy.array([bend > 0 for bend in self.bends], dtype=bool)[self.place]
        pairs = numpy.flatnonzero(self.wakes & (active == 1) & numpy.append(active[1:] == 0, False)[:len(active)] & ~is_bent)
        gains = self.gained(self.place[pairs], self.sent[pairs + 1] - self.sent[pairs])
        if gains.dtype == object or int(gains.max(initial=0)) * len(pairs) >= MOST:
            return pairs[:0], pairs[:0]
        return pairs, gains

    def stays(self) -> tuple[numpy.ndarray, numpy.ndarray]:
        """By child, the rows by which one becomes active and is no more; the number of rows where it is active to the end."""
        place, wakes = self.place[self.rows], self.wakes[self.rows]
        order = numpy.argsort(place, kind="stable")
        begins = numpy.flatnonzero(wakes[order])
        behind = numpy.minimum(begins + 1, max(len(order) - 1, 0))
        has_end = (begins + 1 < len(order)) & (place[order[behind]] == place[order[begins]]) if len(order) else begins > 0
        return order[begins], numpy.where(has_end, order[behind], len(order)) if len(order) else begins

    def looks(self, begins: numpy.ndarray, ends: numpy.ndarray) -> Looks:
        """The looks at active siblings: those that are active where a child becomes so."""
        wakes = self.wakes[self.rows]
        before = numpy.concatenate([[0], numpy.cumsum(wakes)])
        first, count = before[begins] + 1, before[ends] - before[begins] - 1
        if int(count.sum()) > MANY:
            raise Unordered
        stay = numpy.repeat(numpy.arange(len(begins)), count)
        wake = numpy.arange(len(stay)) - numpy.repeat(numpy.cumsum(count) - count, count) + numpy.repeat(first, count)
        at, sibling = self.at[self.rows[numpy.flatnonzero(wakes)[wake]]], self.place[self.rows[begins]][stay]
        total = numpy.zeros(len(stay), dtype=numpy.int64)
        for number, (begin, end) in enumerate(bounds_of(sibling, len(self.below))):  # they stand by sibling
            found = self.below[number]
            total[begin:end] = found.sums[numpy.searchsorted(found.went_at, at[begin:end])]
        moved = self.gained(sibling, total - self.sent[self.rows[begins]][stay])
        order = numpy.argsort(wake, kind="stable")
        bounds = numpy.concatenate([[0], numpy.cumsum(numpy.bincount(wake, minlength=int(before[-1]) + 1))])
        return Looks(bounds[before], *(values[order] for values in (sibling, moved, total, begins[stay])))

    def behind(self, pair: numpy.ndarray) -> tuple[numpy.ndarray, numpy.ndarray]:
        """The high mark behind some pairs, as a place of `highs` and how much above."""
        last = numpy.searchsorted(self.passed, pair, side="right")
        return last, self.sums[pair + 1] - numpy.concatenate([[0], self.sums[self.passed]])[last]

    def moves(self, begins: numpy.ndarray, ends: numpy.ndarray) -> numpy.ndarray:
        """By how much a child that is no more active moved since its opening, event by event."""
        begins, ends = begins[ends < len(self.rows)], ends[ends < len(self.rows)]
        found = self.gained(self.place[self.rows[begins]], self.sent[self.rows[ends]] - self.sent[self.rows[begins]])
        moved = numpy.zeros(len(self.rows), dtype=found.dtype)
        moved[ends] = found
        return moved

    def set(self) -> None:
        """Reckons the virtual times of the children, and the high mark."""
        begins, ends = self.stays()
        self.seen, moved = self.looks(begins, ends), self.moves(begins, ends)
        gained = numpy.diff(numpy.concatenate([[0], self.sums[self.passed]]))
        events = self.busy(begins, ends, moved, gained)
        if events is not None and events.fits():
            self.beside(events)
        else:
            self.one_by_one(moved, gained)
        self.finish(int(self.highs[-1]) + int(self.sums[-1]) - (int(self.sums[self.passed[-1]]) if len(self.passed) else 0))

    def busy(self, begins: numpy.ndarray, ends: numpy.ndarray, moved: numpy.ndarray, gained: numpy.ndarray) -> Events | None:
        """The events as busy periods tell them; None where a curve falls, or 64 bits do not hold how much a child moved."""
        seen = self.seen
        if any(self.bends) or moved.dtype == object or seen.moved.dtype == object:
            return None
        count = len(self.rows)
        stay, before = numpy.zeros(count, dtype=numpy.int64), numpy.full(count, -1)
        stay[ends[ends < count]] = begins[ends < count]
        is_next = self.place[self.rows[begins[1:]]] == self.place[self.rows[begins[:-1]]]  # they stand by child
        before[begins[1:][is_next]] = ends[:-1][is_next]
        return Events(self.wakes[self.rows], gained, stay, moved, before, seen.bounds, seen.stay, seen.moved)

    def beside(self, events: Events) -> None:
        """Reckons the busy periods beside each other."""
        virtual, self.highs = events.virtual_times()
        of, sent = self.place[self.rows], self.sent[self.rows]
        for kind in (events.wakes, ~events.wakes):
            last = last_of(of, numpy.flatnonzero(kind), len(self.nodes))
            for one, row in enumerate(last):
                if row >= 0 and kind is events.wakes:
                    self.opened[one], self.base[one] = int(virtual[row]), int(sent[row]) + 1  # 0 is that of a child without an opening
                elif row >= 0:
                    self.own[one] = int(virtual[row])

    def dues(self, places: numpy.ndarray, sent: numpy.ndarray) -> list[int]:
        """By some bytes that children were sent, what their second slopes and a highest line have given by then, in units."""
        kinds = [object if most >= MOST else numpy.int64 for most in (max(self.bends), int(sent.max(initial=0)) * BYTE)]
        return (BYTE * sent.astype(kinds[1]) - numpy.array(self.bends, dtype=kinds[0])[places]).tolist()

    def one_by_one(self, moved: numpy.ndarray, gained: numpy.ndarray) -> None:
        """Reckons one event after the other."""
        opened, own, base, bends, flat, slopes, highs, high = self.opened, self.own, self.base, self.bends, self.flat, [curve.m2 for curve in self.curves], [0], 0
        places, bounds = self.place[self.rows], self.seen.bounds.tolist()
        self.looked = self.seen.sibling.tolist(), self.seen.moved.tolist(), self.dues(self.seen.sibling, self.seen.total), slopes
        rows = places.tolist(), self.wakes[self.rows].tolist(), self.sent[self.rows].tolist(), self.dues(places, self.sent[self.rows])
        for one, wakes, sent, due, gain, move, look, end in zip(*rows, gained.tolist(), moved.tolist(), bounds[:-1], bounds[1:]):
            high += gain
            if not wakes:
                virtual = opened[one] + move
                if bends[one]:
                    second = -(-(due + flat[one]) // slopes[one])
                    virtual = second if second > virtual else virtual
                own[one] = virtual
            else:
                virtual = high
                if look != end:
                    virtual = self.middle(look, end)
                    virtual = own[one] if own[one] > virtual else virtual
                opened[one] = virtual
                if bends[one]:  # of a curve that falls the highest line of its second slope is kept
                    line = slopes[one] * virtual - BYTE * sent
                    flat[one] = line if not base[one] or line > flat[one] else flat[one]
                base[one] = sent + 1  # 0 is that of a child without an opening
            if virtual > high:
                high = virtual
            highs.append(high)
        self.highs = numpy.array(highs, dtype=object)

    def later(self, one: int, virtual: int, sent: int) -> int:
        """The virtual time of a child that was sent so many bytes, by the second slope too where its curve falls."""
        if not self.bends[one]:
            return virtual
        return max(virtual, -(-(BYTE * sent + self.flat[one] - self.bends[one]) // self.curves[one].m2))

    def middle(self, look: int, end: int) -> int:
        """The middle of the least and the greatest virtual time of those that some looks see."""
        siblings, moved, dues, slopes = self.looked
        opened, flat, bends, least, greatest = self.opened, self.flat, self.bends, -1, -1
        for at in range(look, end):
            one = siblings[at]
            virtual = opened[one] + moved[at]
            if bends[one]:
                second = -(-(dues[at] + flat[one]) // slopes[one])
                virtual = second if second > virtual else virtual
            if virtual > greatest:
                greatest = virtual
            if virtual < least or least < 0:
                least = virtual
        return (least + greatest) // 2

    def finish(self, high: int) -> None:
        """Gives each child its virtual time and its openings, and the class its high mark."""
        of_row, of_pair = self.place[self.rows], self.place[self.pairs]
        last_rows, last_pairs = (last_of(of, numpy.arange(len(of)), len(self.nodes)) for of in (of_row, of_pair))
        for one, (node, found, row, pair) in enumerate(zip(self.nodes, self.below, last_rows, last_pairs)):
            virtual = self.own[one]
            if pair >= 0 and (row < 0 or pair >= self.passed[row]):
                mark, more = self.behind(numpy.array([pair]))
                virtual = int(self.highs[int(mark[0])]) + int(more[0])
                self.opened[one], self.base[one] = virtual - int(self.gains[pair]), int(self.sent[self.pairs[pair]]) + 1
            elif found.is_active:
                moved = self.gained(numpy.array([one]), numpy.array([found.total - self.base[one] + 1]))
                virtual = self.later(one, self.opened[one] + int(moved[0]), found.total) if found.total >= self.base[one] else self.opened[one]
            if self.base[one]:
                sharing, units, at = self.curves[one], BYTE * (self.base[one] - 1), self.opened[one]
                sharing.first = sharing.last = at, units
                sharing.steep, sharing.flat = sharing.m1 * at - units, self.flat[one] if self.bends[one] else sharing.m2 * at - units
                node.virtual = virtual
        self.parent.high = max([high] + [node.virtual for node in self.nodes])

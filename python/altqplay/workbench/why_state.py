"""The state of the rules at a point of a play, from what the fates tell of all before it (`why_history`): whole numbers, without a replay.

HFSC has its state at any point. Counts, totals and openings follow at once; virtual times need a pass over the moments at which a class
becomes active or no more, since a packet in between moves one by what its curve says. Averages of CBQ and RED take a pass over
their packets. The credits of CBQ are 0 where a class has nothing that waits, and of a class alone in its priority its own packets
tell them; where several of a priority wait, `known_point` goes back to where none of them did.
"""

from __future__ import annotations

from dataclasses import dataclass

import numpy

from .columns import distinct
from .rules.cbq import AVERAGE, Cbq, Node as CbqNode, moved
from .rules.classes import CbqClass, classes_of
from .rules.curves import Openings
from .rules.hfsc import Hfsc
from .rules.packets import Packet
from .rules.play import Play
from .rules.queues import GAIN, SPACING, WEIGHT, Red, idled
from .rules.units import BYTE
from .why_history import Below, Columns, History, Point, highest
from .why_virtual import Family


LAST = 4096  # idle times from which an average is sought first


def packet_of(columns: Columns, packet: int, services: tuple[list[int], list[bool]] | None) -> Packet:
    """A packet as the rules see it, by its number less 1; `services` are the precedence of each and whether it is capable, None for none."""
    precedence, is_capable = (services[0][packet], services[1][packet]) if services else (0, False)
    return Packet(packet + 1, int(columns.arrival[packet]), int(columns.length[packet]), int(columns.of[packet]), precedence, is_capable)


def play_at(columns: Columns, point: Point, last: int, seed: int, services: tuple[list[int], list[bool]] | None) -> Play:
    """The play at a point, of which the packets before `last` are offered later."""
    history = History(columns, point)
    play = Play(columns.interface, [packet_of(columns, packet, services) for packet in range(point.offers, last)], seed)
    set_link(play, history)
    for member in play.members:
        came, went = history.came[member.place], history.went[member.place]
        for packet in history.kept[came[len(went):]].tolist():
            member.waiting.append(packet_of(columns, packet, services))
    if isinstance(play.discipline, Hfsc):
        set_hfsc(play.discipline, history)
    else:
        set_cbq(play.discipline, history)
    set_queues(play, history, services)
    return play


def set_link(play: Play, history: History) -> None:
    """Since when the link is free, and its run."""
    columns, count, offers = history.columns, history.point.sendings, history.point.offers
    play.now = max(int(columns.arrival[offers - 1]) if offers else 0, int(columns.end[count - 1]) if count else 0)
    if count:
        begins = numpy.flatnonzero(columns.start[1:count] != columns.end[:count - 1])
        first = int(begins[-1]) + 1 if len(begins) else 0
        play.link.free, play.link.run = int(columns.end[count - 1]), int(columns.start[first])
        play.link.length = int(columns.sent_length[first:count].sum())


def set_openings(openings: Openings, moments: numpy.ndarray, counts: numpy.ndarray) -> None:
    """A curve over openings, each a moment and bytes by then; nothing where there is none."""
    if len(moments):
        openings.first, openings.last = ((int(moments[at]), int(counts[at]) * BYTE) for at in (0, -1))
        openings.steep, openings.flat = (highest(slope, moments, counts) for slope in (openings.m1, openings.m2))


def set_hfsc(discipline: Hfsc, history: History) -> None:
    """What the classes of HFSC have by a point."""
    columns, below = history.columns, {}
    for node in discipline.members:
        below[node.place] = found = history.below(node.place) if node.children else history.own(node.place)
        node.is_active, node.total = found.is_active, found.total * BYTE
        moments = history.arrival[found.came[found.wakes]]
        if node.real is not None and not node.children:
            sums = numpy.concatenate([[0], numpy.cumsum(columns.sent_length[found.went] * columns.is_real[found.went])])
            node.count = int(sums[-1]) * BYTE
            set_openings(node.real, moments, sums[found.wakes])
            node.renew_head()
        if node.limiter is not None and len(moments):
            set_openings(node.limiter, moments, found.sums[found.wakes])
            node.renew_within()
    for node in discipline.members:
        if node.children:
            Family(node, below).set()
    for node in reversed(discipline.members):  # a class stands behind its parent
        node.renew_opens()


@dataclass
class Waiting:
    """The classes of a priority, of which some wait at a point: what came and went of them all, since which of the packets that came none
    of them had nothing waiting, and the places of the classes that packets came to since."""

    found: Below
    since: int
    places: list[int]


def waiting_of(history: History) -> list[Waiting]:
    """The priorities of which something waits."""
    priorities: dict[int, list[int]] = {}
    for place, given in enumerate(classes_of(history.columns.interface)):
        if isinstance(given, CbqClass):
            priorities.setdefault(given.priority, []).append(place)
    told = []
    for places in priorities.values():
        found = history.of(places)
        if found.is_active:
            since = int(found.wakes[-1])
            told.append(Waiting(found, since, numpy.unique(history.columns.of[history.kept[found.came[since:]]]).tolist()))
    return told


def known_point(columns: Columns, point: Point) -> Point:
    """The last point of CBQ, up to one, at which all credits are known: at which of each priority nothing waits, or has waited of one
    class alone since nothing of the priority did."""
    while True:
        history = History(columns, point)
        back = [int(history.kept[one.found.came[one.since]]) for one in waiting_of(history) if len(one.places) > 1]
        if not back:
            return point
        point = columns.offered(min(back))


def set_cbq(discipline: Cbq, history: History) -> None:
    """What the classes of CBQ have by a point at which all credits are known."""
    columns = history.columns
    for node in discipline.members:
        found = history.below(node.place)
        if len(found.went):
            node.ended = int(columns.end[found.went[-1]])
            node.average = average_of(node, columns, found.went) if node.parent is not None else node.average
    last = {node.given.priority: -1 for node in discipline.members}
    for node in discipline.members:
        went = history.went[node.place]
        if len(went) and went[-1] > last[node.given.priority]:
            last[node.given.priority], discipline.cursors[node.given.priority] = int(went[-1]), node.place
    for one in waiting_of(history):
        node = discipline.members[one.places[0]]
        node.credit = credit_of(node, columns.sent_length[one.found.went[one.since:]].tolist())


def credit_of(node: CbqNode, lengths: list[int]) -> int:
    """The credit of a class alone in its priority behind packets that it sent while it had more: each round gains it its quantum."""
    credit, quantum = 0, node.quantum
    for length in lengths:
        if length > credit:
            credit += -(-(length - credit) // quantum) * quantum
        credit -= length
    return credit


def average_of(node: CbqNode, columns: Columns, went: numpy.ndarray) -> int:
    """The average of a class behind some sendings. No average passes another of the same class, so where the last idle times lead the greatest and
    the least that there can be to one, that is the average, whatever was before them."""
    end = columns.end[went]
    lengths, places = distinct(columns.sent_length[went[1:]])
    own = numpy.array([-(-BYTE * int(length) // node.given.rate) for length in lengths], dtype=numpy.int64)
    idles = end[1:] - end[:-1] - own[places] if len(lengths) else end[1:]
    least, last = -AVERAGE * max(0, -int(idles.min(initial=0))), LAST  # from there the shortest idle time leads back there
    while last < len(idles):
        one, other = averages(node.cap, least, idles[-last:].tolist(), node.cap)
        if one == other:
            return one
        last *= 8
    return averages(node.cap, node.cap, idles.tolist(), node.cap)[0]


def averages(one: int, other: int, idles: list[int], cap: int) -> tuple[int, int]:
    """Two averages behind some idle times."""
    for at, idle in enumerate(idles):
        if one == other:
            return (average_behind(one, idles[at:], cap),) * 2
        one, other = moved(one, idle, cap), moved(other, idle, cap)
    return one, other


def average_behind(average: int, idles: list[int], cap: int) -> int:
    """An average behind some idle times."""
    for idle in idles:
        average = moved(average, idle, cap)
    return average


def set_queues(play: Play, history: History, services: tuple[list[int], list[bool]] | None) -> None:
    """What the queues with RED have by a point, and how many words were drawn."""
    columns, offers = history.columns, history.point.offers
    of = columns.of[:offers]
    tested: list[tuple[int, int, int, int, int, bool]] = []
    rest: list[tuple[Red, int]] = []
    for place, queue in enumerate(play.queues):
        if isinstance(queue, Red):
            found = Averages(queue, history, place, numpy.flatnonzero(of == place), services)
            tested += found.tested()
            rest += [(queue, kind) for kind in found.fresh]
    for _packet, place, kind, average, waiting, is_fresh in sorted(tested):
        asked = play.queues[place]
        assert isinstance(asked, Red)
        decide(play, asked, kind, average, waiting, is_fresh)
    for queue, kind in rest:
        queue.counts[kind] = -1


def decide(play: Play, queue: Red, kind: int, average: int, waiting: int, is_fresh: bool) -> None:
    """Takes a verdict on a packet whose average is not below the lower threshold, or whose queue is full; the count stood at -1 where
    it is `is_fresh`."""
    lower, upper = queue.thresholds[kind]
    if waiting >= queue.limit or average >= upper:
        queue.counts[kind] = 0
        return
    risen = (-1 if is_fresh else queue.counts[kind]) + 1
    over = average - lower
    spacing = SPACING * (upper - lower) - risen * over
    is_early = spacing <= 0 or play.words.draw() * spacing < over << 32
    queue.counts[kind] = 0 if is_early else risen


class Averages:
    """The averages of a queue behind the offers of its packets."""

    def __init__(self, queue: Red, history: History, place: int, packets: numpy.ndarray, services: tuple[list[int], list[bool]] | None) -> None:
        self.queue, self.history, self.place, self.packets = queue, history, place, packets
        columns = history.columns
        is_many = len(queue.thresholds) > 1
        self.kinds = numpy.array(services[0], dtype=numpy.int64)[packets] if is_many and services else numpy.zeros(len(packets), dtype=numpy.int64)
        went = history.went[place]
        self.went_kind = numpy.array(services[0], dtype=numpy.int64)[columns.packet[went]] if is_many and services else numpy.zeros(len(went), dtype=numpy.int64)
        self.start, self.arrival = columns.start[went], columns.arrival[packets]
        self.is_kept = columns.is_kept[packets]
        self.fresh: list[int] = []  # the kinds whose last packet was below the lower threshold

    def waits(self, kind: int) -> tuple[numpy.ndarray, numpy.ndarray, int, int]:
        """How many packets of a kind and of the better ones wait when each packet comes, since when none does, and both now. `since` has a
        meaning where none waits."""
        is_of, starts = self.is_kept & (self.kinds <= kind), self.start[self.went_kind <= kind]
        came = numpy.cumsum(is_of) - is_of
        gone = numpy.searchsorted(starts, self.arrival, side="left")
        since = numpy.where(gone > 0, starts[numpy.maximum(gone - 1, 0)], 0) if len(starts) else numpy.zeros(len(came), dtype=numpy.int64)
        waiting, count = int(is_of.sum()) - len(starts), len(starts)
        return came - gone, since, waiting, int(starts[-1]) if count else 0

    def averages(self, kind: int) -> numpy.ndarray:
        """The average of a kind behind each packet that moves it; sets what holds now."""
        queue, (waiting, since, queue.waiting[kind], queue.idle[kind]) = self.queue, self.waits(kind)
        moves = self.kinds <= kind
        steps = numpy.maximum(0, self.arrival - since) // queue.step
        average, found = queue.averages[kind], []
        for count, idle in zip(waiting[moves].tolist(), steps[moves].tolist()):
            average = average + GAIN * count - average // WEIGHT if count else average if average < WEIGHT else idled(average, idle)
            found.append(average)
        queue.averages[kind] = average
        behind = numpy.zeros(len(moves), dtype=numpy.int64)
        behind[moves] = found
        return behind

    def tested(self) -> list[tuple[int, int, int, int, int, bool]]:
        """The packets that are tested further than by the lower threshold: packet, place, kind, average, how many wait in the queue, and
        whether the packet of its kind before it was not."""
        averages = [self.averages(kind) for kind in range(len(self.queue.thresholds))]
        waiting = self.waits(len(averages) - 1)[0]
        found: list[tuple[int, int, int, int, int, bool]] = []
        for kind, average in enumerate(averages):
            own = numpy.flatnonzero(self.kinds == kind)
            is_tested = (average[own] >= self.queue.thresholds[kind][0]) | (waiting[own] >= self.queue.limit)
            is_fresh = numpy.concatenate([[True], ~is_tested[:-1]]) if len(own) else is_tested
            rows = own[is_tested]
            columns = (self.packets[rows], average[rows], waiting[rows], is_fresh[is_tested])
            found += [(packet, self.place, kind, one, waits, fresh) for packet, one, waits, fresh in zip(*(column.tolist() for column in columns))]
            self.fresh += [kind] if len(own) and not is_tested[-1] else []
        return found

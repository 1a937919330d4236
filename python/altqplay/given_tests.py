"""The tests of given fates (docs/reference/MANUAL.md, "The tests of given files"), by plain Python: each yields every row that fails it.

The last test, causes, is one that the program does not make (docs/reference/QUEUE-RULES.md): `full` stands exactly where the queue is full.
"""

from __future__ import annotations

from collections import defaultdict
from dataclasses import dataclass
from itertools import accumulate
from typing import Any, Iterator, Optional, Sequence

import numpy

from .workbench.conf import Curve, Interface
from .workbench.due import BYTE, due_moments

from .givens import READING, Failure, Row

EARLY = ("red", "ecn", "rio")


@dataclass(frozen=True)
class Queue:
    """A class that holds packets: its real-time curve or None, its limit in packets, its rule for early drops or "", and whether it
    clears code points and borrows."""

    name: str
    real: Optional[Curve]
    limit: int
    early: str
    is_clearing: bool
    is_borrowing: bool


@dataclass(frozen=True)
class Link:
    """An interface as the tests ask of it. `fits` is what `check` says of its curves."""

    rate: int
    is_hfsc: bool
    queues: dict[str, Queue]
    has_limits: bool
    fits: bool

    def can_occur(self, queue: Queue, fate: str) -> bool:
        """Whether a rule or a reason can occur on a class."""
        if fate in ("early", "forced"):
            return bool(queue.early)
        if fate == "full":
            return True
        if self.is_hfsc:
            return fate == "share" or (fate == "realtime" and queue.real is not None)
        return fate == "own" or (fate == "borrow" and queue.is_borrowing)

    def time(self, length: int) -> int:
        """The nanoseconds that some bytes take, rounded up."""
        return -(-length * BYTE // self.rate)


@dataclass(frozen=True)
class Came:
    """A packet as it arrived: arrival, length and class."""

    arrival: int
    length: int
    name: str


def link_of(interface: Interface) -> Link:
    """The link of an interface."""
    words = {line[3]: line for line in interface.lines}
    parents, is_hfsc = {one.parent for one in interface.classes.values()}, interface.discipline == "hfsc"
    queues = {name: queue_of(interface, name, line) for name, line in words.items() if not is_hfsc or name not in parents}
    queues = queues or {"default": Queue("default", None, 50, "", False, False)}
    return Link(interface.bandwidth, is_hfsc, queues, any(one.limit is not None for one in interface.classes.values()), interface.fit == "fits")


def queue_of(interface: Interface, name: str, words: Sequence[str]) -> Queue:
    """The queue of a class, from its canonical line."""
    options = words[5:]
    limit = int(options[options.index("qlimit") + 1]) if "qlimit" in options else 50
    return Queue(name, interface.promised(name), limit, next((rule for rule in EARLY if rule in options), ""), "cleardscp" in options, "borrow" in options)


def fail(row: Row, kind: int, test: str, found: Any, expected: Any, because: str) -> Failure:
    """A failure of a row."""
    return Failure(row.row + 1, row.row, row.number, kind, test, found, expected, because)


def of_arrivals(link: Link, rows: Sequence[Row], came: Sequence[Came]) -> Iterator[Failure]:
    """Test 2: number, arrival, length and class are those of a packet, and the word can occur on the class."""
    for row in rows:
        if not 1 <= row.number <= len(came):
            yield fail(row, 2, READING, row.number, f"1 to {len(came)}", "no packet of the arrivals has this number; numbers are places in the capture, from 1 on")
            continue
        packet = came[row.number - 1]
        wrong = [what for what, ours, theirs in zip(("arrival", "length", "class"), (packet.arrival, packet.length, packet.name), (row.arrival, row.length, row.name)) if ours != theirs]
        if wrong:
            yield fail(row, 2, READING, f"{row.arrival},{row.length},{row.name}", f"{packet.arrival},{packet.length},{packet.name}",
                       f"{' and '.join(wrong)} of the packet {'is' if len(wrong) == 1 else 'are'} otherwise in the capture, by the filters")
        elif not link.can_occur(link.queues[row.name], row.fate):
            words = [word for word in ("realtime", "share", "own", "borrow", "full", "early", "forced") if link.can_occur(link.queues[row.name], word)]
            yield fail(row, 2, READING, row.fate, ", ".join(words), f"`{row.fate}` cannot occur on {row.name}")


def of_numbers(rows: Sequence[Row], count: int) -> Iterator[Failure]:
    """Test 3: each packet has one row."""
    seen: dict[int, int] = {}
    for row in rows:
        if row.number in seen:
            yield fail(row, 3, "each once", "a second row", "one row", f"the packet has a row in line {seen[row.number] + 1} (row {seen[row.number]})")
        seen.setdefault(row.number, row.row)
    end = (rows[-1].row if rows else 0) + 1
    for number in range(1, count + 1):
        if number not in seen:
            yield Failure(end + 1, end, number, 3, "each once", "no row", "one row", "the packet has no row: also what still waits at the last arrival is sent")


def of_order(rows: Sequence[Row]) -> Iterator[Failure]:
    """Test 4: sendings of a class and drops rise, starts do not fall, and rows are in time order, a drop before a sending of its moment."""
    drop: Optional[Row] = None  # the one of greatest number before
    dropped: Optional[Row] = None  # the one of latest arrival before
    start: Optional[Row] = None  # the sending of latest start before
    last: dict[str, Row] = {}  # the sending of greatest number of each class before
    for row in rows:
        if row.start is None:
            if drop is not None and drop.number >= row.number:
                yield fail(row, 4, "order", f"packet {row.number}", f"before line {drop.row + 1}", f"packet {drop.number}, which arrived later, is dropped before it")
            elif start is not None and start.start is not None and start.start >= row.arrival:
                yield fail(row, 4, "order", f"a drop at {row.arrival}", f"before line {start.row + 1}",
                           f"packet {start.number} starts at {start.start} before it: a drop stands at its arrival, and before a sending of the same moment")
            drop = row if drop is None or row.number > drop.number else drop
            dropped = row if dropped is None or row.arrival > dropped.arrival else dropped
            continue
        other = last.get(row.name)
        if dropped is not None and dropped.arrival > row.start:
            yield fail(row, 4, "order", f"a start at {row.start}", f"before line {dropped.row + 1}",
                       f"packet {dropped.number} is dropped at {dropped.arrival} before it: rows stand in the order of decision")
        elif start is not None and start.start is not None and start.start > row.start:
            yield fail(row, 4, "order", f"a start at {row.start}", f"from {start.start} on", f"packet {start.number} starts later and stands before it: starts do not fall")
        elif other is not None and other.number >= row.number:
            yield fail(row, 4, "order", f"packet {row.number}", f"before packet {other.number}",
                       f"packet {other.number} of {row.name} arrived later and is sent first: a class sends in the order of arrival")
        start = row if start is None or row.start > (start.start or 0) else start
        last[row.name] = row if other is None or row.number > other.number else other


def of_link(link: Link, rows: Sequence[Row], each_rounded: bool) -> Iterator[Failure]:
    """Tests 5 and 6: no start is before its arrival or the end before, and each end is that of its run; with `each_rounded` that of
    its packet alone, rounded up or down."""
    before: Optional[Row] = None
    run = count = free = 0
    for row in rows:
        if row.start is None or row.end is None:
            continue
        if row.start < row.arrival:
            yield fail(row, 5, "moments", row.start, f"from {row.arrival} on", "it starts before it arrives")
        elif before is not None and row.start < free:
            yield fail(row, 5, "moments", row.start, f"from {free} on", f"the link carries packet {before.number} until then: it carries one packet at a time")
        run, count = (run, count + row.length) if before is not None and row.start == free else (row.start, row.length)
        expected, alone = run + link.time(count), row.start + link.time(row.length)
        is_near = row.end in (alone, row.start + row.length * BYTE // link.rate)
        if row.end != expected and not (each_rounded and is_near):
            yield fail(row, 6, "ends", row.end, expected, end_text(link, row, run, count, is_near))
        free, before = row.end, row


def end_text(link: Link, row: Row, run: int, count: int, is_near: bool) -> str:
    """Why an end is otherwise."""
    told = f"{count} bytes of the run since {run} take {link.time(count)} ns at {link.rate} bits per second, rounded up once"
    return told + ("; it is that of the packet alone, rounded, as ns-3 has it: each_rounded=True takes it" if is_near else "")


def of_rest(link: Link, rows: Sequence[Row]) -> Iterator[Failure]:
    """Test 7: on HFSC without upper limits the link does not rest while a packet waits."""
    if not link.is_hfsc or link.has_limits:
        return
    sent = [row for row in rows if row.start is not None]
    arrivals: list[int] = [row.arrival for row in reversed(sent)]
    firsts: list[int] = list(accumulate(arrivals, lambda one, other: min(one, other)))[::-1]  # of those that are not sent yet
    free = 0
    for row, first in zip(sent, firsts):
        expected = max(free, first)
        if row.start is not None and row.start > expected:
            yield fail(row, 7, "busy", row.start, expected, f"the link is free at {free}, and a packet waits since {first}")
        free = row.end or 0


def lateness(link: Link, rows: Sequence[Row]) -> dict[int, tuple[Row, int]]:
    """By row the packets that have a due moment, each with that."""
    by_class: dict[str, list[Row]] = defaultdict(list)
    for row in rows:
        if row.start is not None:
            by_class[row.name].append(row)
    found: dict[int, tuple[Row, int]] = {}
    for name, own in by_class.items():
        real = link.queues[name].real
        if real is not None:
            columns = [numpy.array(values, dtype=numpy.int64) for values in zip(*((row.arrival, row.start, row.length) for row in own))]
            due, has_due = due_moments(real, *columns)
            found.update({row.row: (row, int(moment)) for row, moment, there in zip(own, due.tolist(), has_due.tolist()) if there})
    return dict(sorted(found.items()))


def of_due(link: Link, rows: Sequence[Row]) -> Iterator[Failure]:
    """Test 9: where the curves fit no packet ends more than the time of the longest packet sent after its due moment."""
    if not link.fits:
        return
    bound = link.time(max((row.length for row in rows if row.start is not None), default=0))
    for row, due in lateness(link, rows).values():
        if row.end is not None and row.end > due + bound:
            yield fail(row, 9, "due moments", row.end, f"at most {due + bound}",
                       f"by the real-time curve of {row.name} it is due at {due}, and one longest packet takes {bound} ns: it is {row.end - due} ns late")


def of_causes(link: Link, rows: Sequence[Row]) -> Iterator[Failure]:
    """Test 10, which the program does not make: a packet is dropped as `full` exactly if as many packets as the limit wait in its class."""
    by_class: dict[str, list[Row]] = defaultdict(list)
    for row in sorted(rows, key=lambda row: row.number):
        by_class[row.name].append(row)
    for name, own in by_class.items():
        queue, gone = link.queues[name], 0
        kept: list[int] = []  # the starts of those before, which rise
        for row in own:
            while gone < len(kept) and kept[gone] < row.arrival:
                gone += 1
            waiting = len(kept) - gone
            if row.fate == "full" and waiting < queue.limit:
                yield fail(row, 10, "causes", f"full with {waiting} waiting", f"{queue.limit} waiting",
                           f"the limit of {name} is {queue.limit} packets, and the one on the link does not wait")
            elif row.fate != "full" and waiting >= queue.limit:
                yield fail(row, 10, "causes", f"{row.fate} with {waiting} waiting", "full", f"the limit of {name} is {queue.limit} packets, and so many wait when it arrives")
            if row.start is not None:
                kept.append(row.start)

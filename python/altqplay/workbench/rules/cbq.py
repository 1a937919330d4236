"""CBQ (docs/reference/CBQ.md): averages, who may send by its own average or by a loan, and weighted rounds.

A `Node` is a class with what its history makes of it.
"""

from __future__ import annotations

from collections.abc import Iterator, Sequence
from typing import Any

from .choices import Choice, Contest, contest
from .classes import CbqClass
from .link import Link
from .packets import Packet
from .tree import Member, joined
from .units import ceil_div, time_of

AVERAGE = 32  # an average is so many times that of the idle times, and moves by a part of so many
ROUND = 1500  # bytes that the link's rate gains in a round
OWN, BORROW = "own", "borrow"


def needed(average: int) -> int:
    """The idle time that an average of 0 or less asks for."""
    return ceil_div((AVERAGE - 1) * -average, AVERAGE)


def moved(average: int, idle: int, cap: int) -> int:
    """An average after a packet."""
    part = abs(average) // AVERAGE
    return min(cap, average - (part if average > 0 else -part) + idle)


class Node(Member["Node"]):
    """A class: what waits in it, its average, the last end of it or below it, None before one, and its credit."""

    def __init__(self, place: int, given: CbqClass, rate: int) -> None:
        super().__init__(place, given)
        self.given = given
        self.cap = given.maxburst * time_of(given.packetsize, given.rate)
        self.average = self.cap
        self.ended: int | None = None
        self.ends: dict[int, int] = {}
        self.lenders: list[Node] = []
        self.never_waits = False  # whether the root, which is never held back, lends to it
        self.credit, self.quantum = 0, max(1, ceil_div(ROUND * given.rate, rate))

    def backlog(self) -> int:
        """How many packets wait in it."""
        return len(self.waiting)

    def idle(self, length: int, end: int) -> int | None:
        """The idle time of a packet that ends at a moment; None for the first one."""
        return None if self.ended is None else end - self.ended - time_of(length, self.given.rate)

    def wanted(self, length: int) -> int:
        """Where its average is 0 or less, the least end of a packet that it allows. Told once for a length until its average moves."""
        if length not in self.ends:
            assert self.ended is not None
            self.ends[length] = self.ended + time_of(length, self.given.rate) + needed(self.average)
        return self.ends[length]

    def allowed(self, length: int, now: int, link: Link) -> int:
        """The least moment from `now` on at which it allows a packet to start; `now` is no earlier than the link is free.

        A packet that goes on with a run may end sooner than by its own time, so the moment of the last end is looked at by itself.
        """
        if self.average > 0 or self.parent is None:
            return now
        wanted = self.wanted(length)
        if link.end(now, length) >= wanted:
            return now
        return max(now + 1 if now == link.free else now, wanted - link.time(length))

    def take(self, length: int, end: int) -> None:
        """Takes that a packet of it or of a class below it ends."""
        idle = self.idle(length, end)
        if idle is not None:
            self.average = moved(self.average, idle, self.cap)
        self.ended, self.ends = end, {}

    def above(self) -> Iterator[Node]:
        """The classes that may lend to it, from its parent up."""
        node = self
        while node.given.borrows and node.parent is not None:
            node = node.parent
            yield node

    def rounds(self) -> int:
        """How many rounds its credit needs to pay for its head."""
        short = self.waiting[0].length - self.credit
        return ceil_div(short, self.quantum) if short > 0 else 0


class Cbq:
    """The choices of an interface with CBQ, over all that was kept and sent so far."""

    def __init__(self, classes: Sequence[CbqClass], link: Link) -> None:
        self.link = link
        self.members = joined([Node(place, given, link.rate) for place, given in enumerate(classes)], classes)
        for node in self.members:
            node.lenders = list(node.above())
            node.never_waits = node.parent is None or self.members[0] in node.lenders
        self.cursors: dict[int, int] = {}  # the place of the class of a priority that was sent last
        self.asked: int | None = None
        self.told: list[tuple[Node, int]] = []

    def wakes(self, _node: Node) -> list[Any]:
        """Nothing is reckoned where a class begins to wait."""
        return []

    def kept(self, node: Node, packet: Packet) -> None:
        """Takes a packet that a class's queue kept."""
        node.waiting.append(packet)
        self.asked = None

    def own_moment(self, node: Node, now: int) -> int:
        """The least moment from `now` on at which a class that waits may send its head itself."""
        return node.allowed(node.waiting[0].length, now, self.link)

    def loan(self, node: Node, now: int) -> tuple[int, Node] | None:
        """The least moment from `now` on at which a class above one that waits lends for its head, and the nearest that does then. None
        where nobody lends."""
        found: tuple[int, Node] | None = None
        for lender in node.lenders:
            moment = lender.allowed(node.waiting[0].length, now, self.link)
            if found is None or moment < found[0]:
                found = moment, lender
            if moment <= now:
                break
        return found

    def moment(self, node: Node, now: int) -> int:
        """The least moment from `now` on at which a class that waits may send its head."""
        if node.never_waits or node.average > 0:
            return now
        own = self.own_moment(node, now)
        loan = None if own <= now else self.loan(node, now)
        return own if loan is None else min(own, loan[0])

    def moments(self, now: int) -> list[tuple[Node, int]]:
        """The classes that wait, each with the least moment from `now` on at which it may send. Told once until something changes."""
        if self.asked != now:
            self.asked, self.told = now, [(node, self.moment(node, now)) for node in self.members if node.waiting]
        return self.told

    def least(self, now: int) -> int | None:
        """The least moment from `now` on at which a class may send; None where nothing waits."""
        return min((moment for _node, moment in self.moments(now)), default=None)

    def ring(self, node: Node) -> int:
        """How far behind its priority's cursor a class stands: 0 is the class that was sent last."""
        return (node.place - self.cursors.get(node.given.priority, 0)) % len(self.members)

    def candidates(self, start: int) -> list[tuple[int, int, Node]]:
        """The classes of the greatest priority that may send at a moment, in the order in which they would: the fewest rounds first, of
        equal ones by the ring. Each with both."""
        able = [node for node, moment in self.moments(start) if moment <= start]
        first = max(node.given.priority for node in able)
        return sorted((node.rounds(), self.ring(node), node) for node in able if node.given.priority == first)

    def pick(self, start: int) -> Choice[Node]:
        """Who sends at a moment at which some class may."""
        candidates = self.candidates(start)
        node = candidates[0][2]
        return Choice(node, OWN if self.own_moment(node, start) <= start else BORROW, start, candidates)

    def sent(self, choice: Choice[Node], packet: Packet, end: int) -> None:
        """Takes that the head of the choice is sent."""
        node, rounds = choice.of, choice.rivals[0][0]
        self.asked = None
        for _rounds, _ring, other in choice.rivals if rounds else []:
            other.credit += rounds * other.quantum
        node.waiting.popleft()
        node.credit = node.credit - packet.length if node.waiting else 0
        self.cursors[node.given.priority] = node.place
        for above in node.path():
            above.take(packet.length, end)

    def contests(self, choice: Choice[Node]) -> list[Contest]:
        """Among whom a choice was made: the classes of the greatest priority that may send, by their rounds."""
        ranked = [(node.name, rounds) for rounds, _ring, node in choice.rivals[:2]]
        return [contest("rounds", f"the classes of priority {choice.of.given.priority} that may send", ranked)]

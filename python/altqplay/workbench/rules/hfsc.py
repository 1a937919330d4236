"""HFSC (docs/reference/HFSC.md): real time among the leaves, link sharing down the tree, and upper limits.

A `Node` is a class with what its history makes of it. A moment that never comes is NEVER.
"""

from __future__ import annotations

from collections.abc import Sequence
from heapq import nsmallest

from ..conf import Curve
from .choices import Choice, Contest, contest
from .classes import HfscClass
from .curves import Openings
from .link import Link
from .packets import Packet
from .tree import Member, joined
from .units import BYTE

NEVER = 2**200


def openings_of(curve: Curve | None) -> Openings | None:
    """A curve over no openings yet; None where there is none."""
    return None if curve is None else Openings(curve)


class Node(Member["Node"]):
    """A class: what waits in it, its real-time count and openings, its total, its virtual time, and its limit.

    `soonest` and `deadline` are those of its head, NEVER where there is none. `within` is the moment from which it is within its limit, and
    `opens` that from which some leaf at or below it is on an open path, as far as the classes from it down say.
    """

    def __init__(self, place: int, given: HfscClass) -> None:
        super().__init__(place, given)
        self.is_active = False
        self.real, self.count = openings_of(given.realtime), 0
        self.soonest = self.deadline = NEVER
        self.sharing, self.total, self.virtual, self.high = openings_of(given.share), 0, 0, 0
        self.limiter, self.within, self.opens = openings_of(given.limit), 0, 0

    def renew_head(self) -> None:
        """Reckons when the head is eligible, and its deadline."""
        if self.real is not None and self.waiting:
            soonest = self.real.soonest(self.count)
            deadline = self.real.reaches(self.count + BYTE * self.waiting[0].length)
            self.soonest = NEVER if soonest is None else soonest
            self.deadline = NEVER if deadline is None else deadline
        else:
            self.soonest = self.deadline = NEVER

    def renew_within(self) -> None:
        """Reckons from when on it is within its limit, whose second slope is not 0."""
        within = None if self.limiter is None else self.limiter.reaches(self.total)
        assert within is not None
        self.within = within

    def renew_virtual(self) -> None:
        """Reckons its virtual time: when its link-sharing curve has given its total, and not before it became active."""
        assert self.sharing is not None and self.sharing.last is not None
        reached = self.sharing.reaches(self.total)
        assert reached is not None
        self.virtual = max(self.sharing.last[0], reached)

    def renew_opens(self) -> None:
        """Reckons from when on a leaf at or below may be served by share."""
        below = min((child.opens for child in self.children if child.is_active), default=0)
        self.opens = max(self.within, below)

    def backlog(self) -> int:
        """How many packets wait at or below it."""
        return len(self.waiting) + sum(child.backlog() for child in self.children)


class Wake:
    """That a class becomes active: the virtual time that it takes, and from which numbers. `least` and `greatest` are those of
    its active siblings, None where none is; then `high` is the high mark of its parent."""

    def __init__(self, node: Node) -> None:
        self.node = node
        active = [child.virtual for child in node.parent.children if child.is_active] if node.parent else []
        self.least, self.greatest = min(active, default=None), max(active, default=None)
        self.high, self.own = node.parent.high if node.parent else 0, node.virtual
        self.virtual = max(self.own, (min(active) + max(active)) // 2 if active else self.high)


class Hfsc:
    """The choices of an interface with HFSC, over all that was kept and sent so far."""

    def __init__(self, classes: Sequence[HfscClass], link: Link) -> None:
        self.link = link
        self.members = joined([Node(place, given) for place, given in enumerate(classes)], classes)
        self.root = self.members[0]
        self.real = [node for node in self.members if node.real is not None and not node.children]
        self.has_limits = any(node.limiter for node in self.members)

    def wakes(self, node: Node) -> list[Wake]:
        """What becomes active where a packet is kept in a leaf, from the leaf up."""
        return [Wake(above) for above in node.path() if not above.is_active]

    def kept(self, node: Node, packet: Packet) -> None:
        """Takes a packet that a leaf's queue kept."""
        node.waiting.append(packet)
        if len(node.waiting) > 1:
            return
        for wake in self.wakes(node):
            self.activate(wake.node, wake.virtual, packet.arrival)
        if node.real is not None:
            node.real.begin(packet.arrival, node.count)
            node.renew_head()
        self.renew_path(node)

    def activate(self, node: Node, virtual: int, arrival: int) -> None:
        """Makes a class active. The root takes no virtual time."""
        node.is_active = True
        if node.parent is not None:
            assert node.sharing is not None
            node.sharing.begin(virtual, node.total)
            node.virtual = virtual
            node.parent.high = max(node.parent.high, virtual)
        if node.limiter is not None:
            node.limiter.begin(arrival, node.total)
            node.renew_within()

    def renew_path(self, node: Node) -> None:
        """Reckons from when on the limits let a class and those above it be served."""
        if self.has_limits:
            for above in node.path():
                above.renew_opens()

    def least(self, now: int) -> int | None:
        """The least moment from `now` on at which a leaf may send; None where nothing waits."""
        if not self.root.is_active:
            return None
        if not self.has_limits:
            return now
        return max(now, min(self.root.opens, min((node.soonest for node in self.real), default=NEVER)))

    def pick(self, start: int) -> Choice[Node]:
        """Who sends at a moment at which some leaf may: the choice by real time, else by share."""
        found: Node | None = None
        for node in self.real:
            if node.soonest <= start and (found is None or node.deadline < found.deadline):
                found = node
        if found is not None:
            return Choice(found, "realtime", start, [])
        node = self.root
        while node.children:
            node = min((child for child in node.children if child.is_active and child.opens <= start), key=lambda child: (child.virtual, child.place))
        return Choice(node, "share", start, [])

    def sent(self, choice: Choice[Node], packet: Packet, _end: int) -> None:
        """Takes that the head of the choice is sent."""
        node, units = choice.of, BYTE * packet.length
        node.waiting.popleft()
        for above in node.path():
            above.total += units
            above.is_active = bool(above.waiting) or any(child.is_active for child in above.children)
            if above.parent is not None:
                above.renew_virtual()
                above.parent.high = max(above.parent.high, above.virtual)
            if above.limiter is not None:
                above.renew_within()
        if choice.rule == "realtime":
            node.count += units
        node.renew_head()
        self.renew_path(node)

    def contests(self, choice: Choice[Node]) -> list[Contest]:
        """Among whom a choice was made: by real time the eligible leaves, by share the children of each class on the way down."""
        if choice.rule == "realtime":
            eligible = nsmallest(2, (node for node in self.real if node.soonest <= choice.start), key=lambda node: (node.deadline, node.place))
            ranked = [(node.name, None if node.deadline == NEVER else node.deadline) for node in eligible]
            return [contest("deadline", "the eligible heads", ranked)]
        found = []
        for node in list(choice.of.path())[-2::-1]:
            assert node.parent is not None
            able = (child for child in node.parent.children if child.is_active and child.opens <= choice.start)
            rivals = nsmallest(2, able, key=lambda child: (child.virtual, child.place))
            found.append(contest("virtual time", f"the children of {node.parent.name}", [(child.name, child.virtual) for child in rivals]))
        return found

"""Plays arrivals by the rules, one decision at a time (docs/reference/MANUAL.md, "What is played")."""

from __future__ import annotations

from collections.abc import Sequence
from dataclasses import dataclass
from typing import Any

from ..conf import Interface
from .cbq import Cbq
from .choices import Choice
from .classes import CbqClass, HfscClass, classes_of
from .hfsc import Hfsc
from .link import Link
from .packets import Packet
from .queues import Verdict, queue_of
from .words import Words

LATER = 2**200


@dataclass
class Offer:
    """That a packet is offered to its class's queue; the verdict stands there once it was."""

    __slots__ = ("packet", "of", "verdict")
    packet: Packet
    of: Any  # the class, as the discipline of the play has it
    verdict: Verdict | None

    @property
    def answer(self) -> Verdict:
        """The verdict, once it was given."""
        assert self.verdict is not None
        return self.verdict


@dataclass
class Sending:
    """That the head of a class is sent, by a choice; when it ends."""

    __slots__ = ("packet", "choice", "end")
    packet: Packet
    choice: Choice[Any]
    end: int


def discipline_of(classes: Sequence[HfscClass | CbqClass], link: Link) -> Hfsc | Cbq:
    """The choices of an interface with some classes, all of them of HFSC or all of CBQ."""
    shared = [given for given in classes if isinstance(given, HfscClass)]
    if len(shared) == len(classes):
        return Hfsc(shared, link)
    return Cbq([given for given in classes if isinstance(given, CbqClass)], link)


class Play:
    """A play of some packets over an interface. `next` tells the decision that is due, and `take` takes it.

    Between the two, `discipline`, `queues` and `link` are as they were before the decision.
    """

    def __init__(self, interface: Interface, packets: list[Packet], seed: int) -> None:
        classes = classes_of(interface)
        self.packets, self.at = packets, 0
        self.link = Link(interface.bandwidth)
        self.discipline = discipline_of(classes, self.link)
        self.members: Sequence[Any] = self.discipline.members
        self.queues = [queue_of(given.queue, interface.bandwidth) for given in classes]
        self.words = Words(seed)
        self.now = 0  # the last arrival that was offered, or the end of the last sending if that is later

    def next(self) -> Offer | Sending | None:
        """The decision that is due, or None behind the last: the least moment at which some class may send, or if a packet arrives
        up to it, that it is offered."""
        arrival = self.packets[self.at].arrival if self.at < len(self.packets) else LATER
        start = self.discipline.least(self.now) if arrival > self.now else LATER
        if arrival < LATER and (start is None or arrival <= start):
            packet = self.packets[self.at]
            return Offer(packet, self.members[packet.place], None)
        if start is None:
            return None
        choice = self.discipline.pick(start)
        packet = choice.of.waiting[0]
        return Sending(packet, choice, self.link.end(start, packet.length))

    def take(self, decision: Offer | Sending) -> None:
        """Takes a decision: an offer gets its verdict then."""
        if isinstance(decision, Offer):
            self.offer(decision)
        else:
            self.send(decision)

    def offer(self, offer: Offer) -> None:
        """Offers a packet to its class's queue."""
        packet, of = offer.packet, offer.of
        queue = self.queues[packet.place]
        self.at += 1
        self.now = max(self.now, packet.arrival)
        offer.verdict = queue.arrive(len(of.waiting), packet.arrival, packet, self.words)
        if offer.verdict.word in ("kept", "marked"):
            queue.added(packet)
            self.discipline.kept(of, packet)

    def send(self, sending: Sending) -> None:
        """Sends a packet over the link."""
        packet, choice = sending.packet, sending.choice
        self.link.send(choice.start, packet.length)
        self.queues[packet.place].left(packet, choice.start)
        self.discipline.sent(choice, packet, sending.end)
        self.now = sending.end

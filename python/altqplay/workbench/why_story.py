"""The story of a packet: what stood before it when it came, whose packets the link carried meanwhile and why each of them went first."""

from __future__ import annotations

from collections.abc import Callable
from dataclasses import dataclass, field
from typing import Any, Optional

from .rules.cbq import Cbq
from .rules.hfsc import NEVER, Hfsc, Node
from .rules.packets import Packet
from .rules.play import Offer, Play, Sending
from .rules.queues import KEPT, MARKED
from .texts import Times
from .why_words import VERBS, of_verdict

TURNS = 40  # the most that are told of the turns in which packets went before it
SPOKEN = {"realtime": "real time", "share": "share", "own": "its own rate", "borrow": "a loan"}


@dataclass
class Turn:
    """Packets of a class that were sent one after the other by one rule: when, how many, how many bytes, and why at first."""

    of: str
    rule: str
    start: int
    packets: list[int]
    size: int
    reason: str


@dataclass
class Story:
    """The story of a packet, told while a play goes on. `origin` is the first arrival, from which moments count."""

    number: int
    times: Times
    origin: int
    names: Callable[[int], str]
    on_link: Callable[[], str]  # the class of the last packet that was sent
    packet: Optional[Packet] = None
    head: list[str] = field(default_factory=list)
    turns: list[Turn] = field(default_factory=list)
    carried: dict[str, int] = field(default_factory=dict)  # nanoseconds of the wait that the link carried packets of a class
    ending: list[str] = field(default_factory=list)

    def own(self) -> Packet:
        """The packet, once it came."""
        assert self.packet is not None
        return self.packet

    def moment(self, at: int) -> str:
        """A moment of the capture."""
        return self.times.number(at - self.origin)

    def look(self, play: Play, decision: Offer | Sending) -> Optional[Callable[[Offer | Sending], None]]:
        """Looks at a decision before it is taken."""
        if isinstance(decision, Offer):
            return self.came(play, decision) if decision.packet.number == self.number else None
        if self.packet is not None and not self.ending:
            if decision.packet.number == self.number:
                self.end(play, decision)
            else:
                self.turn(play, decision)
        return None

    def came(self, play: Play, offer: Offer) -> Callable[[Offer | Sending], None]:
        """The packet comes: what stands before it is told, and behind the offer whether it is kept."""
        packet, link = offer.packet, play.link
        before = "the link is free"
        if link.free is not None and link.free > packet.arrival:
            self.carry(self.on_link(), link.free - packet.arrival)
            before = f"the link carries a packet of {self.on_link()} until {self.moment(link.free)}"
        waits = ", ".join(f"{len(node.waiting)} of {node.name}" for node in play.members if node.waiting)
        text = f"{before}; {waits + (' wait' if waits else '') or 'nothing waits'}"

        def behind(_offer: Offer | Sending) -> None:
            self.head = [f"packet {packet.number} of {offer.of.name}, {packet.length} bytes; moments are {self.times.unit} after the first arrival",
                         self.line(packet.arrival, f"it comes: {text}")]
            if offer.answer.word in (KEPT, MARKED):
                self.packet = packet
            else:
                told = "; ".join(of_verdict(offer, play.words.drawn))
                self.ending = [self.line(packet.arrival, f"it {VERBS[offer.answer.word]}: {told}")]

        return behind

    def line(self, at: int, text: str) -> str:
        """A line of what happens at a moment."""
        return f"  {self.moment(at):>12}  {text}"

    def carry(self, of: str, time: int) -> None:
        """Adds to the time that the link took for something."""
        self.carried[of] = self.carried.get(of, 0) + time

    def idle(self, play: Play, sending: Sending) -> None:
        """Adds the time that the link waited before a sending."""
        since = max(play.now, self.own().arrival)
        if sending.choice.start > since:
            self.carry("a link that may not send", sending.choice.start - since)

    def turn(self, play: Play, sending: Sending) -> None:
        """Another packet goes first."""
        node, own = sending.choice.of, play.members[self.own().place]
        self.idle(play, sending)
        self.carry(node.name, sending.end - sending.choice.start)
        last = self.turns[-1] if self.turns else None
        if last is not None and last.of == node.name and (node is own or last.rule == sending.choice.rule):
            last.packets.append(sending.packet.number)
            last.size += sending.packet.length
        else:
            self.turns.append(Turn(node.name, sending.choice.rule, sending.choice.start, [sending.packet.number], sending.packet.length,
                                   Reason(self, play, sending, own).text()))

    def end(self, play: Play, sending: Sending) -> None:
        """The packet itself goes."""
        packet, start, end = self.own(), sending.choice.start, sending.end
        self.idle(play, sending)
        self.ending = [self.line(start, f"it goes by {SPOKEN[sending.choice.rule]}"), self.line(end, "its last bit has left"),
                       f"it took {self.times.text(end - packet.arrival)}, of which it waited {self.times.text(start - packet.arrival)}" + self.shares(start - packet.arrival)]

    def shares(self, wait: int) -> str:
        """What the wait went to."""
        own = self.names(self.own().place)
        ranked = sorted(((time, of) for of, time in self.carried.items() if time), key=lambda pair: -pair[0])
        told = [f"{(200 * time + wait) // (2 * wait) or '<1'} % {'its own class' if of == own else of}" for time, of in ranked]
        return ": " + ", ".join(told) if told else ""

    def turn_line(self, turn: Turn) -> str:
        """A turn as a line."""
        count = len(turn.packets)
        what = f"packet {turn.packets[0]}" if count == 1 else f"{count} packets, {turn.packets[0]} to {turn.packets[-1]},"
        why = turn.reason if turn.of == self.names(self.own().place) else f"by {SPOKEN[turn.rule]}: {turn.reason}"
        return self.line(turn.start, f"{what} of {turn.of}, {turn.size} bytes, {why}")

    def lines(self) -> list[str]:
        """The story."""
        told = [self.turn_line(turn) for turn in self.turns]
        if len(told) > TURNS:
            told = [*told[:TURNS // 2], f"  {'':>12}  and {len(told) - TURNS} turns more", *told[-(TURNS // 2):]]
        return self.head + told + self.ending


class Reason:
    """Why a packet goes before one of another class."""

    def __init__(self, story: Story, play: Play, sending: Sending, own: Any) -> None:
        self.story, self.play, self.choice, self.own = story, play, sending.choice, own

    def text(self) -> str:
        """The reason in words."""
        if self.choice.of is self.own:
            return "which came before it"
        if isinstance(self.play.discipline, Cbq):
            return self.by_rounds(self.play.discipline)
        return self.by_deadline() if self.choice.rule == "realtime" else self.by_virtual(self.play.discipline)

    def by_deadline(self) -> str:
        """Why a head goes by real time."""
        first, own = self.choice.of, self.own
        due = "its head has no deadline" if first.deadline == NEVER else f"its head is due at {self.story.moment(first.deadline)}"
        if own.real is None:
            return f"{due}, and {own.name} has no real-time curve"
        if own.soonest > self.choice.start:
            return f"{due}, and {own.name} is not eligible" + ("" if own.soonest == NEVER else f" before {self.story.moment(own.soonest)}")
        mine = "has no deadline" if own.deadline == NEVER else f"is due at {self.story.moment(own.deadline)}"
        return f"{due}, that of {own.name} {mine}" + (", and it stands earlier in the file" if first.deadline == own.deadline else "")

    def by_virtual(self, discipline: Hfsc) -> str:
        """Why a head goes by share: at the class where both paths part."""
        first, own = self.parted(self.choice.of, self.own)
        if own.opens > self.choice.start:
            return f"{own.name} is beyond a limit until {self.story.moment(own.opens)}"
        number = self.story.times.number
        told = f"no head is eligible, and the virtual time of {first.name} is {number(first.virtual)}, of {own.name} {number(own.virtual)}"
        return told + (", a tie, and it stands earlier in the file" if first.virtual == own.virtual else "")

    @staticmethod
    def parted(one: Node, other: Node) -> tuple[Node, Node]:
        """The classes on two paths up to the root that have one parent."""
        ones, others = list(one.path())[::-1], list(other.path())[::-1]
        return next((first, second) for first, second in zip(ones, others) if first is not second)

    def by_rounds(self, discipline: Cbq) -> str:
        """Why a class of CBQ goes."""
        first, own, start = self.choice.of, self.own, self.choice.start
        moment = discipline.moment(own, start)
        if moment > start:
            return f"{own.name} may not send before {self.story.moment(moment)}"
        if first.given.priority != own.given.priority:
            return f"its priority is {first.given.priority}, that of {own.name} {own.given.priority}"
        if first.rounds() == own.rounds():
            return f"both need {first.rounds()} rounds, and the ring comes to it first"
        return f"it needs {first.rounds()} rounds, {own.name} {own.rounds()}"

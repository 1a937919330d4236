"""Senders that react: what TCP does to a queue, and the queue to TCP.

    from altqplay import senders
    loop = senders.run("altq.conf", [senders.Reno(port=80, rtt_ms=20), senders.Constant("1M", port=5004)], seconds=5)
    loop.windows, loop.rates(), loop.played.delays()

This is outside of what is proved. A play has its arrivals before it begins; here each arrival depends on what became of those before it,
so a model of the rules in Python, which is slow, decides step by step, and simple senders answer. Behind it the proved program plays the
arrivals that came about: `played` is its play, and `differs` the first packet of which it decides otherwise, None where there is none.
So fates can be trusted as far as the arrivals go; that senders behave as these do is assumed. Their link back has no queue, and every
packet is acknowledged. Two runs with the same words are the same.
"""

from __future__ import annotations

import heapq
from dataclasses import dataclass, field
from typing import Any, Callable, Optional, Sequence, Union

import pandas

from . import tables
from .comparing import compare
from .inputs import Conf
from .playing import Play, play
from .workbench.faults import Refused
from .workbench.figure_plays import rate_of
from .workbench.rules.classes import classes_of
from .workbench.rules.frames import is_capable, precedence
from .workbench.rules.packets import Packet
from .workbench.rules.play import Offer, Sending
from .workbench.rules.play import Play as Model

SECOND, MILLISECOND, BYTE = 10**9, 10**6, 8 * 10**9
CAPABLE = 2  # ECT(0) of RFC 3168, in the type of service
DUPLICATES = 3  # acknowledgements of the same packet that tell of a loss (RFC 5681)
LEAST_TIMEOUT = 200 * MILLISECOND  # as Linux has it; RFC 6298 has a second
FATES = ["number", "arrival", "length", "class", "fate", "start", "end", "sender"]
WINDOWS = ["time_ns", "sender", "window", "threshold", "what"]


@dataclass
class Constant:
    """A sender that does not react: packets of `length` bytes at a rate in bits per second, as `1M`, from `start_ms` on, up to `stop_ms`
    or the end."""

    rate: Union[str, int]
    port: int = 9000
    length: int = 1000
    start_ms: float = 0
    stop_ms: Optional[float] = None
    proto: str = "udp"
    tos: int = 0
    name: str = ""
    rtt_ms: float = 0

    def begin(self, line: "Line") -> None:
        """Plans the first packet."""
        self.sent, self.first, self.bits = 0, int(self.start_ms * MILLISECOND), rate_of(str(self.rate))
        if self.bits <= 0:
            raise Refused(f"{self.rate}: a rate above 0 is wanted")
        line.at(self.first, lambda now: self.next(line, now))

    def next(self, line: "Line", now: int) -> None:
        """Sends a packet, and plans the one behind it."""
        if self.stop_ms is None or now < self.stop_ms * MILLISECOND:
            line.send(self.sent, now)
            self.sent += 1
            line.at(self.first + -(-self.sent * self.length * BYTE // self.bits), lambda then: self.next(line, then))

    def acknowledged(self, line: "Line", number: int, is_marked: bool, now: int) -> None:
        """What arrives changes nothing."""


@dataclass
class Reno:
    """A sender of TCP Reno (RFC 5681, with the fast recovery of RFC 6582 and the timeout of RFC 6298), in packets of `length` bytes.

    It sends from `start_ms` on, without end or `packets` of them. `rtt_ms` is the round trip without the time on the link and in its
    queue, `initial` the first window. With `ecn` its packets say that they can be marked, and a mark halves the window (RFC 3168).
    """

    port: int = 80
    rtt_ms: float = 20
    length: int = 1500
    start_ms: float = 0
    packets: Optional[int] = None
    initial: int = 3
    ecn: bool = False
    proto: str = "tcp"
    tos: int = 0
    name: str = ""

    def begin(self, line: "Line") -> None:
        """Plans the first window."""
        if self.initial < 1:
            raise Refused("initial: the first window is 1 packet or more")
        self.window, self.threshold = float(self.initial), float(2**30)
        self.first = self.next = self.expected = 0  # the first that is not acknowledged, the next that is new, the one that the receiver expects
        self.early: set[int] = set()  # what the receiver has behind a gap
        self.sent: dict[int, int] = {}  # when packets were sent that were sent once
        self.duplicates, self.recover, self.halved = 0, 0, 0
        self.is_recovering = self.is_partial = False
        self.smooth, self.spread, self.timeout, self.timer = 0, 0, SECOND, 0
        line.at(int(self.start_ms * MILLISECOND), lambda now: self.fill(line, now))

    def fill(self, line: "Line", now: int) -> None:
        """Sends what the window allows."""
        while self.next - self.first < int(self.window) and (self.packets is None or self.next < self.packets):
            self.put(line, self.next, now)
            self.next += 1

    def put(self, line: "Line", number: int, now: int) -> None:
        """Sends a packet, new or again."""
        if number in self.sent or number < self.recover:
            self.sent.pop(number, None)  # its round trip tells nothing (Karn)
        else:
            self.sent[number] = now
        line.send(number, now)
        if self.next == self.first:
            self.restart(line, now)

    def restart(self, line: "Line", now: int) -> None:
        """Winds the timer up."""
        self.timer += 1
        timer = self.timer
        line.at(now + self.timeout, lambda then: self.late(line, then) if timer == self.timer else None)

    def half(self) -> float:
        """Half of what is under way, but no more than half of the window: behind a loss more may be sent than is not acknowledged."""
        return max(min(self.next - self.first, self.window) / 2, 2.0)

    def late(self, line: "Line", now: int) -> None:
        """The timer ran out: the window begins anew with one packet."""
        if self.first == self.next:
            return
        self.threshold = self.threshold if self.is_recovering else self.half()  # once for a window, as Linux has it
        self.window, self.is_recovering, self.duplicates = 1.0, False, 0
        self.recover, self.timeout = self.next, min(2 * self.timeout, 60 * SECOND)
        self.next = self.first
        line.note(now, "timeout")
        self.fill(line, now)

    def acknowledged(self, line: "Line", number: int, is_marked: bool, now: int) -> None:
        """A packet arrived, and its acknowledgement comes."""
        self.early.add(number)
        while self.expected in self.early:
            self.early.remove(self.expected)
            self.expected += 1
        self.early = {one for one in self.early if one > self.expected}
        if is_marked and self.first >= self.halved:
            self.threshold = self.window = self.half()
            self.halved = self.next
            line.note(now, "mark")
        if self.expected > self.first:
            self.moved(line, number, now)
        else:
            self.again(line, now)
        self.fill(line, now)

    def moved(self, line: "Line", number: int, now: int) -> None:
        """New packets are acknowledged."""
        count, self.first = self.expected - self.first, self.expected
        self.next = max(self.next, self.first)
        if number in self.sent:
            self.measure(now - self.sent[number])
        self.sent = {one: at for one, at in self.sent.items() if one >= self.first}
        if self.is_recovering and self.first < self.recover:
            self.window, is_first, self.is_partial = max(self.window - count + 1, 1.0), not self.is_partial, True
            self.put(line, self.first, now)
            if not is_first:
                return  # so a window of which much is lost runs into the timeout (RFC 6582, "impatient")
        elif self.is_recovering:
            self.window, self.is_recovering, self.duplicates = self.threshold, False, 0
            line.note(now, "recovered")
        else:
            self.window, self.duplicates = self.window + (1.0 if self.window < self.threshold else 1.0 / self.window), 0
            line.note(now, "acknowledged")
        self.restart(line, now)

    def again(self, line: "Line", now: int) -> None:
        """The same packet is expected again: the third time it is sent again."""
        self.duplicates += 1
        if self.is_recovering:
            self.window += 1.0
        elif self.duplicates == DUPLICATES and self.first >= self.recover and self.first < self.next:
            self.threshold = self.half()
            self.window, self.is_recovering, self.is_partial, self.recover = self.threshold + DUPLICATES, True, False, self.next
            line.note(now, "loss")
            self.put(line, self.first, now)

    def measure(self, trip: int) -> None:
        """Sets the timeout by a round trip."""
        if self.smooth == 0:
            self.smooth, self.spread = trip, trip // 2
        else:
            self.spread = (3 * self.spread + abs(self.smooth - trip)) // 4
            self.smooth = (7 * self.smooth + trip) // 8
        self.timeout = max(self.smooth + 4 * self.spread, LEAST_TIMEOUT)


Sender = Union[Constant, Reno]


@dataclass
class Line:
    """What a sender has of the loop: when it is called, and where it sends."""

    loop: "Run"
    place: int
    sender: Sender

    def at(self, moment: int, call: Callable[[int], Any]) -> None:
        """Has something called at a moment."""
        self.loop.plan(moment, call)

    def send(self, number: int, now: int) -> None:
        """Sends a packet now."""
        self.loop.offer(self, number, now)

    def note(self, now: int, what: str) -> None:
        """Keeps the window."""
        self.loop.windows.append((now, self.sender.name, getattr(self.sender, "window"), getattr(self.sender, "threshold"), what))


@dataclass
class Run:
    """A loop that runs: the model, what is planned, and what came about. `places` are those of the senders' classes."""

    model: Model
    end: int
    places: list[int]
    services: list[int]
    planned: list[tuple[int, int, Callable[[int], Any]]] = field(default_factory=list)
    count: int = 0
    owners: list[tuple[Line, int]] = field(default_factory=list)  # of each packet its sender's line and number
    fates: list[tuple[Any, ...]] = field(default_factory=list)
    windows: list[tuple[int, str, float, float, str]] = field(default_factory=list)

    def plan(self, moment: int, call: Callable[[int], Any]) -> None:
        """Has something called at a moment, in the order in which it was planned."""
        self.count += 1
        heapq.heappush(self.planned, (moment, self.count, call))

    def offer(self, line: Line, number: int, now: int) -> None:
        """A packet arrives at the link."""
        tos, length = self.services[line.place], line.sender.length
        packet = Packet(len(self.owners) + 1, now, length, self.places[line.place], precedence(tos), is_capable(tos))
        self.owners.append((line, number))
        self.model.packets.append(packet)
        offer = self.model.next()
        assert isinstance(offer, Offer)  # nothing starts before it
        self.model.take(offer)
        word = offer.verdict.word if offer.verdict else ""
        if word not in ("kept", "marked"):
            self.fates.append((packet.number, now, length, offer.of.name, word, None, None, line.sender.name))

    def send(self, sending: Sending) -> None:
        """A packet is sent, and acknowledged a round trip after its end."""
        self.model.take(sending)
        packet, (line, number) = sending.packet, self.owners[sending.packet.number - 1]
        is_marked = packet.number in getattr(self.model.queues[packet.place], "marked", ())
        self.fates.append((packet.number, packet.arrival, packet.length, self.model.members[packet.place].name, sending.choice.rule, sending.choice.start, sending.end, line.sender.name))
        self.plan(sending.end + int(line.sender.rtt_ms * MILLISECOND), lambda now: line.sender.acknowledged(line, number, is_marked, now))

    def run(self) -> None:
        """Goes on to the end, and sends what waits then."""
        model = self.model
        while True:
            start = model.discipline.least(model.now)
            while self.planned and self.planned[0][0] >= self.end:
                heapq.heappop(self.planned)
            if self.planned and (start is None or self.planned[0][0] <= max(start, model.now)):
                moment, _order, call = heapq.heappop(self.planned)
                call(moment)
            elif start is None:
                return
            else:
                sending = model.next()
                assert isinstance(sending, Sending)
                self.send(sending)


class Loop:
    """What came about. `packets` are the arrivals as `altqplay.play` takes them, `fates` a row for each in the order of decision, with
    its sender, `windows` a row for each change of a window: time_ns, sender, window and threshold in packets, and what changed it.
    `played` is the program's play of the packets, and `differs` the first packet of which it decides otherwise, None where there is none."""

    def __init__(self, packets: pandas.DataFrame, run: Run, played: Play) -> None:
        self.packets, self.played = packets, played
        rows = list(zip(*run.fates)) if run.fates else [()] * len(FATES)
        self.fates = pandas.DataFrame({name: tables.numbers(values) if name in ("number", "arrival", "length", "start", "end") else list(values) for name, values in zip(FATES, rows)})
        self.windows = pandas.DataFrame(run.windows, columns=WINDOWS)
        self.differs = compare(played, self.fates[FATES[:-1]]).first if len(packets) else None

    def __repr__(self) -> str:
        return f"<altqplay.senders.Loop: {len(self.packets)} packets, {int(self.fates['end'].isna().sum())} dropped" + ("" if self.differs is None else f", packet {self.differs} differs") + ">"

    def rates(self, step_ms: int = 100) -> pandas.DataFrame:
        """A row for each sender and stretch of so many milliseconds: time_ns, its begin, sender, and rate, the bits per second that were sent."""
        sent = self.fates.dropna(subset=["end"])
        step = step_ms * MILLISECOND
        sums = sent.assign(time_ns=(sent["end"].astype("int64") - 1) // step * step).groupby(["time_ns", "sender"], sort=True)["length"].sum().reset_index()
        return pandas.DataFrame({"time_ns": sums["time_ns"], "sender": sums["sender"], "rate": sums["length"].astype("int64") * BYTE // step})


def run(conf: Conf, senders: Sequence[Sender], seconds: float, seed: int = 42, *, interface: Optional[str] = None, program: Optional[str] = None) -> Loop:
    """Lets senders send over a configuration for some seconds. A sender's class follows from its `proto`, `port` and `tos`, by the filters.

    >>> loop = run("interface if0 bandwidth 8M hfsc", [Reno(), Constant("2M", name="calls")], 1)
    >>> loop.differs is None, loop.rates(1000)["rate"].sum() <= 8_000_000
    (True, True)
    """
    if not senders or seconds <= 0:
        raise Refused("a loop needs a sender and a time above 0")
    for place, one in enumerate(senders, 1):
        one.name = one.name or f"{type(one).__name__.lower()} {place}"
    services = [one.tos | (CAPABLE if isinstance(one, Reno) and one.ecn else 0) for one in senders]
    columns: dict[str, list[Any]] = {"port": [one.port for one in senders], "proto": [one.proto for one in senders], "tos": services, "length": [one.length for one in senders]}
    asked = play(conf, pandas.DataFrame({"time_ns": [0] * len(senders), **columns}), seed, interface=interface, program=program)
    if asked.interface.meters:
        raise Refused("an interface with conditioners is not played with senders that react")
    classes = {given.name: place for place, given in enumerate(classes_of(asked.interface))}
    own = [classes[name] for name in asked.fates.sort_values("number")["class"]]
    loop = Run(Model(asked.interface, [], seed), int(seconds * SECOND), own, services)
    for place, one in enumerate(senders):
        one.begin(Line(loop, place, one))
    loop.run()
    places = [line.place for line, _number in loop.owners]
    packets = pandas.DataFrame({"time_ns": [one.arrival for one in loop.model.packets], **{name: [values[place] for place in places] for name, values in columns.items()}})
    return Loop(packets, loop, play(conf, packets, seed, interface=interface, program=program))

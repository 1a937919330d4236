"""What a queue keeps and drops: by its limit, RED, RED that marks, and RIO (docs/reference/QUEUE-RULES.md)."""

from __future__ import annotations

from dataclasses import dataclass, field

from .classes import Queueing
from .packets import Packet
from .units import time_of
from .words import Words

PACKET = 2**21  # an average of one packet
GAIN, WEIGHT = 4096, 512
SPACING = 10  # the greatest chance of an early drop is one in so many
TYPICAL = 1000  # bytes of the packet of an idle step
RED = ((5, 15),)
RIO = ((35, 45), (20, 30), (5, 15))
KEPT, MARKED, FULL, FORCED, EARLY = "kept", "marked", "full", "forced", "early"


@dataclass
class Move:
    """How an arrival moved an average: `waiting` packets of it waited; where none did it took `steps` idle steps."""

    __slots__ = ("precedence", "waiting", "steps", "before", "after")
    precedence: int
    waiting: int
    steps: int
    before: int
    after: int


@dataclass
class Verdict:
    """What a queue answers, `word`, and by which numbers.

    `waiting` packets waited, of at most `limit`. Of RED and RIO: how each average moved, the precedence whose `lower` and `upper`
    threshold decide, and the count after it. Between the thresholds also the count before it falls to 0 (`risen`), `over` and `spacing`,
    which are the average less the lower threshold and d of the page, and the word that was `drawn`, or None.
    """

    word: str
    waiting: int
    limit: int
    moves: list[Move] = field(default_factory=list)
    precedence: int = 0
    lower: int = 0
    upper: int = 0
    count: int = 0
    risen: int | None = None
    over: int | None = None
    spacing: int | None = None
    drawn: int | None = None

    @property
    def average(self) -> int | None:
        """The average by which it was decided; None where there is none."""
        return next((move.after for move in self.moves if move.precedence == self.precedence), None)


def idled(average: int, steps: int) -> int:
    """An average after some idle steps: one below the weight is its own next."""
    while steps and average >= WEIGHT:
        average -= average // WEIGHT
        steps -= 1
    return average


class Tail:
    """Drops exactly where the limit waits. It looks at no precedence."""

    def __init__(self, limit: int) -> None:
        self.limit = limit

    def arrive(self, waiting: int, _now: int, _packet: Packet, _words: Words) -> Verdict:
        """The verdict on a packet that finds so many waiting."""
        return Verdict(FULL if waiting >= self.limit else KEPT, waiting, self.limit)

    def added(self, packet: Packet) -> None:
        """A packet was kept."""

    def left(self, packet: Packet, start: int) -> None:
        """A packet starts at a moment, and waits no more."""


class Red:
    """RED, RED that marks and RIO: an average for each precedence, over the waiting packets of it and of the better ones.

    RED has one average, and no packet's precedence counts in it. The words that it draws are those of the play.
    """

    def __init__(self, limit: int, rate: int, rule: str) -> None:
        self.limit, self.marks = limit, rule == "ecn"
        self.marked: list[int] = []  # the numbers of the packets that were marked
        self.thresholds = [(lower * PACKET, upper * PACKET) for lower, upper in (RIO if rule == "rio" else RED)]
        self.step = time_of(TYPICAL, rate)
        places = len(self.thresholds)
        self.averages, self.counts = [0] * places, [-1] * places
        self.waiting, self.idle = [0] * places, [0] * places

    def precedence(self, packet: Packet) -> int:
        """The place of a packet's average."""
        return packet.precedence if len(self.thresholds) > 1 else 0

    def move(self, place: int, now: int) -> Move:
        """Moves the average of a place by an arrival."""
        waiting, before = self.waiting[place], self.averages[place]
        if waiting:
            steps, after = 0, before + GAIN * waiting - before // WEIGHT
        else:
            steps = max(0, now - self.idle[place]) // self.step
            after = idled(before, steps)
        self.averages[place] = after
        return Move(place, waiting, steps, before, after)

    def arrive(self, waiting: int, now: int, packet: Packet, words: Words) -> Verdict:
        """The verdict on a packet that finds so many waiting. It moves the averages, and may draw a word."""
        place = self.precedence(packet)
        moves = [self.move(other, now) for other in range(place, len(self.thresholds))]
        lower, upper = self.thresholds[place]
        verdict = Verdict(KEPT, waiting, self.limit, moves, place, lower, upper)
        self.decide(verdict, self.averages[place], words)
        self.counts[place] = verdict.count
        if verdict.word == EARLY and self.marks and packet.is_capable:
            verdict.word = MARKED
            self.marked.append(packet.number)
        return verdict

    def decide(self, verdict: Verdict, average: int, words: Words) -> None:
        """The first of the tests that applies: word and count of a verdict."""
        if verdict.waiting >= verdict.limit:
            verdict.word, verdict.count = FULL, 0
        elif average < verdict.lower:
            verdict.count = -1
        elif average >= verdict.upper:
            verdict.word, verdict.count = FORCED, 0
        else:
            verdict.count = verdict.risen = self.counts[verdict.precedence] + 1
            verdict.over = average - verdict.lower
            verdict.spacing = SPACING * (verdict.upper - verdict.lower) - verdict.risen * verdict.over
            verdict.drawn = words.draw() if verdict.spacing > 0 else None
            if verdict.drawn is None or verdict.drawn * verdict.spacing < 2**32 * verdict.over:
                verdict.word, verdict.count = EARLY, 0

    def added(self, packet: Packet) -> None:
        """A packet was kept."""
        for place in range(self.precedence(packet), len(self.waiting)):
            self.waiting[place] += 1

    def left(self, packet: Packet, start: int) -> None:
        """A packet starts at a moment, and waits no more."""
        for place in range(self.precedence(packet), len(self.waiting)):
            self.waiting[place] -= 1
            if not self.waiting[place]:
                self.idle[place] = start


def queue_of(queueing: Queueing, rate: int) -> Tail | Red:
    """The queue of a class on a link of a rate."""
    return Tail(queueing.limit) if queueing.rule == "tail" else Red(queueing.limit, rate, queueing.rule)

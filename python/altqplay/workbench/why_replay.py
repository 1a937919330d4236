"""Replays a play by the rules, and says where its fates are not those of the rules."""

from __future__ import annotations

from collections.abc import Callable, Sequence
from dataclasses import dataclass
from typing import TYPE_CHECKING, Any

from .foreign import EACH_ROUNDED
from .journals import is_each_rounded
from .rows import Fate
from .rules.play import Offer, Sending
from .rules.queues import KEPT, MARKED
from .rules.tree import Member
from .why_inputs import Question

if TYPE_CHECKING:
    from .why_window import Window

# What looks at a decision before it is taken, and what it answers: what is to be called behind it, or None.
Behind = Callable[["Offer | Sending"], None]
Look = Callable[["Offer | Sending"], "Behind | None"]


@dataclass
class Otherwise:
    """That the rules decide otherwise than the fates: the row in the file and its fate, and what the rules say in its place, `ours`,
    None where they keep a packet that it drops."""

    row: int
    fate: Fate
    ours: Fate | None
    hint: str = ""


def fate_of(decision: Offer | Sending, members: Sequence[Member[Any]]) -> Fate | None:
    """The fate that a decision makes, or None where it keeps a packet."""
    packet = decision.packet
    shared = packet.number, packet.arrival, packet.length, members[packet.place].name
    if not isinstance(decision, Offer):
        return Fate(*shared, decision.choice.rule, decision.choice.start, decision.end)
    return None if decision.answer.word in (KEPT, MARKED) else Fate(*shared, decision.answer.word, None, None)


def is_same(ours: Fate, theirs: Fate) -> bool:
    """Whether a fate is that of the rules; `sent` and `dropped` are any."""
    plain = {"sent": ours.start is not None, "dropped": ours.start is None}
    return ours == theirs or (plain.get(theirs.fate, False) and ours == theirs._replace(fate=ours.fate))


class Replay:
    """A play by the rules beside the fates of a question. `otherwise` is the first difference, None as long as there is none. With
    `each_rounded` an end may be that of its packet alone, rounded, and the link is free then."""

    def __init__(self, question: Question | Window, each_rounded: bool = False) -> None:
        self.question, self.play, self.each_rounded = question, question.play(), each_rounded
        self.at, self.dropped = question.first_row, question.dropped
        self.count = 0  # decisions taken
        self.otherwise: Otherwise | None = None

    def judge(self, decision: Offer | Sending) -> None:
        """Compares a decision with the fates; an offer has its verdict."""
        ours, rows = fate_of(decision, self.play.members), self.question.rows
        if ours is not None:
            row, theirs = rows[self.at]  # there is one: each packet has one fate, in the file and by the rules
            self.at += 1
            if not is_same(ours, theirs):
                self.otherwise = Otherwise(row, theirs, ours)
                if self.is_rounded_alone(ours, theirs):
                    self.otherwise.hint = f"{EACH_ROUNDED}; --each-rounded takes it"
        elif decision.packet.number in self.dropped:
            self.otherwise = Otherwise(*self.dropped[decision.packet.number], None)
        if self.otherwise and isinstance(decision, Offer) and decision.answer.drawn is not None:
            self.otherwise.hint = f"it was decided by a word of seed {self.question.seed}; --seed names another"

    def is_rounded_alone(self, ours: Fate, theirs: Fate) -> bool:
        """Whether a fate is that of the rules but for its end, which is that of its packet alone, rounded up or down."""
        is_near = theirs.end is not None and ours.start == theirs.start and is_each_rounded(theirs.start, theirs.end, theirs.length, self.play.link.rate)
        return is_near and is_same(ours, theirs._replace(end=ours.end))

    def rounded(self, sending: Sending) -> int | None:
        """Gives a sending the end that its fate has, where that is one of its packet alone and such ends are taken; that end, or None."""
        ours, theirs = fate_of(sending, self.play.members), self.question.rows[self.at][1]
        if not self.each_rounded or ours is None or not self.is_rounded_alone(ours, theirs):
            return None
        sending.end = theirs.end
        return sending.end

    def decisions(self, look: Look, most: int | None = None) -> None:
        """Takes decision after decision, `most` of them where it is given, up to the first that is otherwise than the fates.
        `look(decision)` is called before each, and answers what is to be called behind it, or None."""
        play = self.play
        while self.otherwise is None and self.count != most and (decision := play.next()) is not None:
            self.count += 1
            rounded = None if isinstance(decision, Offer) else self.rounded(decision)
            if not isinstance(decision, Offer):
                self.judge(decision)
            behind = look(decision)
            play.take(decision)
            if rounded is not None:
                play.link.free_at(rounded)
            if isinstance(decision, Offer):
                self.judge(decision)
            if behind is not None:
                behind(decision)

"""All decisions of a play as comma-separated values, for `why --csv`: a row for each, with the numbers of its class before it."""

from __future__ import annotations

import csv
from typing import TextIO

from .rules.choices import Contest
from .rules.hfsc import NEVER
from .rules.play import Offer, Play, Sending
from .why_replay import Behind

HEAD = ["decision", "moment", "packet", "class", "decided", "backlog", "measure", "value", "second", "secondvalue", "by",
        "count", "eligible", "deadline", "total", "virtual", "limit", "average", "credit", "rounds", "precedence", "lower", "upper", "redcount", "word"]


def number(value: int | None) -> int | str:
    """A number of a row; nothing where there is none."""
    return "" if value is None or value == NEVER else value


def narrowest(contests: list[Contest]) -> Contest | None:
    """Of the contests of a choice, level by level, the one in which the second came nearest; the last of them where nobody was second."""
    near = [one for one in contests if one.by is not None]
    if near:
        return min(near, key=lambda one: one.by or 0)
    return next((one for one in reversed(contests) if one.second), None) or (contests[-1] if contests else None)


def sending_row(play: Play, sending: Sending) -> list:
    """The words of a sending behind its number."""
    choice, node = sending.choice, sending.choice.of
    one = narrowest(play.discipline.contests(choice))
    row = [choice.start, sending.packet.number, node.name, choice.rule, node.backlog()]
    row += [one.measure, number(one.value), one.second or "", number(one.second_value), number(one.by)] if one else [""] * 5
    if hasattr(node, "credit"):
        return row + [""] * 6 + [node.average if node.parent else "", node.credit, node.rounds()] + [""] * 5
    real = [node.count, number(node.soonest), number(node.deadline)] if node.real is not None else [""] * 3
    limit = [node.within] if node.limiter is not None else [""]
    return row + real + [node.total, node.virtual if node.parent else "", *limit] + [""] * 8


def offer_row(offer: Offer) -> list:
    """The words of an offer that was taken, behind its number."""
    verdict, packet = offer.answer, offer.packet
    row = [packet.arrival, packet.number, offer.of.name, verdict.word, verdict.waiting] + [""] * 11
    if not verdict.moves:
        return row + [""] * 8
    return row + [verdict.average, "", "", verdict.precedence, verdict.lower, verdict.upper, verdict.count, number(verdict.drawn)]


class Rows:
    """The rows of all decisions, written to a file. `look` is called before each."""

    def __init__(self, file: TextIO, play: Play) -> None:
        self.rows, self.play, self.count = csv.writer(file, lineterminator="\n"), play, 0
        self.rows.writerow(HEAD)

    def look(self, decision: Offer | Sending) -> Behind | None:
        """Writes the row of a sending; that of an offer follows behind it."""
        self.count += 1
        if isinstance(decision, Offer):
            return self.offered
        self.rows.writerow([self.count, *sending_row(self.play, decision)])
        return None

    def offered(self, offer: Offer | Sending) -> None:
        """Writes the row of an offer that was taken."""
        assert isinstance(offer, Offer)
        self.rows.writerow([self.count, *offer_row(offer)])

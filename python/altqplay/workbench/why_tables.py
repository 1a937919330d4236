"""The numbers of each class as a table, as they were before a decision, for `why`. `-` stands where a class has no such number."""

from __future__ import annotations

from .rules.cbq import Cbq
from .rules.cbq import Node as CbqNode
from .rules.hfsc import NEVER, Hfsc, Node
from .rules.play import Play, Sending
from .rules.queues import GAIN, Red, Verdict
from .rules.tree import Member


def shown(value: int | str | None) -> str:
    """A number of a table, or a word for one."""
    return "-" if value is None else "none" if value == NEVER else str(value)


def table(head: list[str], rows: list[list]) -> list[str]:
    """The lines of a table: names to the left, numbers to the right. Columns without a number are left out."""
    kept = [n for n in range(len(head)) if n == 0 or any(row[n] is not None for row in rows)]
    texts = [[head[n] for n in kept]] + [[row[0] if n == 0 else shown(row[n]) for n in kept] for row in rows]
    widths = [max(len(line[n]) for line in texts) for n in range(len(kept))]
    padded = [[line[0].ljust(widths[0])] + [text.rjust(width) for text, width in zip(line[1:], widths[1:])] for line in texts]
    return ["  " + "  ".join(line).rstrip() for line in padded]


def name_of(node: Member) -> str:
    """A class's name, moved in by its level."""
    return "  " * node.level + node.name


class HfscTable:
    """Of each class: its backlog; of a leaf with a real-time curve its count, its eligible curve now, when its head is eligible and
    its deadline; its total and virtual time; the moment from which its limit lets it be served; and its virtual time behind
    the decision.
    """

    HEAD = ["class", "backlog", "count", "line", "eligible", "deadline", "total", "virtual", "limit", "open", "after"]

    def __init__(self, discipline: Hfsc, moment: int, _sending: Sending | None) -> None:
        self.discipline, self.moment = discipline, moment
        self.rows = [self.row(node) for node in discipline.members]

    def row(self, node: Node) -> list:
        """The numbers of a class before the decision."""
        real = node.real if node in self.discipline.real else None
        line = real.eligible(self.moment) if real and real.last else None
        waits = real is not None and bool(node.waiting)
        limits = self.discipline.has_limits and node.is_active
        return [name_of(node), node.backlog(), node.count if real else None, line, node.soonest if waits else None, node.deadline if waits else None,
                node.total, node.virtual if node.parent else None, node.within if node.limiter and node.is_active else None,
                node.opens if limits else None]

    def lines(self, is_sending: bool) -> list[str]:
        """The table behind the decision."""
        after = [node.virtual if node.parent and is_sending else None for node in self.discipline.members]
        return table(self.HEAD, [row + [value] for row, value in zip(self.rows, after)])


class CbqTable:
    """Of each class: its backlog, priority, average, the idle time of the packet that is sent where it is of the class or below it, and its
    average behind that; the least moments at which it may send its head itself and on a loan; its credit, the rounds that its head needs,
    and what is left of it behind the decision."""

    HEAD = ["class", "backlog", "priority", "average", "idle", "after", "own", "loan", "quantum", "credit", "rounds", "left"]

    def __init__(self, discipline: Cbq, moment: int, sending: Sending | None) -> None:
        self.discipline, self.moment, self.sending = discipline, max(moment, discipline.link.free or 0), sending
        self.path = list(sending.choice.of.path()) if sending else []
        self.rows = [self.row(node) for node in discipline.members]

    def row(self, node: CbqNode) -> list:
        """The numbers of a class before the decision."""
        waits, has_average = bool(node.waiting), node.parent is not None
        own = self.discipline.own_moment(node, self.moment) if waits else None
        loan = self.discipline.loan(node, self.moment) if waits else None
        idle = node.idle(self.sending.packet.length, self.sending.end) if self.sending and node in self.path and has_average else None
        return [name_of(node), node.backlog(), node.given.priority, node.average if has_average else None, idle, own, loan and loan[0],
                node.quantum, node.credit, node.rounds() if waits else None]

    def lines(self, is_sending: bool) -> list[str]:
        """The table behind the decision."""
        found = []
        for node, row in zip(self.discipline.members, self.rows):
            after = node.average if node in self.path and node.parent else None
            found.append(row[:5] + [after] + row[5:] + [node.credit if is_sending else None])
        return table(self.HEAD, found)


def table_of(play: Play, moment: int, sending: Sending | None = None) -> HfscTable | CbqTable:
    """The table of a play's classes as they are at a moment, before a sending if there is one."""
    return (CbqTable if isinstance(play.discipline, Cbq) else HfscTable)(play.discipline, moment, sending)


def queue_table(queue: Red, verdict: Verdict) -> list[str]:
    """How an arrival moved the averages of a queue; lines. An arrival moves that of its precedence and of the worse ones."""
    moved, rows = {move.precedence: move for move in verdict.moves}, []
    is_rio = len(moved) < len(queue.thresholds)
    for place, (lower, upper) in enumerate(queue.thresholds):
        row = [None] * 4 + [queue.averages[place]]
        if place in moved:
            move = moved[place]
            gain = GAIN * move.waiting
            row = [move.waiting, None if move.waiting else move.steps, gain, move.before + gain - move.after, move.after]
        rows.append([str(place), *row, lower, upper, ("yes" if place in moved else "no") if is_rio else None])
    return table(["precedence", "waits", "steps", "4096*q", "A/512", "average", "lower", "upper", "moved"], rows)

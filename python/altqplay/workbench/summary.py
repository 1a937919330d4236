"""What a play, or a change, means for each class, in one line: how long its slowest packet takes, whether that is worse, and what is
dropped. The slowest packet and the number of drops are worse or better where they change by more than 1 in 20, and a delay by as much
as its line shows, a tenth of a millisecond."""

from __future__ import annotations

from dataclasses import dataclass
from typing import Any, Optional, Sequence

from . import late, plays, wants
from .texts import Times

WORSE, BETTER, MIXED, SAME = "worse", "better", "mixed", "same"
CHANGE = 20  # a change of more than one part in so many is told
TENTH = 100_000  # nanoseconds of the digit that a line shows


@dataclass
class Line:
    """The line of a class: the greatest delay and the drops in each play, the word on the change or "", what else it says, and the
    verdicts on each want, one a play."""

    of: str
    slowest: Sequence[Optional[int]]
    dropped: Sequence[int]
    word: str
    flags: Sequence[str]
    verdicts: Sequence[Sequence[wants.Verdict]]


def step(first: int, second: int) -> int:
    """1 where a number grows by more than 1 in 20, -1 where it shrinks so, else 0."""
    if abs(second - first) * CHANGE <= first:
        return 0
    return 1 if second > first else -1


def tenths(ns: int) -> int:
    """A time in tenths of a millisecond, half of one rounded up."""
    return (ns + TENTH // 2) // TENTH


def word_of(slowest: Sequence[Optional[int]], dropped: Sequence[int]) -> str:
    """Whether a class is worse or better after a change."""
    steps = {step(dropped[0], dropped[1])}
    if slowest[0] is not None and slowest[1] is not None:
        steps.add(step(slowest[0], slowest[1]) if tenths(slowest[0]) != tenths(slowest[1]) else 0)
    if {1, -1} <= steps:
        return MIXED
    return WORSE if 1 in steps else BETTER if -1 in steps else SAME


def flags_of(sides: Sequence[Any], name: str) -> list[str]:
    """What is to be known of a class besides: due moments that it lost, packets that are late."""
    own, found = plays.of_either(sides, name), []
    lost = len(late.without_due(sides[0], sides[1], own)) if len(sides) == 2 else 0
    if lost:
        found.append(f"{lost:,} {'packet has' if lost == 1 else 'packets have'} no due moment any more")
    counts = [int(side.is_late[own].sum()) for side in sides]
    if any(counts):
        found.append(" → ".join(f"{count:,}" for count in dict.fromkeys(counts)) + " late")
    return found


def lines(sides: Sequence[Any], verdicts: Sequence[Sequence[wants.Verdict]]) -> list[Line]:
    """The line of each class that packets are of, or that is asked about."""
    names = plays.class_names(sides)
    found = []
    for name in [*names, *dict.fromkeys(row[0].want.of for row in verdicts if row[0].want.of not in names)]:
        owns = [side.class_is(name) for side in sides]
        slowest = [late.delays(side, own)[-1] for side, own in zip(sides, owns)]
        dropped = [int((~side.is_sent[own]).sum()) for side, own in zip(sides, owns)]
        word = word_of(slowest, dropped) if len(sides) == 2 else ""
        found.append(Line(name, slowest, dropped, word, flags_of(sides, name), [row for row in verdicts if row[0].want.of == name]))
    return found


def slowest_text(line: Line, times: Times) -> str:
    """The greatest delays of a class in milliseconds with one digit, or exact."""
    def number(ns: Optional[int]) -> str:
        return "none sent" if ns is None else f"{ns:,}" if times.exact else f"{tenths(ns) / 10:,.1f}"

    texts = [number(ns) for ns in line.slowest]
    told = texts if len(set(texts)) > 1 else texts[:1]
    return "slowest " + " → ".join(told) + (f" {times.unit}" if any(ns is not None for ns in line.slowest) else "")


def dropped_text(line: Line) -> str:
    """The drops of a class."""
    return " → ".join(f"{count:,}" for count in dict.fromkeys(line.dropped)) + " dropped"


def default_text(side: Any) -> str:
    """What share of the packets of a play is in the default class."""
    name = next((name for name, found in side.interface.classes.items() if found.is_default), "default")
    share = 100 * len(side.class_is(name)) / max(len(side), 1)
    return f"{share:.1f} % of the packets are in the default class, {name}"


def empty_text(sides: Sequence[Any]) -> str:
    """The classes without children to which no packet came in any play, whose filters may match nothing; "" where there are none."""
    parents = {found.parent for side in sides for found in side.interface.classes.values()}
    known = dict.fromkeys(name for side in sides for name in side.interface.classes if name not in parents)
    found = [name for name in known if name not in plays.class_names(sides)]
    return f"no packet came to {', '.join(found)}" if found else ""


def share_text(sides: Sequence[Any]) -> str:
    """What share of the packets is in the default class, and which classes have none."""
    return "; ".join(text for text in (default_texts(sides), empty_text(sides)) if text)


def default_texts(sides: Sequence[Any]) -> str:
    """The share of the default class in each play, once where they are the same."""
    told = [default_text(side) for side in sides]
    return told[0] if len(set(told)) == 1 else "; ".join(f"{side.label} {text}" for side, text in zip(sides, told))

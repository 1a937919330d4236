"""What a discipline says of a choice, for those who ask why."""

from __future__ import annotations

from collections.abc import Sequence
from dataclasses import dataclass
from typing import Generic

from .tree import Node


@dataclass
class Contest:
    """Candidates of a choice by a number of each, the first of whom was taken.

    `measure` is what is compared, as "deadline", and `where` among whom: the children of a class, a priority, or all leaves. `first`
    and `second` are names; the second and its number are None where there was no other candidate.
    """

    measure: str
    where: str
    first: str
    value: int | None
    second: str | None = None
    second_value: int | None = None

    @property
    def by(self) -> int | None:
        """By how much the second came behind; None where there was none, or one of both has no number."""
        return None if self.second is None or self.value is None or self.second_value is None else self.second_value - self.value


def contest(measure: str, where: str, ranked: Sequence[tuple[str, int | None]]) -> Contest:
    """The contest of candidates in their order, each a name and a number."""
    return Contest(measure, where, *ranked[0], *(ranked[1] if len(ranked) > 1 else (None, None)))


@dataclass
class Choice(Generic[Node]):
    """Who is sent next: which member of a discipline, by which rule, and when it starts. `rivals` are the candidates of CBQ, whose
    credits a choice changes too, in their order."""

    __slots__ = ("of", "rule", "start", "rivals")
    of: Node
    rule: str
    start: int
    rivals: list[tuple[int, int, Node]]

"""The tree of an interface's classes, and the packets that wait in each, the head first."""

from __future__ import annotations

from collections import deque
from collections.abc import Iterator, Sequence
from typing import Any, Generic, TypeVar

from .classes import CbqClass, HfscClass
from .packets import Packet


Node = TypeVar("Node", bound="Member[Any]")
Own = TypeVar("Own", bound="Member[Any]")


class Member(Generic[Node]):
    """A class in its tree, by its place in the file. The root has level 0 and no parent. `Node` is what a discipline makes of a class."""

    def __init__(self, place: int, given: HfscClass | CbqClass) -> None:
        self.place, self.name = place, given.name
        self.parent: Node | None = None
        self.children: list[Node] = []
        self.level = 0
        self.waiting: deque[Packet] = deque()

    def path(self: Own) -> Iterator[Own]:
        """The class and those above it, up to the root."""
        member: Own | None = self
        while member is not None:
            yield member
            member = member.parent


def joined(members: list[Node], classes: Sequence[HfscClass | CbqClass]) -> list[Node]:
    """The members, each below the parent that its class names."""
    for member, given in zip(members, classes):
        if given.parent is not None:
            member.parent = members[given.parent]
            member.parent.children.append(member)
            member.level = member.parent.level + 1
    return members

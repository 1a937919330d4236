"""A packet as the rules see it."""

from __future__ import annotations

from dataclasses import dataclass


@dataclass
class Packet:
    """A packet that arrives, of `length` bytes: its class by its place, and what a queue is told of its frame."""

    __slots__ = ("number", "arrival", "length", "place", "precedence", "is_capable")
    number: int
    arrival: int
    length: int
    place: int
    precedence: int
    is_capable: bool

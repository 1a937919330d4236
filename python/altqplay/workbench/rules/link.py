"""The link: one packet at a time, and the ends of its runs (docs/reference/MANUAL.md, "What is played")."""

from __future__ import annotations

from .units import time_of


class Link:
    """A link of a rate. It is free from `free` on; None before its first sending."""

    __slots__ = ("rate", "free", "run", "length", "times")

    def __init__(self, rate: int) -> None:
        self.rate = rate
        self.free: int | None = None
        self.run, self.length = 0, 0  # when the last run began, and its bytes so far
        self.times: dict[int, int] = {}

    def time(self, length: int) -> int:
        """The time of a packet by itself, rounded up."""
        if length not in self.times:
            self.times[length] = time_of(length, self.rate)
        return self.times[length]

    def end(self, start: int, length: int) -> int:
        """When a packet would end that starts at a moment: that of its run, rounded up once."""
        if start == self.free:
            return self.run + time_of(self.length + length, self.rate)
        return start + self.time(length)

    def free_at(self, end: int) -> None:
        """Has the last run end at a moment, as a link does that rounds packet by packet."""
        self.free = self.run = end
        self.length = 0

    def send(self, start: int, length: int) -> int:
        """Sends a packet; answers its end."""
        if start != self.free:
            self.run, self.length = start, 0
        self.length += length
        self.free = self.run + time_of(self.length, self.rate)
        return self.free

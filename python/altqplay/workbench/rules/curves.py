"""Service curves over several openings (docs/reference/CURVES.md).

A curve that falls is at each moment the lesser of two lines: that of its first slope through the opening, and that of its second
slope, which is higher by (m1 - m2) * d there. A curve that rises from 0 is the line of its second slope, d later. So of all
openings only the lowest line of each slope has to be known, and a line is known by the greatest m * at - count.
"""

from __future__ import annotations

from ..conf import Curve
from .units import ceil_div


def is_zero(curve: Curve) -> bool:
    """Whether a curve gives nothing at any time."""
    return curve.m2 == 0 and curve.m1 * curve.d == 0


class Openings:
    """A curve from each of a class's openings on: the least of what it gives over all of them."""

    __slots__ = ("m1", "d", "m2", "first", "last", "steep", "flat")

    def __init__(self, curve: Curve) -> None:
        """`curve` has m1 and m2 in bits per second, and d in nanoseconds. One without a first piece is the line of m2."""
        is_line = curve.d == 0 or curve.m1 == curve.m2
        self.m1, self.d, self.m2 = (curve.m2, 0, curve.m2) if is_line else (curve.m1, curve.d, curve.m2)
        self.first: tuple[int, int] | None = None  # openings: a moment and the units that were sent before it
        self.last: tuple[int, int] | None = None
        self.steep: int | None = None  # of the lowest lines of slope m1 and of slope m2
        self.flat: int | None = None

    def begin(self, at: int, count: int) -> None:
        """Adds an opening, which is not before the last and has no smaller count."""
        self.first = self.first or (at, count)
        self.last = (at, count)
        steep, flat = self.m1 * at - count, self.m2 * at - count
        self.steep = steep if self.steep is None else max(self.steep, steep)
        self.flat = flat if self.flat is None else max(self.flat, flat)

    def reaches(self, amount: int) -> int | None:
        """The first moment at which the curve has given an amount from each opening on; None where it never does.

        The amount is no less than the count of any opening; where the curve rises, it is greater.
        """
        assert self.first is not None and self.steep is not None and self.flat is not None
        if self.m1 < self.m2:
            return self.d + ceil_div(amount + self.flat, self.m2)
        if self.m2 == 0 and amount - self.first[1] > self.m1 * self.d:
            return None
        found = ceil_div(amount + self.steep, self.m1)
        if self.d == 0 or self.m2 == 0:
            return found
        return max(found, ceil_div(amount + self.flat - (self.m1 - self.m2) * self.d, self.m2))

    def soonest(self, count: int) -> int | None:
        """The first moment at which the eligible curve has reached a count; None where it never does."""
        assert self.flat is not None
        return ceil_div(count + self.flat, self.m2) if self.m1 < self.m2 else self.reaches(count)

    def eligible(self, moment: int) -> int:
        """The eligible curve at a moment which is not before the last opening."""
        assert self.steep is not None and self.flat is not None
        flat = self.m2 * moment - self.flat
        return flat if self.m1 < self.m2 else min(self.m1 * moment - self.steep, flat + (self.m1 - self.m2) * self.d)

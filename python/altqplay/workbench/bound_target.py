"""The least real-time curve with which the bound on a class's delay is below a target and the curves fit the link.

The least curve is that of the least second slope m2, of these that of the least m1, and of these that of the least d. At a second slope
the packets need the burst with which they conform to it, and the curve must give that by the time T that the target leaves beside
the longest packet. Of the curves that do, those with the greatest d give least before T, and from T on all give the same but for
rounding: the burst, and a line of slope m2. The burst is convex in m2, so what the curves exceed
the link by is convex in m2, too: its least value is found by thirds, and from there the least m2 by halving. Bytes, rates and milliseconds are whole, which moves
that by little: so what is near is looked at one by one.
"""

from __future__ import annotations

from functools import lru_cache
from typing import Callable, NamedTuple, Optional

from .conf import MILLISECOND, Curve
from .delay_bound import FAR, amount
from .rules.units import BYTE, ceil_div

STEPS = 1000


class Least(NamedTuple):
    """The least curve, and the burst in bytes at its second slope."""

    curve: Curve
    burst: int


def step_of(link_rate: int) -> int:
    """The step in which rates go: a power of ten, at most the link's rate by 1,000.

    >>> step_of(4_000_000), step_of(64_000), step_of(1_000)
    (1000, 10, 1)
    """
    step = 1
    while step * 10 * STEPS <= link_rate:
        step *= 10
    return step


class Link:
    """What a link has beside a class: its rate, and by how much the other real-time curves are below it at their bends, and at others."""

    def __init__(self, rate: int, others: list[Curve]) -> None:
        self.rate, self.others = rate, others
        self.free_at: dict[int, int] = {}
        self.bends = {time: self.free(time) for time in [FAR, *(curve.d for curve in others)]}

    def free(self, time: int) -> int:
        """The units that the others leave by a moment."""
        if time not in self.free_at:
            self.free_at[time] = self.rate * time - sum(amount(curve, time) for curve in self.others)
        return self.free_at[time]

    def excess(self, curve: Curve) -> int:
        """By how many units the curves exceed the link at most with this one beside the others; at most 0 where they fit."""
        own = amount(curve, curve.d) - self.free(curve.d)
        return max(own, *(amount(curve, time) - free for time, free in self.bends.items()))


def curves_of(m2: int, wanted: int, time: int, step: int) -> list[Curve]:
    """The curves of a second slope that give so many units in a time, in rising order: each has the least m1 of its bend, or the least
    bend of its m1. A line that gives more than is needed may rise from 0 later."""
    line = ceil_div(wanted, m2)
    if line <= time:
        rising = [Curve(0, bend * MILLISECOND, m2) for bend in range(1, (time - line) // MILLISECOND + 1)]
        return [*rising, Curve(m2, 0, m2)]
    found: dict[int, Curve] = {}
    for bend in range(ceil_div(time, MILLISECOND), 0, -1):
        d = bend * MILLISECOND
        m1 = ceil_div(ceil_div(wanted - m2 * max(time - d, 0), min(time, d)), step) * step
        found[m1] = Curve(m1, d, m2)
    return [found[m1] for m1 in sorted(found)]


class Search:
    """The second slopes `step`, 2 * `step` and so on, by their number, from `least` on up to the link's rate."""

    def __init__(self, link: Link, burst: Callable[[int], int], time: int, least: int = 1, step: Optional[int] = None) -> None:
        self.link, self.burst, self.time = link, burst, time
        self.step = step or step_of(link.rate)
        self.begin, self.end = max(1, ceil_div(least, self.step)), link.rate // self.step
        self.rounded = link.rate * MILLISECOND + self.step * time + BYTE
        self.look = lru_cache(maxsize=None)(self.look_at)

    def look_at(self, number: int) -> tuple[int, Optional[Least]]:
        """By how much the curves of a second slope exceed the link at least, and the least that fits."""
        m2 = number * self.step
        burst = self.burst(m2)
        curves = curves_of(m2, burst * BYTE, self.time, self.step)
        over = [self.link.excess(curve) for curve in curves]
        return min(over), next((Least(curve, burst) for curve, by in zip(curves, over) if by <= 0), None)

    def lowest(self) -> int:
        """The number of a second slope that fits, or of the one that exceeds the link by least."""
        low, high = self.begin, self.end
        while high - low > 2:
            one, other = low + (high - low) // 3, high - (high - low) // 3
            for number in (one, other):
                if self.look(number)[1] is not None:
                    return number
            low, high = (low, other) if self.look(one)[0] <= self.look(other)[0] else (one, high)
        return min(range(low, high + 1), key=lambda number: self.look(number)[0])

    def beside(self, number: int, step: int) -> int:
        """The last number from one on, up or down, of those that rounding alone may keep from fitting, or fit."""
        while self.begin <= number + step <= self.end and self.look(number + step)[0] <= self.rounded:
            number += step
        return number

    def least(self) -> Optional[Least]:
        """The least curve that keeps the target and fits; None where there is none."""
        if self.begin > self.end:
            return None
        low, high = self.begin - 1, self.lowest()
        if self.look(high)[1] is None:
            high = self.beside(high, 1)
        else:
            while high - low > 1:
                middle = (low + high) // 2
                low, high = (low, middle) if self.look(middle)[1] is not None else (middle, high)
        numbers = range(self.beside(high, -1), high + 1)
        return next((found for found in (self.look(number)[1] for number in numbers) if found is not None), None)

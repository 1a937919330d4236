"""How long a packet of a leaf takes at most: the definition `bound` of crates/delay_bound/specs/Bound.antt, and `first` of
crates/service_curve/specs/Curve.antt, in whole numbers of any size. Whether curves fit is docs/reference/CURVES.md, "Fit".

A leaf has the real-time curve S, whose second slope is not 0, and the curves fit the link. No packet on the link is longer than L
bytes, and what is offered to the leaf conforms to a rate R, at most that second slope, and a burst of B bytes, at least 1. Then each
packet of it that is sent ends at most first(S, units(B)) + ceil(units(L) / link rate) nanoseconds after it arrived. The clauses of
`packets_keep_their_bounds` say so.
"""

from __future__ import annotations

from typing import Iterable, Optional

from .conf import Curve, Interface
from .rules.units import BYTE, time_of

FAR = 10**30  # nanoseconds, after which no first slope counts any more


def amount(curve: Curve, time: int) -> int:
    """The units that a curve gives in a time."""
    return int(curve.m1 * min(time, curve.d) + curve.m2 * max(time - curve.d, 0))


def first(curve: Curve, wanted: int) -> Optional[int]:
    """The least time in which a curve gives so many units, more than 0; None where it never does.

    >>> first(Curve(4_000_000, 5_000_000, 1_000_000), 1_600_000_000_000), first(Curve(8_000_000, 10_000_000, 0), 80_000_000_000_001)
    (400000, None)
    """
    bend = curve.m1 * curve.d
    if wanted <= bend:
        return int(-(-wanted // curve.m1))
    return None if curve.m2 == 0 else int(curve.d - (bend - wanted) // curve.m2)


def bound(curve: Curve, link_rate: int, longest: int, burst: int) -> Optional[int]:
    """The most nanoseconds from the arrival of a packet to its end; None where the curve never gives the burst.

    >>> bound(Curve(4_000_000, 5_000_000, 1_000_000), 8_000_000, 1000, 2501), bound(Curve(8_000_000, 10_000_000, 0), 8_000_000, 1000, 10_001)
    (6008000, None)
    """
    time = first(curve, burst * BYTE)
    return None if time is None else time + int(time_of(longest, link_rate))


def excess(curves: Iterable[Curve], link_rate: int) -> int:
    """By how many units curves together exceed a link at most; where they fit it, at most 0.

    >>> excess([Curve(6_000_000, 10_000_000, 1_000_000)] * 2, 8_000_000), excess([Curve(0, 10, 8), Curve(8, 10, 0)], 8)
    (40000000000000, 0)
    """
    own = list(curves)
    return max(sum(amount(curve, time) for curve in own) - link_rate * time for time in [FAR, *(curve.d for curve in own)])


def why_none(interface: Interface, name: str, rate: Optional[int] = None) -> str:
    """Why a class has no bound at a rate, or at its second slope; empty where it has one."""
    curve = interface.promised(name)
    if interface.discipline == "cbq":
        return "CBQ has no service curves"
    if curve is None:
        return "it has no real-time curve"
    if curve.m2 == 0:
        return "the second slope of its real-time curve is 0"
    if interface.fit != "fits":
        return f"the real-time curves do not fit the link: {interface.fit}"
    if rate is not None and rate > curve.m2:
        return f"the rate is above the second slope of its curve, {curve.m2}"
    return ""

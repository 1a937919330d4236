"""The least burst with which packets conform to a rate: `Conforms` of crates/traffic_meter/specs/Conforming.antt, over columns of numpy.

Packets conform to R bits per second and B bytes where of each stretch of them, from packet i to packet k, both counted, the units are at
most units(B) + R times the time from the arrival of i to that of k. So the least B is that of the stretch that needs most.
"""

from __future__ import annotations

import math
from typing import NamedTuple

import numpy

from .due import MOST
from .rules.units import BYTE


class Stretch(NamedTuple):
    """The stretch that needs the greatest burst: the burst in bytes, and the places of its first and its last packet."""

    burst: int
    begin: int
    end: int


def neediest(arrival: numpy.ndarray, length: numpy.ndarray, rate: int) -> Stretch:
    """The stretch of some packets, at least one, in the order in which they arrived, that needs the greatest burst at a rate.

    With p the bytes before a packet and p' those with it, a stretch needs p' - R * arrival of its last packet less p - R * arrival of
    its first. Both are counted in the greatest common divisor of rate and byte; where 64 bits do not hold them, they are Python's.
    """
    part = math.gcd(rate, BYTE)
    rise, byte = rate // part, BYTE // part
    at, total = arrival - arrival[0], numpy.cumsum(length)
    if rise * int(at[-1]) + byte * int(total[-1]) >= MOST:
        at, total = at.astype(object), total.astype(object)
    given = rise * at
    before = byte * (total - length) - given
    needed = byte * total - given - numpy.minimum.accumulate(before)
    end = int(numpy.argmax(needed))
    begin = end - int(numpy.argmin(before[end::-1]))
    return Stretch(max(1, -(-int(needed[end]) // byte)), begin, end)


def least_burst(arrival: numpy.ndarray, length: numpy.ndarray, rate: int) -> int:
    """The least burst in bytes, at least 1, with which some packets conform to a rate.

    >>> [least_burst(numpy.array([0, 0, 10**6]), numpy.array([100, 100, 200]), rate) for rate in (0, 800_000, 10**12)]
    [400, 300, 200]
    """
    return neediest(arrival, length, rate).burst if len(arrival) else 1


def mean_rate(arrival: numpy.ndarray, length: numpy.ndarray) -> int:
    """The bits per second of some packets from the first arrival to the last, without the last packet, rounded up; 0 where no time is
    between them.

    >>> mean_rate(numpy.array([0, 10**7, 2 * 10**7]), numpy.array([200, 200, 1500]))
    160000
    """
    time = int(arrival[-1]) - int(arrival[0]) if len(arrival) else 0
    return -(-int(length[:-1].sum()) * BYTE // time) if time else 0

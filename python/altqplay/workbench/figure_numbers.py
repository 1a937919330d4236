"""What the figures show, computed in whole numbers from the fates that the program wrote.

A fate is a row of `rows`: number, arrival, length, name, fate, start and end, times in nanoseconds. It needs no library.
"""

from __future__ import annotations

from bisect import bisect_left
from collections.abc import Iterable, Mapping, Sequence
from typing import Optional

from .figure_plays import LINK, MILLISECOND, SECOND
from .rows import Fate

PACKET = 2**21  # units of RED's average for a packet that waits
LEAST, MOST = 5 * PACKET, 15 * PACKET  # thresholds of RED
BYTE = 8 * 10**9  # units, of which a rate of r bits per second gives r in a nanosecond
STEP = 1000 * BYTE // LINK  # the time of 1,000 bytes, by which an idle queue's average falls

# Of each packet: its arrival, how many wait then, RED's average with it, and its fate.
Average = tuple[int, int, int, str]


def sent(rows: Iterable[Fate], name: Optional[str] = None) -> list[Fate]:
    """The packets that were sent, all or those of a class, in the order of their ends."""
    return [fate for fate in rows if fate.end is not None and name in (None, fate.name)]


def bytes_until(rows: Iterable[Fate], name: str, moment: int) -> int:
    """The bytes of a class whose sending had ended at a moment."""
    return sum(fate.length for fate in sent(rows, name) if fate.end <= moment)


def frames(rows: Iterable[Fate], name: str) -> list[tuple[int, int]]:
    """Of each moment at which packets of a class came: the moment, and the delay of the last of them, where all were sent."""
    found: dict[int, list[Fate]] = {}
    for fate in rows:
        if fate.name == name:
            found.setdefault(fate.arrival, []).append(fate)
    return [(moment, max(one.end for one in own) - moment) for moment, own in sorted(found.items()) if all(one.end is not None for one in own)]


def packets_until(ends: Sequence[int], moment: int) -> int:
    """How many of some ends, in rising order, had come at a moment."""
    return bisect_left(ends, moment + 1)


def earliest_deadline(rows: Sequence[Fate], rates: Mapping[str, int]) -> dict[str, list[int]]:
    """The ends of classes of packets that take 1 ms each, if the least deadline went first: those of each class.

    The curve of each class gives its rate from its first arrival on, and a packet's deadline is the moment at which it gives the
    packet. What a class was sent is all counted; so the class that had the link for itself is ahead of its curve. Of equal deadlines
    the earlier class goes first. Each must have a packet waiting while it sends.
    """
    arrivals = {own: sorted(fate.arrival for fate in rows if fate.name == own) for own in rates}
    ends: dict[str, list[int]] = {own: [] for own in rates}
    now = 0
    while any(len(ends[own]) < len(arrivals[own]) for own in ends):
        heads = [(arrivals[own][0] + -(-1000 * BYTE * (len(ends[own]) + 1) // rates[own]), own) for own in ends
                 if len(ends[own]) < len(arrivals[own]) and arrivals[own][len(ends[own])] <= now]
        now += MILLISECOND
        if heads:
            ends[min(heads, key=lambda head: head[0])[1]].append(now)
    return ends


def red_averages(rows: Sequence[Fate]) -> list[Average]:
    """The average of RED at each packet, in the order of arrival.

    It is computed by the rule of docs/reference/QUEUE-RULES.md from arrivals, starts and drops alone.
    """
    starts = sorted(fate.start for fate in sent(rows))
    found: list[Average] = []
    average = kept = 0
    for fate in sorted(rows, key=lambda fate: fate.number):
        begun = bisect_left(starts, fate.arrival)  # a packet that starts now still waits when one arrives
        waiting = kept - begun
        if waiting > 0:
            average += 4096 * waiting - average // 512
        else:
            idle = starts[begun - 1] if begun else 0
            for _ in range(min((fate.arrival - idle) // STEP, 16_250)):
                average -= average // 512
        found.append((fate.arrival, waiting, average, fate.fate))
        kept += fate.end is not None
    return found


def agrees(average: int, fate: str) -> bool:
    """Whether a fate may come with an average of RED, by its thresholds; a full queue has any."""
    return {"early": LEAST <= average < MOST, "forced": average >= MOST, "full": True}.get(fate, average < MOST)


def percent_dropped(rows: Iterable[Fate], arrivals_in: set[int]) -> list[int]:
    """How many of a hundred packets were dropped, in tenths, rounded: in profile and out of it."""
    counts = {True: [0, 0], False: [0, 0]}
    for fate in rows:
        counts[fate.number in arrivals_in][0] += 1
        counts[fate.number in arrivals_in][1] += fate.end is None
    return [(2000 * dropped + came) // (2 * came) for came, dropped in (counts[True], counts[False])]


def rates(rows: Iterable[Fate], name: str, begin: int, end: int) -> int:
    """The rate of a class from one moment to another, in thousands of bits per second, rounded down."""
    units = 8 * sum(fate.length for fate in sent(rows, name) if begin < fate.end <= end)
    return units * SECOND // (end - begin) // 1000

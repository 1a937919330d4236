"""Draws the buckets of a meter over time as SVG, by text alone: the same numbers give the same bytes on every machine."""

from itertools import groupby

from .gap_picture import RIGHT, TOP, Axes, framed, stroke, text
from .rules.units import BYTE

DASHES = ' stroke-dasharray="6 4"'
WIDER = ' stroke-width="1.5"'


def filling(first, amount, limit, begin, rate, last):
    """The points of a bucket that gains from `begin` on, up to its limit, from a moment with an amount to a last moment."""
    points = [(first, amount)]
    if begin >= last or rate == 0:
        return [*points, (last, amount)]
    full = begin + (limit - amount) / rate
    points += [(begin, amount)] if begin > first else []
    return [*points, (full, limit), (last, limit)] if full < last else [*points, (last, amount + rate * (last - begin))]


def between(rule, first, committed, other, last):
    """The points of both buckets from a moment to the next one at which a packet comes."""
    own = filling(first, committed, rule.cbs * BYTE, first, rule.cir, last)
    begin = first if rule.pir is not None else first + (rule.cbs * BYTE - committed) / rule.cir
    return own, filling(first, other, rule.other_burst * BYTE, begin, rule.pir or rule.cir, last)


def lines_of(rule, found):
    """The points of both buckets over the packets."""
    committed, other = [], []
    for one, after in zip(found, [*found[1:], None]):
        committed += [(one.moment, one.committed), (one.moment, one.committed_left)]
        other += [(one.moment, one.other), (one.moment, one.other_left)]
        if after is not None and after.moment > one.moment:
            own, beside = between(rule, one.moment, one.committed_left, one.other_left, after.moment)
            committed, other = committed + own, other + beside
    return committed, other


def legend(rule):
    """What the lines are."""
    for place, (what, more) in enumerate([("committed", ""), (rule.other_bucket, DASHES)]):
        x = RIGHT - 180 + 100 * place
        yield stroke([(x, 20 - 4), (x + 24, 20 - 4)], "#000", WIDER + more)
        yield text(x + 28, 20, what, "start")


def picture(title, rule, found):
    """The buckets of a meter; above them the first letter of the colour of each packet, at its moment."""
    origin = found[0].moment if found else 0
    last = found[-1].moment - origin if found else 0
    axes = Axes(last, max(rule.cbs, rule.other_burst) * BYTE, BYTE, "bytes")
    parts = [*axes.lines(), *legend(rule)]
    for line, more in zip(lines_of(rule, found), ("", DASHES)):
        parts.append(stroke([(axes.x(at - origin), axes.y(amount)) for at, amount in line], "#000", WIDER + more))
    for moment, group in groupby(found, key=lambda one: one.moment):
        letters = "".join(one.colour[0].upper() for one in group)
        parts.append(text(f"{axes.x(moment - origin):.1f}", TOP - 4, letters))
    return framed(title, parts)

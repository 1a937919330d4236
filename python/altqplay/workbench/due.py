"""Due moments: when a packet must have ended by its class's real-time curve (docs/reference/HFSC.md, "Due moments"). Exact integers.

A packet opens if it is its class's first, or arrives later than the start of the one before it. From each opening on the
curve gives what it gives from 0; a packet is due when, from every opening up to it, all that was sent since that opening up
to and with the packet was given. A curve that falls (m1 >= m2) is the lesser of two lines and one that rises has m1 = 0,
so the latest of these moments is that of one or two lines, and on a line the latest opening is a running maximum.
"""

import math
from collections import namedtuple

import numpy

BYTE = 8 * 10**9  # units, of which a slope of m bits per second gives m in a nanosecond
MOST = 2**62

# The packets sent of a class: what was sent before each and with it, in bytes; the arrivals after `origin`, and which packets open.
Sent = namedtuple("Sent", "origin arrival before total opens")


def line_moments(slope, bend, sent):
    """When a line of a slope, which passes through `bend`, a time and the units by then, has given each total from each opening.

    From one opening that is the arrival and ceil((total - before - units of bend) / slope) after the bend, so the greatest
    slope * arrival - before is the latest. Units are counted in the greatest common divisor of slope and byte; where 64 bits
    do not hold the numbers, they are Python's.
    """
    part = math.gcd(slope, BYTE)
    rise, byte = slope // part, BYTE // part
    shift = -((bend[1] - slope * bend[0]) // part)
    arrival, before, total = sent.arrival, sent.before, sent.total
    if rise * int(sent.arrival[-1]) + byte * int(sent.total[-1]) + abs(shift) >= MOST:
        arrival, before, total = (values.astype(object) for values in (arrival, before, total))
    latest = numpy.maximum.accumulate(rise * arrival[sent.opens] - byte * before[sent.opens])
    reached = latest[numpy.cumsum(sent.opens) - 1] + byte * total + shift
    return -(-reached // rise) + sent.origin


def due_moments(curve, arrivals, starts, lengths):
    """The due moment of each packet sent of a class, in columns in the order in which it sent them; which have one, beside them.

    Only a curve whose second slope is 0 leaves packets without.
    """
    if not len(arrivals):
        return arrivals, numpy.zeros(0, dtype=bool)
    opens = numpy.concatenate([[True], arrivals[1:] > starts[:-1]])
    total, origin = numpy.cumsum(lengths), int(arrivals[0])
    sent = Sent(origin, arrivals - origin, total - lengths, total, opens)
    corner, all_due = (curve.d, curve.m1 * curve.d), numpy.ones(len(arrivals), dtype=bool)
    if curve.m1 < curve.m2:
        return line_moments(curve.m2, corner, sent), all_due
    first = line_moments(curve.m1, (0, 0), sent)
    if curve.m1 == curve.m2:
        return first, all_due
    if curve.m2 == 0:
        return first, total <= corner[1] // BYTE
    return numpy.maximum(first, line_moments(curve.m2, corner, sent)), all_due

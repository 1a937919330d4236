"""What a play does over time, in steps of equal length: packets that wait, drops, greatest delays, the rate sent."""

import numpy

STEPS = 1000
WIDE = 10  # steps that a rate is taken over, so that single packets do not hide it


class Steps:
    """Moments from `begin` to before `end` in at most so many steps of `size` nanoseconds; the last may reach past the end."""

    def __init__(self, begin, end, most=STEPS):
        self.begin, self.end = begin, end
        self.size = max(1, -(-(end - begin) // most))
        self.count = -(-(end - begin) // self.size)

    def edges(self):
        """The begin of each step, and the end of the last."""
        return self.begin + numpy.arange(self.count + 1, dtype=numpy.int64) * self.size

    def greatest(self, moments, values, least):
        """The greatest value of each step, `least` where it has none; the moments rise."""
        bounds = numpy.searchsorted(moments, self.edges(), side="left")
        found, has_some = numpy.full(self.count, least, dtype=numpy.int64), bounds[1:] > bounds[:-1]
        if has_some.any():
            found[has_some] = numpy.maximum.reduceat(values[:bounds[-1]], bounds[:-1][has_some])
        return found


def waiting(side, own, steps):
    """The most packets that wait at once in each step, without the one that is being sent. What happens at one moment is one change."""
    sent = own[side.is_sent[own]]
    arrival, start = side.arrival[sent], numpy.sort(side.start[sent])

    def count(moments):
        return numpy.searchsorted(arrival, moments, side="right") - numpy.searchsorted(start, moments, side="right")

    return numpy.maximum(count(steps.edges()[:-1]), steps.greatest(arrival, count(arrival), 0))


def drops(side, own, steps):
    """The packets dropped in each step, by their arrivals."""
    return numpy.diff(numpy.searchsorted(side.arrival[own[~side.is_sent[own]]], steps.edges(), side="left"))


def delays(side, own, steps):
    """The greatest delay of the packets that arrive in each step, in nanoseconds; -1 where none of them is sent."""
    sent = own[side.is_sent[own]]
    return steps.greatest(side.arrival[sent], (side.end - side.arrival)[sent], -1)


def rate(side, own, steps):
    """The bits per second sent in the last ten steps up to each; a sending counts for the part of it that lies in them."""
    sent = own[side.is_sent[own]]
    order = numpy.argsort(side.start[sent], kind="stable")
    corners = numpy.stack([side.start[sent][order], side.end[sent][order]], axis=1).ravel() - steps.begin
    bits = numpy.concatenate([[0], numpy.cumsum(side.length[sent][order] * 8)])
    by = numpy.stack([bits[:-1], bits[1:]], axis=1).ravel()
    ends = numpy.arange(1, steps.count + 1, dtype=numpy.int64) * steps.size
    begins = numpy.maximum(ends - WIDE * steps.size, 0)
    if not len(corners):
        return numpy.zeros(steps.count)
    return (numpy.interp(ends, corners, by) - numpy.interp(begins, corners, by)) * 10**9 / (ends - begins)

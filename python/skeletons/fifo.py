#!/usr/bin/env python3
"""A FIFO scheduler to begin from: python3 fifo.py BITS_PER_SECOND LIMIT FATES >theirs.csv

Takes arrivals and classes from fates of altqplay, and writes fates that `altqwork compare` reads. The queue holds LIMIT
packets, and the one on the link is not among them. round_robin.py and drr.py put another scheduler in place of `Fifo`.
"""

import csv
import sys
from collections import deque, namedtuple

Packet = namedtuple("Packet", "number arrival length name")


class Fifo:
    """One queue for all classes."""

    def __init__(self, limit):
        self.limit, self.waiting = limit, deque()

    def offer(self, packet):
        """Keeps a packet, or says False: it is dropped."""
        is_kept = len(self.waiting) < self.limit
        if is_kept:
            self.waiting.append(packet)
        return is_kept

    def choose(self):
        """Takes out the packet that is sent next."""
        return self.waiting.popleft()


def play(packets, scheduler, rate):
    """The rows of the fates. What arrives at the moment of a choice is offered first; a run's end is rounded up once."""
    packets, held, free, run, sent = deque(packets), 0, 0, 0, 0
    while packets or held:
        now = free if held else max(free, packets[0].arrival)
        while packets and packets[0].arrival <= now:
            packet = packets.popleft()
            is_kept = scheduler.offer(packet)
            held += is_kept
            if not is_kept:
                yield (*packet, "full", "", "")
        packet, held = scheduler.choose(), held - 1
        run, sent = (run, sent + packet.length) if now == free else (now, packet.length)
        free = run + -(-8 * 10**9 * sent // rate)
        yield (*packet, "share", now, free)


def main(scheduler, rate, fates):
    """Plays the arrivals of a file of fates and prints the fates that come of it."""
    with open(fates, newline="", encoding="ascii") as file:
        packets = sorted(Packet(int(row["number"]), int(row["arrival"]), int(row["length"]), row["class"]) for row in csv.DictReader(file))
    csv.writer(sys.stdout, lineterminator="\n").writerows([("number", "arrival", "length", "class", "fate", "start", "end"), *play(packets, scheduler, rate)])


if __name__ == "__main__":
    main(Fifo(int(sys.argv[2])), int(sys.argv[1]), sys.argv[3])

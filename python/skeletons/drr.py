#!/usr/bin/env python3
"""Deficit round robin (Shreedhar and Varghese, SIGCOMM 1995) to begin from:
python3 drr.py BITS_PER_SECOND LIMIT QUANTUM FATES >theirs.csv

Each class holds LIMIT packets. Its turn adds QUANTUM bytes to its deficit, which pays for what it sends. The link is that
of fifo.py.
"""

import sys
from collections import deque

from fifo import main


class Drr:
    """A queue and a deficit for each class; one that empties loses its deficit. The first of `turns` has its turn."""

    def __init__(self, limit, quantum):
        self.limit, self.quantum, self.queues, self.turns, self.deficit = limit, quantum, {}, deque(), {}

    def offer(self, packet):
        """Keeps a packet, or says False: it is dropped."""
        queue = self.queues.setdefault(packet.name, deque())
        if len(queue) == self.limit:
            return False
        if not queue:
            self.deficit[packet.name] = 0 if self.turns else self.quantum
            self.turns.append(packet.name)
        queue.append(packet)
        return True

    def choose(self):
        """Takes out the packet that is sent next."""
        while self.queues[self.turns[0]][0].length > self.deficit[self.turns[0]]:
            self.turns.rotate(-1)
            self.deficit[self.turns[0]] += self.quantum
        name = self.turns[0]
        packet = self.queues[name].popleft()
        self.deficit[name] -= packet.length
        if not self.queues[name]:
            self.turns.popleft()
            if self.turns:
                self.deficit[self.turns[0]] += self.quantum
        return packet


if __name__ == "__main__":
    main(Drr(int(sys.argv[2]), int(sys.argv[3])), int(sys.argv[1]), sys.argv[4])

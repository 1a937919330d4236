#!/usr/bin/env python3
"""Round robin (Nagle, RFC 970) to begin from: python3 round_robin.py BITS_PER_SECOND LIMIT FATES >theirs.csv

Each class holds LIMIT packets and sends one in its turn. The link is that of fifo.py.
"""

import sys
from collections import deque

from fifo import main


class RoundRobin:
    """A queue for each class; those that wait take turns, in the order in which they began to wait."""

    def __init__(self, limit):
        self.limit, self.queues, self.turns = limit, {}, deque()

    def offer(self, packet):
        """Keeps a packet, or says False: it is dropped."""
        queue = self.queues.setdefault(packet.name, deque())
        if len(queue) == self.limit:
            return False
        if not queue:
            self.turns.append(queue)
        queue.append(packet)
        return True

    def choose(self):
        """Takes out the packet that is sent next."""
        queue = self.turns.popleft()
        packet = queue.popleft()
        if queue:
            self.turns.append(queue)
        return packet


if __name__ == "__main__":
    main(RoundRobin(int(sys.argv[2])), int(sys.argv[1]), sys.argv[3])

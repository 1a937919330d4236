"""What a rule asks of an address or a port: exactly, for packets in columns, and as the lists that filters have."""

from __future__ import annotations

import ipaddress
from typing import List, NamedTuple, Optional

import numpy

from .altq_text import ANY, Address

MOST_PORTS = 64
LOW = (1 << 64) - 1


class Span(NamedTuple):
    """Ports from the least to the most."""

    least: int
    most: int


class Entry(NamedTuple):
    """Addresses of a family from the least to the most; `is_out` says that a table leaves them out."""

    family: int
    least: int
    most: int
    is_out: bool = False

    def address(self) -> Optional[Address]:
        """The addresses as a value under a prefix, or None where they are none."""
        bits = 32 if self.family == 4 else 128
        size = self.most - self.least + 1
        if size & (size - 1) or self.least % size:
            return None
        return Address(self.least, (1 << bits) - size)

    def holds(self, family, high, low):
        """Which of some addresses, in halves, are among these."""
        least, most = ([numpy.uint64(half) for half in divmod(end, LOW + 1)] for end in (self.least, self.most))
        above = (high > least[0]) | ((high == least[0]) & (low >= least[1]))
        below = (high < most[0]) | ((high == most[0]) & (low <= most[1]))
        return (family == self.family) & above & below


class Hosts(NamedTuple):
    """Some addresses: any where `entries` is None. Of a table the narrowest entry that holds an address decides."""

    entries: Optional[tuple] = None
    is_not: bool = False
    is_table: bool = False

    def family(self) -> Optional[int]:
        """The only family that a rule with these addresses is of; a table has both."""
        families = {entry.family for entry in self.entries or ()}
        return families.pop() if len(families) == 1 and not self.is_table else None

    def addresses(self) -> Optional[list]:
        """The addresses for filters, each with its family or None for any; None where no filter can say them."""
        if self.entries is None:
            return None if self.is_not else [(None, ANY)]
        if self.is_not or any(entry.is_out or entry.address() is None for entry in self.entries):
            return None
        return [(entry.family, entry.address()) for entry in self.entries]

    def holds(self, family, high, low):
        """Which of some addresses are among these."""
        if self.entries is None:
            return numpy.full(len(family), not self.is_not)
        found, decided = numpy.zeros(len(family), dtype=bool), numpy.zeros(len(family), dtype=bool)
        for entry in sorted(self.entries, key=lambda entry: entry.most - entry.least):
            inside = entry.holds(family, high, low) & ~decided
            decided |= inside
            if not entry.is_out:
                found |= inside
        if self.is_not:
            found = ~found & ((family == self.family()) if self.family() else True)
        return found


EVERYONE = Hosts()


def entry_of(text: str, is_out: bool = False) -> Optional[Entry]:
    """The addresses of a word: one, a net, or two with a hyphen between them; None where it is none of these."""
    least, hyphen, most = text.partition("-")
    try:
        if hyphen:
            ends = [ipaddress.ip_address(end) for end in (least, most)]
            is_range = ends[0].version == ends[1].version and int(ends[0]) <= int(ends[1])
            return Entry(ends[0].version, int(ends[0]), int(ends[1]), is_out) if is_range else None
        net = ipaddress.ip_network(text, strict=False)
    except ValueError:
        return None
    return Entry(net.version, int(net.network_address), int(net.broadcast_address), is_out)


def listed(spans: Optional[List[Span]]) -> list:
    """The ports for filters, 0 for any; none of a span with more than MOST_PORTS."""
    if spans is None:
        return [0]
    return [port for span in spans if span.most - span.least < MOST_PORTS for port in range(span.least, span.most + 1)]


def has_port(spans: Optional[List[Span]], ports, has_ports):
    """Which of some ports are in the spans; a packet without ports is in none."""
    if spans is None:
        return numpy.ones(len(ports), dtype=bool)
    found = numpy.zeros(len(ports), dtype=bool)
    for span in spans:
        found |= (ports >= span.least) & (ports <= span.most)
    return found & has_ports

"""Plays classes that no filter can say: a copy of the capture in which each packet carries its class where filters look.

In the copy the target's address stands for the class, 240.B.0.0 and N of IPv4 and 100:0:0:B::N of IPv6, where B is such that no packet of the
capture has one of these. Lengths, stamps, ports, protocols and types of service stay, since RIO, `ecn`, `cleardscp` and
conditioners read them. A frame of neither version of IP cannot be marked.
"""

from __future__ import annotations

import ipaddress
from typing import List

import numpy

from .captures import Frames
from .faults import Refused
from .headers import Reading

GREATEST_RULE = 2**32 - 1


def four(base: int, number: int) -> int:
    """The address of IPv4 for a class."""
    return 240 << 24 | base << 16 | number


def six(base: int, number: int) -> int:
    """The address of IPv6 for a class, in the prefix that RFC 6666 keeps free."""
    return 0x0100 << 112 | base << 64 | number


def free_base(heads) -> int:
    """A number such that no packet has a target that stands for a class."""
    taken = set(numpy.unique((heads.dst_low[(heads.family == 4) & (heads.dst_low >> numpy.uint64(24) == 240)] >> numpy.uint64(16)) & numpy.uint64(0xFF)))
    taken |= set(numpy.unique(heads.dst_high[(heads.family == 6) & (heads.dst_high >> numpy.uint64(48) == 0x0100)] & numpy.uint64(0xFF)))
    free = next((base for base in range(256) if base not in taken), None)
    if free is None:
        raise Refused("the capture has targets in each of 240.0.0.0/16 to 240.255.0.0/16: no address is left that stands for a class")
    return free


def filters(interface: str, names: List[str], base: int, rule: int) -> str:
    """The lines of the filters that find each class by its address."""
    lines = []
    for number, name in enumerate(names):
        lines.append(f"filter {interface} {name} ruleno {rule} {ipaddress.IPv4Address(four(base, number))} 0 0 0 0")
        lines.append(f"filter6 {interface} {name} ruleno {rule} {ipaddress.IPv6Address(six(base, number))}/128 0 0 0 0")
    return "\n".join(lines) + "\n"


class Marking:
    """Marks the packets of a capture with classes; a class of -1 leaves a packet to the configuration's own filters."""

    def __init__(self, frames: Frames, reading: Reading):
        self.frames, self.reading, self.heads = frames, reading, reading.headers()
        self.base = free_base(self.heads)

    def write(self, name: str, of_class, names: List[str]) -> None:
        """Writes the marked copy."""
        data = numpy.frombuffer(bytearray(self.frames.data), dtype=numpy.uint8)
        starts = self.reading.heads.at + self.reading.ip
        for family, size, offset, address in ((4, 4, 16, four), (6, 16, 24, six)):
            own = numpy.flatnonzero((self.heads.family == family) & (of_class >= 0))
            marks = numpy.array([[address(self.base, number) >> 8 * (size - 1 - n) & 0xFF for n in range(size)] for number in range(len(names))],
                                dtype=numpy.uint8).reshape(len(names), size)
            for n in range(size):
                data[starts[own] + offset + n] = marks[of_class[own], n]
        with open(name, "wb") as file:
            data[:self.frames.places[-1] + 16 + self.frames.captured[-1] if len(self.frames) else 24].tofile(file)

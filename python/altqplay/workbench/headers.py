"""The headers of a capture's frames in columns of numpy: what rules ask of a packet.

Where the program finds a header is in docs/reference/FRAMES.md; `family` is 0 where it finds none. Beyond that, extension headers of
IPv6 are passed, as pf passes them, and TCP's flags, bare acknowledgements and the types of ICMP are read.
"""

from __future__ import annotations

from functools import lru_cache

import numpy

from .columns import distinct
from .flows import heads_of, numbered

TAGS, EXTENSIONS = (0x8100, 0x88A8), (0, 43, 44, 51, 60)
TCP, UDP, ICMP, ICMP6, FRAGMENT, AH = 6, 17, 1, 58, 44, 51
SYN, ACK = 2, 16
MIXER = numpy.uint64(0x9E3779B97F4A7C15)  # odd, so that no two words become one
COLUMNS = ("family", "protocol", "tos", "src_high", "src_low", "dst_high", "dst_low", "sport", "dport", "has_ports", "flags", "is_bare",
           "icmp", "code", "ident")


class Headers:
    """A column for each of COLUMNS, a row for each frame, or for each of some rows of others."""

    family: numpy.ndarray
    protocol: numpy.ndarray
    tos: numpy.ndarray
    src_high: numpy.ndarray
    src_low: numpy.ndarray
    dst_high: numpy.ndarray
    dst_low: numpy.ndarray
    sport: numpy.ndarray
    dport: numpy.ndarray
    has_ports: numpy.ndarray
    flags: numpy.ndarray
    is_bare: numpy.ndarray
    icmp: numpy.ndarray
    code: numpy.ndarray
    ident: numpy.ndarray

    def __init__(self, columns):
        self.__dict__.update(columns)

    def __len__(self):
        return len(self.family)

    def at(self, rows):
        """The headers of some rows."""
        return Headers({name: getattr(self, name)[rows] for name in COLUMNS})

    def turned(self):
        """The headers of the answers: source and target exchanged."""
        swap = {"src_high": "dst_high", "src_low": "dst_low", "sport": "dport"}
        swap.update({other: name for name, other in swap.items()})
        return Headers({name: getattr(self, swap.get(name, name)) for name in COLUMNS})

    def groups(self, names):
        """The number of each row's group, of those that agree in some columns; numbers are in the order of their first rows."""
        words = packed([getattr(self, name) for name in names])
        mixed = numpy.zeros(len(self), dtype=numpy.uint64)
        for word in words:
            mixed = (mixed ^ word) * MIXER
            mixed ^= mixed >> numpy.uint64(29)
        found, rows = numbered(distinct(mixed)[1])
        if all((word == word[rows][found]).all() for word in words):
            return found
        found = numpy.zeros(len(self), dtype=numpy.int64)  # two groups were mixed into one number, so they are told apart word by word
        for word in words:
            kinds, codes = distinct(word)
            found = distinct(found * len(kinds) + codes)[1]
        return numbered(found)[0]


@lru_cache(maxsize=1)
def reading_of(frames):
    """The headers of a capture's frames, which two plays of it ask for."""
    return Reading(frames)


def packed(columns):
    """Some columns side by side in words of 64 bits, each as wide as its greatest value; those that are 0 everywhere are left out."""
    words: list[numpy.ndarray] = []
    left = 0
    for column in columns:
        values = column.astype(numpy.uint64) + numpy.uint64(column.dtype.kind == "i")  # -1 stands for nothing in some
        wide = int(values.max(initial=0)).bit_length()
        if wide > left:
            words, left = words + [numpy.zeros(len(values), dtype=numpy.uint64)], 64
        words[-1:] = [words[-1] << numpy.uint64(min(wide, 63)) | values if wide < 64 else values] if wide else words[-1:]
        left -= wide
    return words or [numpy.zeros(len(columns[0]), dtype=numpy.uint64)]


def first_rows(groups):
    """The first row of each group."""
    found = numpy.zeros(int(groups.max()) + 1 if len(groups) else 0, dtype=numpy.int64)
    found[groups[::-1]] = numpy.arange(len(groups))[::-1]
    return found


class Reading:
    """Reads the headers of a capture's frames."""

    def __init__(self, frames):
        self.heads = heads_of(frames)
        base = numpy.full(len(frames), 12, dtype=numpy.int64)
        for _tag in range(2):
            base = numpy.where(numpy.isin(self.word(base), TAGS), base + 4, base)
        self.kind, self.ip = self.word(base), base + 2
        first, left = self.heads.byte(self.ip), self.heads.captured - self.ip
        self.is_4 = (self.kind == 0x0800) & (left >= 20) & (first >> numpy.uint64(4) == 4) & (first & numpy.uint64(15) >= 5)
        self.is_6 = (self.kind == 0x86DD) & (left >= 40) & (first >> numpy.uint64(4) == 6)
        self.words = 4 * (first & numpy.uint64(15)).astype(numpy.int64)

    def word(self, offset, size=2):
        return self.heads.word(offset, size)

    def either(self, four, six):
        """A column of IPv4, of IPv6, else of zeros."""
        return numpy.where(self.is_4, four, numpy.where(self.is_6, six, 0))

    def carried(self):
        """What stands behind the headers of IP: the protocol, where it begins, where the packet ends, and whether it is a later fragment."""
        ip = self.ip
        protocol = self.either(self.heads.byte(ip + 9), self.heads.byte(ip + 6)).astype(numpy.int64)
        at = numpy.where(self.is_6, ip + 40, ip + self.words)
        end = ip + self.either(self.word(ip + 2), self.word(ip + 4) + numpy.uint64(40)).astype(numpy.int64)
        later = self.is_4 & (self.word(ip + 6) & numpy.uint64(0x1FFF) > 0)
        for _header in range(8):
            goes_on = self.is_6 & numpy.isin(protocol, EXTENSIONS) & ~later
            if not goes_on.any():
                break
            size = numpy.where(protocol == FRAGMENT, 8, numpy.where(protocol == AH, 4 * (self.heads.byte(at + 1).astype(numpy.int64) + 2),
                                                                    8 * (self.heads.byte(at + 1).astype(numpy.int64) + 1)))
            later = later | (goes_on & (protocol == FRAGMENT) & (self.word(at + 2) & numpy.uint64(0xFFF8) > 0))
            protocol, at = numpy.where(goes_on, self.heads.byte(at), protocol).astype(numpy.int64), numpy.where(goes_on, at + size, at)
        return protocol, at, end, later

    def headers(self):
        """All columns."""
        ip, (protocol, at, end, later) = self.ip, self.carried()
        is_ip, left = self.is_4 | self.is_6, self.heads.captured - at
        has_ports = is_ip & ~later & numpy.isin(protocol, (TCP, UDP)) & (left >= 4)
        is_tcp, is_icmp = has_ports & (protocol == TCP) & (left >= 14), is_ip & ~later & numpy.isin(protocol, (ICMP, ICMP6)) & (left >= 2)
        flags = numpy.where(is_tcp, self.heads.byte(at + 13), 0)
        payload = end - at - 4 * (self.heads.byte(at + 12) >> numpy.uint64(4)).astype(numpy.int64)
        tos_6 = (self.word(ip) >> numpy.uint64(4)) & numpy.uint64(0xFF)
        kind = numpy.where(is_icmp, self.heads.byte(at), 256)
        is_echo = is_icmp & (left >= 6) & numpy.isin(kind, (0, 8, 128, 129))
        low = [numpy.where(self.is_6, self.word(ip + six, 8), numpy.where(self.is_4, self.word(ip + four, 4), 0)) for four, six in ((12, 16), (16, 32))]
        return Headers({
            "family": numpy.where(self.is_4, 4, numpy.where(self.is_6, 6, 0)), "protocol": numpy.where(is_ip, protocol, -1),
            "tos": self.either(self.heads.byte(ip + 1), tos_6).astype(numpy.int64),
            "src_high": numpy.where(self.is_6, self.word(ip + 8, 8), 0), "src_low": low[0],
            "dst_high": numpy.where(self.is_6, self.word(ip + 24, 8), 0), "dst_low": low[1],
            "sport": numpy.where(has_ports, self.word(at), 0).astype(numpy.int64), "dport": numpy.where(has_ports, self.word(at + 2), 0).astype(numpy.int64),
            "has_ports": has_ports, "flags": flags.astype(numpy.int64),
            "is_bare": is_tcp & (flags & numpy.uint64(ACK) > 0) & (payload == 0),
            "icmp": kind.astype(numpy.int64), "code": numpy.where(is_icmp, self.heads.byte(at + 1), 0).astype(numpy.int64),
            # what tells one exchange of ICMP from another: the identifier of an echo, else the type
            "ident": numpy.where(is_echo, self.word(at + 4), numpy.where(is_icmp, kind + 65536, 0)).astype(numpy.int64)})

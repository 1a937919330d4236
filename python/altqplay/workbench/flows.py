"""The flow of each frame of a capture: addresses, protocol and ports, of IPv4 and IPv6, behind any VLAN tags.

Ports are those of TCP, UDP, UDP-Lite, DCCP and SCTP, in packets that are no later fragments; the headers of IPv6 that may
stand between are not passed over. It is for tables: the program's own rules of what flow a frame is of are in docs/reference/FRAMES.md.
"""

from __future__ import annotations

import ipaddress
from functools import lru_cache
from typing import Any

import numpy

from .columns import distinct

TAGS = (0x8100, 0x88A8, 0x9100)
IPV4, IPV6 = 0x0800, 0x86DD
WITH_PORTS = (6, 17, 33, 132, 136)
NAMES = {1: "icmp", 6: "tcp", 17: "udp", 47: "gre", 50: "esp", 58: "icmp6", 132: "sctp"}
WORD = 8
# By how many bytes of a word were captured, its first ones: a mask of these.
KEPT = numpy.array([2**64 - 2 ** (8 * (WORD - size)) for size in range(WORD + 1)], dtype=numpy.uint64)


class Heads:
    """The captured bytes of many frames; 0 behind the end of what was captured."""

    def __init__(self, frames: Any) -> None:
        self.at = numpy.array(frames.places, dtype=numpy.int64) + 16
        self.captured = numpy.array(frames.captured, dtype=numpy.int64)
        self.last = len(frames.data) - WORD
        self.words: numpy.ndarray = numpy.ndarray(self.last + 1, dtype=">u8", buffer=frames.data, strides=(1,))

    def word(self, offset: Any, size: int = 2) -> numpy.ndarray:
        """Some bytes of each frame, at most eight, from an offset on, one for all or one each, the greatest first."""
        places = self.at + offset
        starts = numpy.minimum(places, self.last)
        found = self.words[starts].astype(numpy.uint64)
        if (places > self.last).any():
            found <<= (8 * numpy.clip(places - starts, 0, WORD - 1)).astype(numpy.uint64)
        found &= KEPT[numpy.clip(self.captured - offset, 0, WORD)]
        return found >> numpy.uint64(8 * (WORD - size))

    def byte(self, offset: Any) -> numpy.ndarray:
        """The byte of each frame at an offset, one for all or one each."""
        return self.word(offset, 1)


@lru_cache(maxsize=1)
def heads_of(frames: Any) -> Heads:
    """The captured bytes of a capture's frames, which several ask for."""
    return Heads(frames)


def columns(heads: Heads) -> list[numpy.ndarray]:
    """What tells a flow, in columns: type, protocol and both ports as one number, and the addresses, of IPv4 both in the first."""
    base = numpy.full(len(heads.at), 12, dtype=numpy.int64)
    kind = heads.word(base)
    for _tag in range(2):
        is_tag = numpy.isin(kind, TAGS)
        if is_tag.any():
            base += 4 * is_tag
            kind = heads.word(base)
    ip, is_4, is_6 = base + 2, kind == IPV4, kind == IPV6
    protocol = heads.word(ip + numpy.where(is_6, 6, 9), 1) * (is_4 | is_6)
    ports = ip + numpy.where(is_6, 40, 4 * (heads.word(ip, 1).astype(numpy.int64) & 15))
    is_first = is_6 | (heads.word(ip + 6) & numpy.uint64(0x1FFF) == 0)
    has_ports = (is_4 | is_6) & is_first & numpy.isin(protocol, WITH_PORTS)
    found = [kind << numpy.uint64(40) | protocol << numpy.uint64(32) | heads.word(ports, 4) * has_ports,
             heads.word(ip + numpy.where(is_6, 8, 12), WORD) * (is_4 | is_6)]
    return found + [heads.word(ip + offset, WORD) * is_6 for offset in (16, 24, 32)] if is_6.any() else found


def ends(kind: int, addresses: list[int]) -> list[str]:
    """The source and the target of a flow, of its columns of addresses."""
    if kind == IPV4:
        return [str(ipaddress.IPv4Address(address)) for address in (addresses[0] >> 32, addresses[0] & 0xFFFFFFFF)]
    return [str(ipaddress.IPv6Address(addresses[place] << 64 | addresses[place + 1])) for place in (0, 2)]


def named(head: int, *addresses: int) -> str:
    """A flow in words, of its columns."""
    kind, protocol, ports = head >> 40, head >> 32 & 0xFF, (head >> 16 & 0xFFFF, head & 0xFFFF)
    if kind not in (IPV4, IPV6):
        return f"type {kind:04x}"
    told = [f"[{text}]:{port}" if port and kind == IPV6 else f"{text}:{port}" if port else text for text, port in zip(ends(kind, list(addresses)), ports)]
    return f"{NAMES.get(protocol, f'protocol {protocol}')} {told[0]} > {told[1]}"


def numbered(codes: numpy.ndarray) -> tuple[numpy.ndarray, numpy.ndarray]:
    """Codes below a number as others, which count up in the order in which they come first, and where each comes first."""
    first = numpy.full(int(codes.max(initial=-1)) + 1, len(codes), dtype=numpy.int64)
    first[codes[::-1]] = numpy.arange(len(codes))[::-1]
    order = numpy.argsort(first, kind="stable")[:int((first < len(codes)).sum())]
    places = numpy.zeros(len(first), dtype=numpy.int64)
    places[order] = numpy.arange(len(order))
    return places[codes], first[order]


class Flows:
    """The flow of each record of a capture: `of[n - 1]` is that of packet n, a place of `names`."""

    def __init__(self, frames: Any) -> None:
        found = columns(heads_of(frames)) if len(frames) else []
        codes = numpy.zeros(len(frames), dtype=numpy.int64)
        for values in found:
            kinds, own = distinct(values)
            codes = distinct(codes * len(kinds) + own)[1]
        self.of, first = numbered(codes)
        self.names = [named(*(int(values[place]) for values in found)) for place in first.tolist()]

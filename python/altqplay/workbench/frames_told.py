"""What is told of a capture's frames before they are played: those whose class no filter decides, and those that no link carries so."""

from __future__ import annotations

from typing import List

import numpy

from .captures import CLASSIC, Frames
from .headers import Reading

LONGEST = 1514  # of Ethernet with 1500 bytes of payload, without its check sequence
NAMES = {0x0806: "ARP", 0x8863: "PPPoE discovery", 0x8864: "PPPoE without IP", 0x8847: "MPLS", 0x88CC: "LLDP", 0x888E: "EAPOL", 0x8100: "three tags",
         0x88A8: "three tags", 0x880B: "PPP", 0x0800: "IPv4 that is cut or damaged", 0x86DD: "IPv6 that is cut or damaged"}
LEAST_TYPE = 0x0600


def named(kind: int) -> str:
    """A type of Ethernet in words."""
    return "IEEE 802.3" if kind < LEAST_TYPE else NAMES.get(kind, f"type {kind:04x}")


def lengths(frames: Frames, reading: Reading) -> numpy.ndarray:
    """The original length of each frame, which stands before its bytes."""
    order, _unit = CLASSIC[frames.data[:4]]
    places = range(-4, 0) if order == ">" else range(-1, -5, -1)
    found = numpy.zeros(len(frames), dtype=numpy.int64)
    for place in places:
        found = found << 8 | reading.heads.byte(place).astype(numpy.int64)
    return found


def told_of_frames(frames: Frames, reading: Reading) -> List[str]:
    """The lines on a capture's frames."""
    if not len(frames):
        return ["the capture holds no packets"]
    lines = []
    is_other = ~(reading.is_4 | reading.is_6)
    if is_other.any():
        kinds, counts = numpy.unique([named(kind) for kind in reading.kind[is_other].tolist()], return_counts=True)
        which = ", ".join(f"{count} {kind}" for count, kind in sorted(zip(counts.tolist(), kinds.tolist()), reverse=True))
        lines.append(f"{int(is_other.sum())} frames of neither version of IP are in the default class, since no filter and no mark finds them: {which}")
    sizes = lengths(frames, reading)
    long = sizes - (reading.ip - 14) > LONGEST  # each tag before the packet takes four more
    if long.any():
        lines.append(f"{int(long.sum())} frames are longer than {LONGEST} bytes, the longest {int(sizes.max())}: receive offload joined them,"
                     " or they are jumbo frames. Each is played in one piece; turn offload off while you capture (ethtool -K em1 gro off lro off)")
    return lines

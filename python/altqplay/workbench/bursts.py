"""Captures of a few bursts of frames, for a rule that is tried by hand. A burst is written

    COUNTxLENGTH@TIME[:WHAT[:TOS]]

COUNT frames of LENGTH bytes that all come TIME nanoseconds after 0. WHAT is the port of UDP that they go to, 9000 without it, or
`tcp`, `icmp` or `arp`; TOS is the type of service, 0 without it, in decimal or as 0xB8. So `50x1000@0 1x200@10000000:5004` are 50
frames of 1,000 bytes at 0 and one of 200 bytes to port 5004 after 10 ms.

Frames are Ethernet and IPv4 from 10.0.0.1 to 10.0.0.2. At most their first 60 bytes are captured, and the record tells the length.
"""

from __future__ import annotations

import re
import struct

from .faults import Refused

NANOSECONDS = 10**9
SNAP = 60  # captured bytes of a frame, at most
DATA_PORT = 9000
BURST = re.compile(r"(\d+)x(\d+)@(\d+)(?::(\d+|tcp|icmp|arp)(?::(\d+|0x[0-9a-fA-F]+))?)?")
PROTOCOLS = {"icmp": 1, "tcp": 6}
LEAST, MOST = 42, 65_549  # the headers of Ethernet, IPv4 and UDP, and the longest frame that an IPv4 header can tell


def head_checksum(head: bytes) -> int:
    """The checksum of an IPv4 header whose own checksum is zero (RFC 791)."""
    total = sum(struct.unpack(">10H", head))
    while total >> 16:
        total = (total & 0xFFFF) + (total >> 16)
    return total ^ 0xFFFF


def captured_bytes(number: int, length: int, port: int, tos: int) -> bytes:
    """The first 60 bytes, or fewer, of a frame of this length: Ethernet, IPv4 and UDP headers, then zeros.

    `number` goes into the identification of the IPv4 header, so that frames differ. The length is at least 42 and at most 65,549.
    """
    ethernet = bytes.fromhex("020000000002" "020000000001" "0800")
    inside = length - len(ethernet)
    source, target = bytes([10, 0, 0, 1]), bytes([10, 0, 0, 2])
    fields = (0x45, tos, inside, number % 2**16, 0x4000, 64, 17)
    bare = struct.pack(">BBHHHBBH4s4s", *fields, 0, source, target)
    ip = struct.pack(">BBHHHBBH4s4s", *fields, head_checksum(bare), source, target)
    udp = struct.pack(">HHHH", 40000, port, inside - 20, 0)
    return (ethernet + ip + udp + bytes(SNAP))[: min(length, SNAP)]


def capture_head() -> bytes:
    """The header of a capture: little-endian, nanoseconds, version 2.4, Ethernet."""
    return struct.pack("<IHHiIII", 0xA1B23C4D, 2, 4, 0, 0, 262144, 1)


def record(stamp: int, captured: bytes, length: int) -> bytes:
    """A record: a frame of this length with this stamp in nanoseconds, of which these bytes were captured."""
    seconds, nanoseconds = divmod(stamp, NANOSECONDS)
    return struct.pack("<IIII", seconds, nanoseconds, len(captured), length) + captured


def of_protocol(frame: bytes, protocol: int) -> bytes:
    """A frame of UDP as one of another protocol over IPv4: its number and the checksum of its header change."""
    head = frame[14:23] + bytes([protocol]) + bytes(2) + frame[26:34]
    return frame[:14] + head[:10] + struct.pack(">H", head_checksum(head)) + head[12:] + frame[34:]


def frame_of(number: int, length: int, what: str, tos: int) -> bytes:
    """The captured bytes of a frame."""
    if what == "arp":
        return (bytes.fromhex("ffffffffffff" "020000000001" "0806" "0001080006040001") + bytes(SNAP))[: min(length, SNAP)]
    if what in PROTOCOLS:
        return of_protocol(captured_bytes(number, length, 0, tos), PROTOCOLS[what])
    return captured_bytes(number, length, int(what), tos)


def burst_of(word: str) -> tuple[int, int, int, str, int]:
    """Count, length, time, kind or port, and type of service of a burst; `Refused` where it is not of the form above."""
    match = BURST.fullmatch(word)
    if match is None:
        raise Refused(f"{word}: no burst: COUNTxLENGTH@TIME[:PORT|:tcp|:icmp|:arp[:TOS]]")
    count, length, at = (int(number) for number in match.groups()[:3])
    what, tos = match[4] or str(DATA_PORT), int(match[5] or "0", 0)
    if not LEAST <= length <= MOST:
        raise Refused(f"{word}: the length is {LEAST} to {MOST} bytes")
    if at >= 2**32 * NANOSECONDS or tos > 255 or (what.isdigit() and int(what) >= 2**16):
        raise Refused(f"{word}: the time is below 2^32 seconds, a port below 65,536, a type of service below 256")
    return count, length, at, what, tos


def capture(words: list[str]) -> bytes:
    """The capture of some bursts, its records in their order."""
    found: list[bytes] = []
    for count, length, at, what, tos in map(burst_of, words):
        found += [record(at, frame_of(number, length, what, tos), length) for number in range(len(found) + 1, len(found) + count + 1)]
    return capture_head() + b"".join(found)

"""Flows and the places of records, against readings frame by frame."""

import ipaddress
import random
import struct

import pytest
from conftest import classic
from hypothesis import given, settings
from hypothesis import strategies as some

from altqplay.workbench.captures import Frames
from altqplay.workbench.faults import Refused
from altqplay.workbench.flows import Flows


def by_hand(frame):
    """The flow of a frame, byte by byte; what was not captured is 0."""
    def number(at, size):
        return int.from_bytes((frame + bytes(100))[at:at + size], "big")

    base = 12
    for _tag in range(2):
        base += 4 if number(base, 2) in (0x8100, 0x88A8, 0x9100) else 0
    kind, ip = number(base, 2), base + 2
    if kind not in (0x0800, 0x86DD):
        return f"type {kind:04x}"
    if kind == 0x0800:
        protocol, ports, is_first = number(ip + 9, 1), ip + 4 * (number(ip, 1) & 15), not number(ip + 6, 2) & 0x1FFF
        ends = [str(ipaddress.IPv4Address(number(ip + at, 4))) for at in (12, 16)]
    else:
        protocol, ports, is_first = number(ip + 6, 1), ip + 40, True
        ends = [str(ipaddress.IPv6Address(number(ip + at, 16))) for at in (8, 24)]
    names = {1: "icmp", 6: "tcp", 17: "udp", 47: "gre", 50: "esp", 58: "icmp6", 132: "sctp"}
    for place in (0, 1):
        port = number(ports + 2 * place, 2) if is_first and protocol in (6, 17, 33, 132, 136) else 0
        ends[place] = f"[{ends[place]}]:{port}" if port and kind == 0x86DD else f"{ends[place]}:{port}" if port else ends[place]
    return f"{names.get(protocol, f'protocol {protocol}')} {ends[0]} > {ends[1]}"


def random_frame(chance):
    """A frame of any kind, cut anywhere."""
    tags = b"".join(struct.pack(">HH", chance.choice([0x8100, 0x88A8, 0x9100]), chance.randrange(4096)) for _ in range(chance.choice([0, 0, 0, 1, 2, 3])))
    ports = bytes(chance.choice([0, 0, 80, 255]) for _ in range(4))
    if chance.random() < 0.5:
        words = chance.choice([5, 5, 6, 15])
        head = struct.pack(">BBHHHBBH4s4s", 0x40 | words, 0, 100, 0, chance.choice([0, 0x4000, 0x2000, 1, 0x1FFF]), 9, chance.choice([1, 6, 17, 33, 47, 132, 136, 255]), 0,
                           bytes([10, 0, 0, chance.randrange(3)]), bytes([255, 0, 0, chance.randrange(3)]))
        return bytes(12) + tags + b"\x08\x00" + head + bytes(4 * words - 20) + ports
    if chance.random() < 0.5:
        head = struct.pack(">IHBB16s16s", 0x60000000, 100, chance.choice([0, 6, 17, 58]), 9, bytes(15) + bytes([chance.randrange(3)]), b"\xfe\x80" + bytes(13) + b"\x09")
        return bytes(12) + tags + b"\x86\xdd" + head + ports
    return bytes(12) + tags + chance.choice([b"\x08\x06", b"\x12\x34", b"\0\0"]) + bytes(chance.randrange(40))


@settings(max_examples=200, deadline=None)
@given(some.integers(0, 2**32))
def test_flows_are_those_read_byte_by_byte(tmp_path_factory, seed):
    chance = random.Random(seed)
    frames = []
    for _ in range(chance.randrange(1, 12)):
        frame = random_frame(chance)
        frames.append(frame[:chance.choice([len(frame), len(frame), chance.randrange(len(frame) + 1)])])
    path = tmp_path_factory.mktemp("flows") / "a.pcap"
    path.write_bytes(classic(1, [(n, frame, 200) for n, frame in enumerate(frames)]))
    found = Flows(Frames(str(path)))
    told = [by_hand(frame) for frame in frames]
    assert [found.names[place] for place in found.of.tolist()] == told
    assert found.names == list(dict.fromkeys(told)) or len(found.names) > len(set(told))


def test_no_frames(tmp_path):
    (tmp_path / "a.pcap").write_bytes(classic(1, []))
    found = Flows(Frames(str(tmp_path / "a.pcap")))
    assert (found.names, len(found.of)) == ([], 0)


@settings(max_examples=200, deadline=None)
@given(some.lists(some.integers(0, 70), max_size=6), some.integers(0, 90))
def test_places_of_records_that_end_anywhere(tmp_path_factory, sizes, cut):
    """A file that ends within a record, in its head or its bytes, has the whole records before it."""
    whole = classic(1, [(n, bytes(size), 100) for n, size in enumerate(sizes)])
    ends = [24]
    for size in sizes:
        ends.append(ends[-1] + 16 + size)
    text = whole[:max(len(whole) - cut, 24)]
    path = tmp_path_factory.mktemp("places") / "a.pcap"
    path.write_bytes(text)
    frames = Frames(str(path))
    count = sum(end <= len(text) for end in ends[1:])
    assert (frames.places, frames.captured, frames.is_cut) == (ends[:count], sizes[:count], len(text) not in ends)


@pytest.mark.parametrize("length", [262_145, 2**32 - 1])
def test_a_record_that_is_too_long_is_refused(tmp_path, length):
    text = classic(1, [(0, bytes(10), 10), (1, bytes(10), 10)])
    (tmp_path / "a.pcap").write_bytes(text[:58] + struct.pack("<I", length) + text[62:])
    with pytest.raises(Refused, match=f"record 2 has {length} bytes captured, more than 262144"):
        Frames(str(tmp_path / "a.pcap"))

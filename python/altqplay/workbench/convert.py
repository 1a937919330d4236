"""Makes an Ethernet capture that altqplay reads of any capture: classic or pcapng, also packed by gzip, bzip2, xz or zstd;
Ethernet, also with PPPoE, raw IP, Linux cooked (v1, v2), loopback, PPP.

The length of what each packet carries is kept, also where less was captured: 14 bytes of Ethernet stand in place of
the old header. A frame of PPPoE keeps its length, and its packet stands in it without PPPoE's header, where the filters look.
Of a capture that ends within a record the whole records are taken, and it is said. --overhead adds bytes to each length, say 24 for Ethernet's check sequence, preamble and gap, or 8 for
PPPoE; a negative number takes some away. --atm then reckons cells: 53 bytes for each 48 of the length, the last cell
being filled up. What cannot be told is refused, with the number of the record, and nothing is written.
"""

import heapq
import os
import struct
import tempfile
from collections import Counter

from .captures import CLASSIC, ETHERNET, LONGEST, frames_of, records, write_ethernet
from .faults import Refused
from .links import as_ethernet, name_of, without_pppoe
from .packed import opened

NAME = "convert"
HELP = "makes an Ethernet capture that altqplay reads of any capture"
MOST_RECORDS, MOST_BYTES = 4_000_000, 2**30
CELL, CARRIED = 53, 48


def add_lengths(parser):
    """The words on lengths, which `late` and `report` have too."""
    parser.add_argument("--overhead", type=int, default=0, metavar="N", help="adds N bytes to each original length")
    parser.add_argument("--atm", action="store_true", help="reckons cells of ATM: 53 bytes for each 48 of length and overhead")
    parser.add_argument("--snap", type=int, default=LONGEST, metavar="N", help="keeps at most N captured bytes of each packet")


def add_arguments(parser):
    add_lengths(parser)
    parser.add_argument("capture", nargs="+", help="any capture; several are merged by their stamps")
    parser.add_argument("result", help="the capture to write: classic, Ethernet, stamps in nanoseconds")


def reckoned(length, overhead, atm):
    """A length on the line."""
    length += overhead
    return CELL * -(-length // CARRIED) if atm else length


def is_playable(name, overhead=0, atm=False):
    """Whether the program reads a capture as it is, and finds the packets in it: it is a classic one of Ethernet, not packed, no
    record is cut, and none is one of PPPoE."""
    with opened(name) as file:
        head, is_packed = file.read(24), file.is_packed
    order, _unit = CLASSIC.get(head[:4], (None, 0))
    if overhead or atm or is_packed or order is None or len(head) < 24 or struct.unpack_from(order + "I", head, 20)[0] & 0xFFFF != ETHERNET:
        return False
    frames = frames_of(name)
    has_pppoe = any(without_pppoe(frames.data[at + 16:at + 48]) for at in frames.places) if b"\x88\x64\x11\0" in frames.data else False
    return not frames.is_cut and not has_pppoe


class Conversion:
    """What captures become, and what was done: the records by link type, and how many lengths and captured bytes changed.

    Those of several captures are merged by their stamps; those of one keep their order.
    """

    def __init__(self, names, overhead, atm, snap):
        self.names, self.overhead, self.atm, self.snap = names, overhead, atm, snap
        self.links: Counter[int] = Counter()
        self.cut, self.pppoe, self.bytes = 0, 0, 24
        self.ends: list[str] = []

    def frame(self, name, number, record):
        """The record of Ethernet of a record."""
        try:
            found = as_ethernet(record)
        except Refused as fault:
            raise Refused(f"{name}: record {number} {fault}") from None
        length = reckoned(found.length, self.overhead, self.atm)
        if not 0 < length <= LONGEST:
            raise Refused(f"{name}: record {number} would have a length of {length}, not 1 to {LONGEST}")
        carried = without_pppoe(found.data)
        whole = found.data if carried is None else carried
        data = whole[:min(self.snap, length)]
        self.links[record.link] += 1
        self.pppoe += carried is not None
        self.cut += len(data) < len(whole)
        self.bytes += 16 + len(data)
        return found._replace(data=data, length=length)

    def of(self, name):
        """The records of Ethernet of one capture."""
        for number, record in enumerate(records(name, self.ends), 1):
            yield self.frame(name, number, record)

    def frames(self):
        """The records of Ethernet, in order."""
        return heapq.merge(*map(self.of, self.names), key=lambda record: record.at) if len(self.names) > 1 else self.of(self.names[0])

    def told(self):
        """What was done, in lines."""
        lines = self.ends + ([f"{count} packets of {name_of(link)}" for link, count in sorted(self.links.items())] or ["no packets"])
        if self.pppoe:
            lines.append(f"{self.pppoe} packets stood in PPPoE: their frames keep their lengths, without PPPoE's header")
        if self.overhead:
            lines.append(f"{self.overhead} bytes added to each length" if self.overhead > 0 else f"{-self.overhead} bytes taken from each length")
        if self.atm:
            lines.append(f"each length reckoned in cells: {CELL} bytes for each {CARRIED}")
        if self.cut:
            lines.append(f"captured bytes of {self.cut} packets cut to {self.snap} or their length")
        count = sum(self.links.values())
        if count > MOST_RECORDS:
            lines.append(f"altqplay plays {MOST_RECORDS} packets, and these are {count}: split the capture")
        if self.bytes > MOST_BYTES:
            lines.append(f"altqplay reads {MOST_BYTES} bytes, and these are {self.bytes}: give --snap")
        return lines


def converted(names, result, args):
    """Writes the conversion of a capture or of several; answers what was done. Where it is refused, no file of the result's name is
    made or changed."""
    names = [names] if isinstance(names, str) else names
    if args.snap < 0:
        raise Refused(f"--snap {args.snap}: less than nothing cannot be kept")
    if os.path.exists(result) and any(os.path.samefile(name, result) for name in names):
        raise Refused(f"{result}: the capture itself would be written over")
    conversion = Conversion(names, args.overhead, args.atm, args.snap)
    folder = os.path.dirname(os.path.abspath(result))
    with tempfile.TemporaryDirectory(prefix=".altqwork-", dir=folder) as room:
        made = os.path.join(room, "capture")
        write_ethernet(made, conversion.frames())
        os.replace(made, result)
    return conversion


def run(args):
    for line in converted(args.capture, args.result, args).told():
        print(line)
    return 0

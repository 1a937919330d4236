"""Reads captures that libpcap writes, classic or pcapng, also packed (`packed`), and writes classic ones of Ethernet.

`records` gives the records of any of them, one by one; `Frames` holds a whole classic capture of Ethernet, as the
program reads it, in columns. Sources: pcap-savefile(5), draft-ietf-opsawg-pcapng. Of a capture that ends within a record,
as tcpdump leaves it that is stopped, the whole records are taken, and that is told. One whose lengths disagree is refused
with the number of the record: nothing is made up.
"""

import os
import struct
from collections import namedtuple
from functools import lru_cache

from .faults import Refused
from .packed import opened
from .written import new_file

ETHERNET = 1
LONGEST = 262_144
NANOSECONDS = b"\x4d\x3c\xb2\xa1"
# Magic: byte order, and nanoseconds a unit of the second word of a stamp.
CLASSIC = {b"\xd4\xc3\xb2\xa1": ("<", 1000), b"\xa1\xb2\xc3\xd4": (">", 1000),
           NANOSECONDS: ("<", 1), b"\xa1\xb2\x3c\x4d": (">", 1)}
SECTION, INTERFACE, OLD_PACKET, SIMPLE_PACKET, PACKET = 0x0A0D0D0A, 1, 2, 3, 6
HEAD = NANOSECONDS + struct.pack("<HHIIII", 2, 4, 0, 0, LONGEST, ETHERNET)

# One record: the stamp in nanoseconds, the bytes captured, the original length in bytes, and the link type.
Record = namedtuple("Record", "at data length link")
# An interface of a pcapng section: link type, ticks a second, seconds to add to each stamp.
Source = namedtuple("Source", "link ticks offset")


class Cut(Exception):
    """A capture ends within what is being read."""


class Bytes:
    """The bytes of a capture in order."""

    def __init__(self, name):
        self.name, self.file, self.count = name, opened(name), 0
        self.read = self.file.read

    def take(self, size, at_end=False):
        """The next bytes; b"" at the end of the file where it may end here."""
        data = self.read(size)
        if len(data) < size and not (at_end and not data):
            raise Cut
        return data

    def fault(self, text):
        """What is wrong with the record that is being read."""
        return Refused(f"{self.name}: record {self.count + 1} {text}")


def cut_text(name, count):
    """What is told of a capture that ends within a record."""
    return f"{name}: it ends within record {count + 1}: the {count} whole records before it are taken"


def records(name, told=None):
    """The records of a capture in order. `Refused` where it is none, or a record has no stamp or a faulty length.

    Where the file ends within a record, `told`, a list, gets a line that says so; without one that is `Refused`.
    """
    source = Bytes(name)
    with source.file:
        magic = source.read(4)
        if magic in CLASSIC:
            found = classic_records(source, *CLASSIC[magic])
        elif magic == struct.pack("<I", SECTION):
            found = section_records(source)
        else:
            raise Refused(f"{name}: neither a classic capture nor pcapng, it begins with {magic.hex() or 'nothing'}")
        try:
            for record in found:
                if max(record.length, len(record.data)) > LONGEST or record.at < 0:
                    raise source.fault(f"has a length above {LONGEST} or a stamp before 1970")
                yield record
                source.count += 1
            is_cut = source.file.is_cut
        except Cut:
            is_cut = True
        if is_cut and (told is None or not source.count):
            raise source.fault("is cut: the file ends within it")
        if is_cut:
            told.append(cut_text(name, source.count))


def classic_records(source, order, unit):
    """The records behind the magic of a classic capture."""
    major, minor, _zone, _accuracy, _snap, link = struct.unpack(order + "HHIIII", source.take(20))
    if (major, minor) != (2, 4):
        raise Refused(f"{source.name}: version {major}.{minor}, and not 2.4")
    head = struct.Struct(order + "IIII")
    while True:
        words = source.take(16, at_end=True)
        if not words:
            return
        seconds, fraction, captured, length = head.unpack(words)
        if captured > LONGEST:
            raise source.fault(f"has {captured} bytes captured, more than {LONGEST}")
        yield Record(seconds * 10**9 + fraction * unit, source.take(captured), length, link & 0xFFFF)


def section_records(source):
    """The records of a pcapng file, of which the first four bytes were read."""
    order, kind = "<", SECTION
    interfaces: list[Source] = []
    while True:
        size = source.take(4)
        if kind == SECTION:
            magic = source.take(4)
            order = {b"\x4d\x3c\x2b\x1a": "<", b"\x1a\x2b\x3c\x4d": ">"}.get(magic, "")
            if not order:
                raise source.fault("follows a section without a byte order")
            interfaces = []
        body = block_body(source, order, size, 4 if kind == SECTION else 0)
        if kind == INTERFACE:
            interfaces.append(interface_of(source, order, body))
        elif kind == SIMPLE_PACKET:
            raise source.fault("is a simple packet block, which has no stamp")
        elif kind in (PACKET, OLD_PACKET):
            yield packet_of(source, order, body, interfaces, kind)
        word = source.take(4, at_end=True)
        if not word:
            return
        kind = struct.unpack(order + "I", word)[0]


def block_body(source, order, size, taken):
    """The rest of a block's body, of which some bytes were taken, with its two sizes compared."""
    total = struct.unpack(order + "I", size)[0]
    if total % 4 or not 12 + taken <= total <= 2**26:
        raise source.fault(f"follows or is a block of {total} bytes")
    body = source.take(total - 12 - taken)
    if source.take(4) != size:
        raise source.fault("follows or is a block whose two sizes differ")
    return body


def options_of(source, order, body):
    """The options at the end of a block: the value of each by its code."""
    found: dict[int, bytes] = {}
    at = 0
    while at + 4 <= len(body):
        code, size = struct.unpack_from(order + "HH", body, at)
        if code == 0:
            return found
        if at + 4 + size > len(body):
            raise source.fault("follows or is a block with an option that is cut")
        found[code] = body[at + 4:at + 4 + size]
        at += 4 + size + -size % 4
    return found


def interface_of(source, order, body):
    """An interface: its link type, its ticks (option if_tsresol) and its offset (if_tsoffset)."""
    if len(body) < 8:
        raise source.fault("follows an interface that is cut")
    options = options_of(source, order, body[8:])
    resolution = options.get(9, b"\x06")
    offset = options.get(14, bytes(8))
    if len(resolution) != 1 or len(offset) != 8:
        raise source.fault("follows an interface whose resolution or offset of stamps has another size")
    base = 2 if resolution[0] & 128 else 10
    return Source(struct.unpack_from(order + "H", body)[0], base ** (resolution[0] & 127), struct.unpack(order + "q", offset)[0])


def packet_of(source, order, body, interfaces, kind):
    """The record of a packet's block; its stamp is rounded down to nanoseconds."""
    if len(body) < 20:
        raise source.fault("is a block that is cut")
    number, high, low, captured, length = struct.unpack_from(order + ("IIIII" if kind == PACKET else "HxxIIII"), body)
    if number >= len(interfaces):
        raise source.fault(f"is of interface {number}, which the file does not have")
    if captured > len(body) - 20:
        raise source.fault("has more bytes captured than its block holds")
    of = interfaces[number]
    at = (high << 32 | low) * 10**9 // of.ticks + of.offset * 10**9
    return Record(at, body[20:20 + captured], length, of.link)


def write_ethernet(name, packets):
    """Writes records, or what has `at`, `data` and `length`, as a classic capture of Ethernet with stamps in nanoseconds;
    answers their number. `Refused` for a stamp of 2^32 seconds or more, which the format has no place for."""
    count, head = 0, struct.Struct("<IIII")
    with new_file(name, "wb") as file:
        file.write(HEAD)
        for packet in packets:
            seconds, fraction = divmod(packet.at, 10**9)
            if seconds >= 2**32:
                raise Refused(f"{name}: the stamp of record {count + 1} is 2^32 seconds or more")
            file.write(head.pack(seconds, fraction, len(packet.data), packet.length) + packet.data)
            count += 1
    return count


class Frames:
    """A classic capture of Ethernet that the program plays: `data`, the place of each whole record in it, and its numbers.

    `is_cut` says whether the file ends within a record.
    """

    def __init__(self, name):
        with opened(name) as file:
            self.data, self.is_cut = file.read(), file.is_cut
        order, _unit = CLASSIC.get(self.data[:4], (None, 0))
        if order is None or len(self.data) < 24 or struct.unpack_from(order + "I", self.data, 20)[0] & 0xFFFF != ETHERNET:
            raise Refused(f"{name}: not a classic capture of Ethernet; altqwork convert makes one")
        self.name, self.places = name, []
        self.index(struct.Struct(order + "I").unpack_from)

    def index(self, word):
        """Finds the place of each whole record."""
        data, end, at, places = self.data, len(self.data), 24, self.places
        add, last = places.append, end - 16
        while at <= last:
            add(at)
            at += 16 + word(data, at + 8)[0]
        self.captured = [behind - place - 16 for place, behind in zip(places, places[1:] + [at])]
        if max(self.captured, default=0) > LONGEST:
            number, captured = next((number, captured) for number, captured in enumerate(self.captured, 1) if captured > LONGEST)
            raise Refused(f"{self.name}: record {number} has {captured} bytes captured, more than {LONGEST}")
        if at != end:
            self.is_cut = True
        if at > end:
            del places[-1:], self.captured[-1:]

    def __len__(self):
        return len(self.places)

    def write(self, name, numbers):
        """Writes the records of some numbers, counted from 1, as they stand here."""
        if os.path.exists(name) and os.path.samefile(name, self.name):
            raise Refused(f"{name}: the capture itself would be written over")
        with new_file(name, "wb") as file:
            file.write(self.data[:24])
            for number in numbers:
                at = self.places[number - 1]
                file.write(self.data[at:at + 16 + self.captured[number - 1]])


@lru_cache(maxsize=1)
def held_frames(name, _size, _changed):
    """The frames of a capture of a size, changed at a time."""
    return Frames(name)


def frames_of(name):
    """The frames of a capture, read once however often they are asked for, as long as the file stays as it is."""
    about = os.stat(name)
    return held_frames(name, about.st_size, about.st_mtime_ns)

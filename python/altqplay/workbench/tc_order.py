"""Gives each packet of a capture the class that the filters of a device of tc give it, as the kernel asks them.

The filters of the root are asked in the order of their priorities, and the first that matches holds. Where it names a class with
classes below it, the filters of that class are asked next; a packet that none of them takes has the default class. u32 looks at
the bytes of the packet, flower at its headers, and fw at marks that --mark gives.
"""

from __future__ import annotations

from typing import Dict, List, NamedTuple, Tuple

import numpy

from .altq_text import Interface, Word
from .marking import Marking
from .pf_order import Placed
from .services import number_in
from .tc_classes import Device, handle
from .tc_filters import CLASS_WORDS, FAMILIES, PASSED, Match, Odd, Selector, flower_part, head_of, is_heading, is_kernels_table, masked, matchall
from .tc_filters import Reader as FilterReader

MARK = "packets have no mark in a capture: say which have it by --mark {0}='udp dport 10000-20000'"
ASKED = {"tcp_flags": ("flags", 0xFFF), "type": ("icmp", 0xFF), "code": ("code", 0xFF)}


class Keys(Selector):
    """Reads the selectors of u32 into keys: values under masks at bytes of the packet."""

    def __init__(self, match, notes):
        super().__init__(match, notes)
        self.keys: List[Tuple[int, int, int]] = []

    def field(self, place, value, mask, kind):
        if mask:
            self.keys.append((place, value, mask))


class Asked(NamedTuple):
    """A filter that can be asked: its priority, which packets it takes, and the handle of its class."""

    prio: int
    takes: numpy.ndarray
    owner: str
    word: Word


class Order(FilterReader):
    """The filters of a device, asked of the packets of a capture."""

    def __init__(self, device: Device, interface: Interface, marking: Marking, marks, notes):
        super().__init__(device, interface, notes)
        self.reading, self.heads, self.marks = marking.reading, marking.heads, marks

    def address(self, column: str, one) -> numpy.ndarray:
        """Which packets have an address under a mask; `column` is src or dst."""
        found = numpy.ones(len(self.heads), dtype=bool)
        for half, shift in (("_high", 64), ("_low", 0)):
            value, mask = (numpy.uint64(number >> shift & 2**64 - 1) for number in one)
            found &= getattr(self.heads, column + half) & mask == value & mask
        return found

    def u32(self, words, family) -> numpy.ndarray:
        """Which packets the keys of u32 take."""
        keys, at = Keys(Match(family), self.notes), 0
        while at < len(words):
            text = words[at].text
            if text == "match" and at + 1 < len(words):
                at = keys.read(words, at + 1)
            elif text in PASSED:
                at += 1 + PASSED[text]
            elif text in CLASS_WORDS or (text == "ht" and is_kernels_table(words, at)):
                at += 2
            else:
                raise Odd(words[at], "this of u32 is not read")
        found = self.address("src", keys.match.src) & self.address("dst", keys.match.dst)
        left = self.reading.heads.captured - self.reading.ip
        for place, value, mask in keys.keys:
            found &= (left >= place + 4) & (self.reading.word(self.reading.ip + place, 4) & numpy.uint64(mask) == numpy.uint64(value & mask))
        return found

    def ports(self, column: str, one, some) -> numpy.ndarray:
        """Which packets have a port under a mask, or one of a range."""
        ports = getattr(self.heads, column)
        if some is not None:
            return self.heads.has_ports & (ports >= some.start) & (ports < some.stop)
        return self.heads.has_ports & (ports & one.mask == one.value & one.mask) if one else numpy.ones(len(ports), dtype=bool)

    def flower(self, words, family) -> numpy.ndarray:
        """Which packets the keys of flower take."""
        match, at, found = Match(family), 0, numpy.ones(len(self.heads), dtype=bool)
        while at < len(words):
            text = words[at].text
            if text in PASSED or text in CLASS_WORDS:
                at += 1 + PASSED.get(text, 1)
                continue
            if at + 1 == len(words):
                raise Odd(words[at], "this of flower is not read")
            if text in ASKED:
                column, most = ASKED[text]
                one = masked(words[at + 1], 0, most, self.notes)
                found &= getattr(self.heads, column) & one.mask == one.value & one.mask
            else:
                flower_part(match, words[at], words[at + 1], self.notes)
            at += 2
        found &= self.address("src", match.src) & self.address("dst", match.dst)
        found &= self.ports("sport", match.sport, match.sports) & self.ports("dport", match.dport, match.dports)
        if match.protocol:
            found &= self.heads.protocol == match.protocol
        return found & (self.heads.tos & match.tos.mask == match.tos.value & match.tos.mask) if match.tos else found

    def marked(self, head) -> numpy.ndarray:
        """Which packets have the mark of a filter of fw; without a handle it takes those whose mark is the class itself."""
        if head.handle is None:
            raise Odd(head.kind, "without a handle it goes by marks that are classes, which a capture does not show")
        one = masked(head.handle, 0, 2**32 - 1, self.notes)
        given = {name: number for name in self.marks if (number := number_of(name)) is not None}
        if not any(number & one.mask == one.value & one.mask for number in given.values()):
            raise Odd(head.handle, MARK.format(head.handle.text))
        return numpy.logical_or.reduce([selector.holds(self.heads) for name, number in given.items() if number & one.mask == one.value & one.mask
                                        for selector in self.marks[name]])

    def takes(self, head) -> numpy.ndarray:
        """Which packets a filter takes."""
        if head.kind.text not in ("u32", "flower", "matchall", "fw"):
            raise Odd(head.kind, "this kind of filter is not read")
        protocol = head.protocol.text if head.protocol else "all"
        if protocol not in FAMILIES:
            raise Odd(head.protocol, "filters of ip and ipv6 are read")
        families = [4] if protocol == "all" and head.kind.text == "u32" else FAMILIES[protocol]
        found = numpy.zeros(len(self.heads), dtype=bool)
        for family in families:
            if head.kind.text == "fw":
                taken = self.marked(head)
            elif head.kind.text == "matchall":
                matchall(head.rest, family, self.notes)
                taken = numpy.ones(len(self.heads), dtype=bool)
            else:
                taken = (self.u32 if head.kind.text == "u32" else self.flower)(head.rest, family)
            found |= taken & (self.heads.family == family)
        return found

    def asked(self) -> Dict[str, List[Asked]]:
        """The filters that can be asked, by the handle of the class whose they are, in their order."""
        found: Dict[str, List[Asked]] = {}
        for words in self.device.filters:
            try:
                head = head_of(words, self.notes)
                if head.owner is None and is_heading(words):
                    continue
                if head.owner is None:
                    raise Odd(next((word for word in head.rest if word.text in ("divisor", "link", "action", "police")), head.kind), "it names no class")
                parent = self.device.root if head.parent is None or head.parent.text == "root" else handle(head.parent, self.notes)
                one = Asked(self.prio(head), self.takes(head), handle(head.owner, self.notes), head.owner)
            except Odd as odd:
                self.notes.add(odd.word, f"{odd.text}, so its filter is left out")
                continue
            if one.owner not in self.names:
                self.notes.add(one.word, "no class with this handle is there: what the filter takes has the default class")
            found.setdefault(parent, []).append(one)
        return {parent: sorted(some, key=lambda one: one.prio) for parent, some in found.items()}

    def placed(self) -> Placed:
        """The class of each packet."""
        filters, count = self.asked(), len(self.heads)
        classes = [one.name for one in self.interface.classes if one.name not in self.inner]
        default = classes.index(next(one.name for one in self.interface.classes if one.is_default))
        found, waiting = numpy.full(count, default), {self.device.root: numpy.ones(count, dtype=bool)}
        for node in [one.name for one in self.interface.classes if one.name in self.inner | {self.device.root}]:
            left = waiting.get(node, numpy.zeros(count, dtype=bool)).copy()
            for one in filters.get(node, []):
                taken = left & one.takes
                left &= ~taken
                if one.owner in classes:
                    found[taken] = classes.index(one.owner)
                elif one.owner in self.names and one.owner != node:
                    waiting[one.owner] = waiting.get(one.owner, numpy.zeros(count, dtype=bool)) | taken
        return Placed(classes, found, numpy.zeros(count, dtype=bool), [], 0)


def number_of(name: str):
    """The number of a mark, or None where the name is that of a class."""
    try:
        return int(name, 0)
    except ValueError:
        return number_in({}, name, 2**32 - 1)

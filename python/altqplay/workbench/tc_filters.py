"""Turns filters of tc(8), u32, flower and matchall, into filters, as far as a filter can say what they ask for."""

import ipaddress
import re
from dataclasses import dataclass
from typing import List, Optional

from .altq_text import ANY, Address, Filter, Word, rank
from .tc_classes import handle
from .tc_words import is_change, whole

FAMILIES = {"ip": [4], "ipv4": [4], "ipv6": [6], "all": [4, 6]}
FLOWER_PROTOCOLS = {"tcp": 6, "udp": 17, "icmp": 1, "icmpv6": 58, "sctp": 132}
MOST_PORTS = 64
FIRST_AUTO = 0xC000
# Words that place no packet, with how many stand behind each.
PASSED = {"skip_hw": 0, "skip_sw": 0, "not_in_hw": 0, "in_hw": 0, "order": 1, "key": 0, "bkt": 1, "terminal": 0, "chain": 1, "handle": 1, "fh": 1,
          "in_hw_count": 1, "verbose": 0}
# Words before the class of a filter; `tc filter show` writes the last.
CLASS_WORDS = ("classid", "flowid", "*flowid")


class Odd(Exception):
    """What no filter can say, with its word."""

    def __init__(self, word, text):
        super().__init__(text)
        self.word, self.text = word, text


@dataclass
class Match:
    """What a filter of tc asks for, in one family."""

    family: int
    dst: Address = ANY
    src: Address = ANY
    protocol: int = 0
    dport: Optional[Address] = None
    sport: Optional[Address] = None
    dports: Optional[range] = None
    sports: Optional[range] = None
    tos: Optional[Address] = None


def joined(one, value, mask):
    """What agrees with both."""
    return Address(one.value | (value & mask), one.mask | mask)


class Selector:
    """Reads the selectors of u32 into a match: each is a value under a mask at a place of the IP header."""

    def __init__(self, match, notes):
        self.match, self.notes = match, notes

    def number(self, words, at, base=0):
        """The number at a place of the words, in base 16 or with its own prefix."""
        if at >= len(words):
            raise Odd(words[-1], "a value is missing")
        return whole(words[at], base, self.notes)

    def read(self, words, at):
        """Reads the selector that begins at a place, and answers where the next word stands."""
        kind = words[at]
        if re.fullmatch(r"[0-9a-f]{8}/[0-9a-f]{8}", kind.text):
            value, mask = (int(text, 16) for text in kind.text.split("/"))
            return self.raw(words, at + 1, (value, mask), kind)
        if kind.text in ("u32", "u16", "u8"):
            value, mask = self.number(words, at + 1), self.number(words, at + 2, 16)
            return self.raw(words, at + 3, (value, mask), kind)
        if kind.text in ("ip", "ip6", "tcp", "udp"):
            return self.named(words, at + 1, kind)
        raise Odd(kind, "no filter can ask for this")

    def raw(self, words, at, pair, kind):
        """A value under a mask at a byte, the first where none is named; 16 and 8 bits are moved to their place in 32."""
        is_named = at < len(words) and words[at].text == "at"
        if is_named and at + 1 == len(words):
            raise Odd(kind, "the byte it is at is missing")
        place_word = words[at + 1] if is_named else kind._replace(text="0")
        is_next = place_word.text.startswith("nexthdr+")
        place = whole(place_word._replace(text=place_word.text.split("+")[-1]), 0, self.notes)
        bits = {"u16": 16, "u8": 8}.get(kind.text, 32)
        move = 32 - bits - 8 * (place % 4)
        if move < 0 or max(pair) >= 2**bits:
            raise Odd(kind, "it does not stand inside of four bytes of a header")
        value, mask = pair[0] << move, pair[1] << move
        place = place // 4 * 4 + (0 if not is_next else {4: 20, 6: 40}[self.match.family])
        self.field(place, value & mask, mask, kind)
        return at + 2 if is_named else at

    def field(self, place, value, mask, kind):
        """Puts 32 bits of the header at a byte into the match."""
        ports = {4: 20, 6: 40}[self.match.family]
        if mask == 0:
            return
        if place == ports:
            self.ports(value, mask)
        elif self.match.family == 4 and place in (12, 16):
            self.address("src" if place == 12 else "dst", 0, value, mask)
        elif self.match.family == 6 and 8 <= place < 40:
            self.address("src" if place < 24 else "dst", 96 - 8 * ((place - 8) % 16), value, mask)
        else:
            self.small(place, value, mask, kind)

    def small(self, place, value, mask, kind):
        """The protocol or the type of service."""
        at = {(4, 8): ("protocol", 16), (4, 0): ("tos", 16), (6, 4): ("protocol", 8), (6, 0): ("tos", 20)}.get((self.match.family, place))
        if at is None or mask & ~(0xFF << at[1]):
            raise Odd(kind, "no filter can ask for these bits of a header")
        if at[0] == "tos":
            self.match.tos = joined(self.match.tos or ANY, value >> at[1], mask >> at[1])
        elif mask >> at[1] != 0xFF:
            raise Odd(kind, "a filter asks for a whole protocol")
        else:
            self.match.protocol = value >> at[1]

    def ports(self, value, mask):
        """The ports, source first."""
        if mask >> 16:
            self.match.sport = joined(self.match.sport or ANY, value >> 16, mask >> 16)
        if mask & 0xFFFF:
            self.match.dport = joined(self.match.dport or ANY, value & 0xFFFF, mask & 0xFFFF)

    def address(self, name, move, value, mask):
        setattr(self.match, name, joined(getattr(self.match, name), value << move, mask << move))

    def named(self, words, at, kind):
        """A selector of ip, ip6, tcp or udp."""
        word = words[at] if at < len(words) else kind
        if kind.text in ("tcp", "udp"):
            word = Word({"src": "sport", "dst": "dport"}.get(word.text, word.text), word.line, word.place)
        if word.text in ("src", "dst"):
            return self.net(words, at + 1, word)
        moves = {"sport": (self.base(kind), 16), "dport": (self.base(kind), 0), "tos": (0, 16), "dsfield": (0, 16), "protocol": (8, 16),
                 "precedence": (0, 16), "priority": (0, 20)}
        if kind.text == "ip6":
            moves["protocol"] = (4, 8)
        if word.text not in moves:
            raise Odd(word, "no filter can ask for this")
        place, move = moves[word.text]
        value, mask = self.number(words, at + 1), self.number(words, at + 2, 16)
        if max(value, mask) > (0xFFFF if word.text in ("sport", "dport") else 0xFF):
            self.notes.refuse(words[at + 1], "it is too great, or its mask")
        self.field(place, (value & mask) << move, mask << move, word)
        return at + 3

    def base(self, kind):
        """Where the ports stand: behind the header of the family."""
        return {4: 20, 6: 40}[self.match.family] if kind.text in ("tcp", "udp") else {"ip": 20, "ip6": 40}[kind.text]

    def net(self, words, at, name):
        """An address with a length or a mask, and `at` where it is said once more."""
        if at >= len(words):
            raise Odd(name, "an address is missing")
        if words[at].text not in ("any", "all", "default"):
            setattr(self.match, name.text, net(words[at], self.match.family, self.notes))
        return at + 3 if at + 1 < len(words) and words[at + 1].text == "at" else at + 1


def net(word, family, notes):
    """An address with its mask, which tc takes with any bits."""
    text, _, mask = word.text.partition("/")
    try:
        if "." in mask and family == 4:
            return Address(int(ipaddress.IPv4Address(text)) & int(ipaddress.IPv4Address(mask)), int(ipaddress.IPv4Address(mask)))
        found = ipaddress.ip_network(word.text, strict=False)
    except ValueError:
        notes.refuse(word, "no address")
    if found.version != family:
        notes.refuse(word, f"no address of IPv{family}")
    return Address(int(found.network_address), int(found.netmask))


def up_to(word, base, most, notes):
    """A number of at most `most`, in a base."""
    value = whole(word, base, notes)
    return value if value <= most else notes.refuse(word, f"it is more than {most}")


def masked(word, base, most, notes):
    """A number with a mask behind `/`, each of at most `most`, in a base; without a mask all bits count."""
    value, _, mask = word.text.partition("/")
    return Address(up_to(word._replace(text=value), base, most, notes), up_to(word._replace(text=mask), base, most, notes) if mask else most)


def flower_part(match, word, value, notes):
    """Puts one key of flower with its value into a match."""
    if word.text == "ip_proto":
        match.protocol = FLOWER_PROTOCOLS[value.text] if value.text in FLOWER_PROTOCOLS else up_to(value, 16, 0xFF, notes)
    elif word.text in ("dst_ip", "src_ip"):
        setattr(match, word.text[:3], net(value, match.family, notes))
    elif word.text == "ip_tos":
        match.tos = masked(value, 16, 0xFF, notes)
    elif word.text in ("dst_port", "src_port") and "-" in value.text:
        least, most = (up_to(value._replace(text=text), 0, 0xFFFF, notes) for text in value.text.split("-", 1))
        setattr(match, word.text[0] + "ports", range(least, most + 1))
    elif word.text in ("dst_port", "src_port"):
        setattr(match, word.text[0] + "port", masked(value, 0, 0xFFFF, notes))
    elif word.text != "eth_type":
        raise Odd(word, "no filter can ask for this")


def flower(words, family, notes):
    """The match of flower's keys."""
    match, at = Match(family), 0
    while at < len(words):
        if words[at].text in PASSED:
            at += 1 + PASSED[words[at].text]
        elif words[at].text in CLASS_WORDS:
            at += 2
        elif at + 1 == len(words):
            raise Odd(words[at], "no filter can ask for this")
        else:
            flower_part(match, words[at], words[at + 1], notes)
            at += 2
    return match


def u32(words, family, notes):
    """The match of u32's selectors."""
    selector, at = Selector(Match(family), notes), 0
    while at < len(words):
        text = words[at].text
        if text == "match":
            if at + 1 == len(words):
                raise Odd(words[at], "what it asks for is missing")
            at = selector.read(words, at + 1)
        elif text in PASSED:
            at += 1 + PASSED[text]
        elif text in CLASS_WORDS or (text == "ht" and is_kernels_table(words, at)):
            at += 2
        else:
            raise Odd(words[at], "no filter can ask for this")
    return selector.match


def is_kernels_table(words, at):
    """Whether `ht` names a hash table that the kernel made, of one list; those begin at 800."""
    return at + 1 < len(words) and re.fullmatch(r"8[0-9a-f]{2}:?", words[at + 1].text) is not None


def matchall(words, family, notes):
    """The match of all packets."""
    for at, word in enumerate(words):
        if word.text not in PASSED and word.text not in CLASS_WORDS and (at == 0 or words[at - 1].text not in CLASS_WORDS):
            raise Odd(word, "no filter can ask for this")
    return Match(family)


KINDS = {"u32": u32, "flower": flower, "matchall": matchall}


@dataclass
class Head:
    """What stands before the kind of a filter."""

    words: List[Word]
    kind: Word
    rest: List[Word]
    protocol: Optional[Word] = None
    prio: Optional[Word] = None
    parent: Optional[Word] = None
    owner: Optional[Word] = None
    handle: Optional[Word] = None


def head_of(words, notes):
    """The head of a filter."""
    at, values = 2 if is_change(words) else 1, {}
    while at < len(words) and words[at].text in ("dev", "parent", "protocol", "prio", "pref", "preference", "handle", "root", "chain", "block"):
        if words[at].text == "root":
            at += 1
            continue
        values[words[at].text] = words[at + 1] if at + 1 < len(words) else words[at]
        at += 2
    if at >= len(words):
        notes.refuse(words[0], "it names no kind of filter")
    rest = words[at + 1:]
    owner = next((rest[n + 1] for n, word in enumerate(rest[:-1]) if word.text in CLASS_WORDS), None)
    prio = values.get("prio") or values.get("pref") or values.get("preference")
    number = values.get("handle") or next((rest[n + 1] for n, word in enumerate(rest[:-1]) if word.text == "handle"), None)
    return Head(words, words[at], rest, values.get("protocol"), prio, values.get("parent"), owner, number)


def is_heading(words):
    """Whether `tc filter show` begins a list of filters with a line, or shows a hash table: filters have `handle` or `order`."""
    return not is_change(words) and not {"handle", "order"} & {word.text for word in words}


def port_list(one, some, word):
    """The ports that agree, 0 for any."""
    if some is not None:
        found = some
    elif one is None:
        return [0]
    else:
        free = 0xFFFF & ~one.mask
        if bin(free).count("1") > 6:
            raise Odd(word, f"a filter has one port, and these are more than {MOST_PORTS}")
        found = [port for port in range(0x10000) if port & one.mask == one.value & one.mask]
    if len(found) > MOST_PORTS:
        raise Odd(word, f"a filter has one port, and these are more than {MOST_PORTS}")
    return list(found)


def is_prefix(mask, bits):
    """Whether a mask is a prefix of so many bits."""
    inverse = ~mask & (2**bits - 1)
    return inverse & (inverse + 1) == 0


def filters_of(head, families, notes):
    """The filters of a filter of tc."""
    found = []
    for family in families:
        match = KINDS[head.kind.text](head.rest, family, notes)
        if family == 6 and not (is_prefix(match.dst.mask, 128) and is_prefix(match.src.mask, 128)):
            raise Odd(head.kind, "a mask of IPv6 is a prefix")
        for dport in port_list(match.dport, match.dports, head.kind):
            for sport in port_list(match.sport, match.sports, head.kind):
                tos = match.tos if match.tos and match.tos.mask else None
                found.append(Filter(head.owner.text, family, match.dst, dport, match.src, sport, match.protocol, tos))
    return found


class Reader:
    """Reads the filters of a device into those of its interface."""

    def __init__(self, device, interface, notes):
        self.device, self.interface, self.notes = device, interface, notes
        self.names = {one.name for one in interface.classes}
        self.inner = {one.parent for one in interface.classes}
        self.next_auto = FIRST_AUTO

    def prio(self, head):
        """A filter's priority; the kernel gives one that says none the number below those that it gave before."""
        if head.prio is not None:
            return whole(head.prio, 0, self.notes)
        self.notes.say("filters without prio: of those a later one is asked first, as the kernel numbers them")
        self.next_auto -= 1
        return self.next_auto + 1

    def owner(self, head):
        """The class of a filter by its name here."""
        name = handle(head.owner, self.notes)
        if name in self.inner:
            raise Odd(head.owner, "it has classes below it, and HFSC has packets in others alone")
        if name not in self.names:
            raise Odd(head.owner, "no class with this handle is there")
        return head.owner._replace(text=name)

    def families(self, head):
        """The families of a filter's protocol; u32 without one reads headers of IPv4."""
        text = head.protocol.text if head.protocol else "all"
        if text not in FAMILIES:
            raise Odd(head.protocol, "filters are of ip and ipv6")
        return [4] if text == "all" and head.kind.text == "u32" else FAMILIES[text]

    def row(self, words):
        """The priority and the filters of one filter, or None where it places no packets."""
        head = head_of(words, self.notes)
        if head.owner is None and is_heading(words):
            return None
        if head.kind.text not in KINDS:
            raise Odd(head.kind, "no filter can ask for this")
        if head.parent is not None and head.parent.text != "root" and handle(head.parent, self.notes) != self.device.root:
            raise Odd(head.parent, "filters below the root are left out")
        if head.owner is None:
            raise Odd(next((word for word in head.rest if word.text in ("divisor", "link", "action", "police")), head.kind), "it names no class")
        head.owner = self.owner(head)
        return self.prio(head), filters_of(head, self.families(head), self.notes)

    def rows(self):
        """The rows of all filters that can be said."""
        found = []
        for at, words in enumerate(self.device.filters):
            try:
                row = self.row(words)
            except Odd as odd:
                self.notes.add(odd.word, f"{odd.text}, so its filter is left out")
                continue
            if row is not None:
                found.append(((-row[0], -at), row[1]))
        return found


def add_filters(device, interface, notes):
    """Gives an interface the filters of its device: the least prio is asked first, of one prio the first."""
    rank(Reader(device, interface, notes).rows(), interface)

"""Gives each packet of a capture the class that pf's rules give it, by pf's own order: last match, `quick`, `keep state`.

The packets go out on one interface. pf looks at each where it comes in, by the rules of other interfaces, and where it goes out,
by those of this one; a queue that is named where it goes out counts more. What has a state keeps the rules of the packet
that made it. An answer has the queues of the rule by which the other end's first packet came in here; a capture of one
direction does not show that packet, but SYN and ACK together, or that no rule passes the packet as the first of its own.
No state ends during a capture, and a connection that is older than the capture is read as one whose first packet is here.
"""

from __future__ import annotations

from typing import List, NamedTuple

import numpy

from .altq_text import Interface, Notes
from .asked import has_port
from .flows import numbered
from .headers import ACK, COLUMNS, SYN, TCP, Headers, Reading, first_rows
from .pf_rules import Rule

LOWDELAY = 16
CONNECTION = ("family", "protocol", "src_high", "src_low", "dst_high", "dst_low", "sport", "dport", "ident")
REQUESTS = {0: 8, 129: 128}


class Place(NamedTuple):
    """Where a rule looks at a packet: whether it goes out there, and whether there is the interface of the queues."""

    is_out: bool
    is_here: bool


HERE_OUT, ELSEWHERE_IN, HERE_IN, ELSEWHERE_OUT = Place(True, True), Place(False, False), Place(False, True), Place(True, False)


class Verdicts(NamedTuple):
    """Of each packet at a place: the rule that passes or blocks it, and the `match` whose queue holds, or -1."""

    rule: numpy.ndarray
    match: numpy.ndarray


def looks(rule: Rule, place: Place, name: str) -> bool:
    """Whether a rule looks at packets at a place."""
    if rule.direction not in (None, "out" if place.is_out else "in"):
        return False
    if not rule.interfaces:
        return True
    named = name in rule.interfaces if place.is_here else any(one != name for one in rule.interfaces)
    return not (name in rule.interfaces) if rule.is_not_on and place.is_here else True if rule.is_not_on else named


def asks_ends(rule: Rule, heads: Headers) -> numpy.ndarray:
    """Which packets have the addresses and ports that a rule asks for."""
    sources, targets = (numpy.logical_or.reduce([numpy.zeros(len(heads), dtype=bool)] + [
        one.holds(heads.family, high, low) for one in ends]) for ends, high, low in (
            (rule.src, heads.src_high, heads.src_low), (rule.dst, heads.dst_high, heads.dst_low)))
    return (sources & targets & has_port(rule.sport, heads.sport, heads.has_ports)
            & has_port(rule.dport, heads.dport, heads.has_ports))


def asks_kind(rule: Rule, heads: Headers, is_opening) -> numpy.ndarray:
    """Which packets are of the kind that a rule asks for: family, protocol, flags, type of ICMP, type of service."""
    found = heads.family > 0
    if rule.family:
        found &= heads.family == rule.family
    if 0 not in rule.protocols:
        found &= numpy.isin(heads.protocol, rule.protocols)
    bits, of = rule.flags if rule.flags else (SYN, SYN | ACK) if rule.has_state and rule.word.text == "pass" else (0, 0)
    if of:
        flags = numpy.where(is_opening & rule.has_state, SYN, heads.flags)
        found &= (heads.protocol != TCP) | (flags & of == bits)
    if rule.icmp is not None:
        kinds = [(heads.icmp == kind) & (True if code is None else heads.code == code) for kind, code in rule.icmp]
        found &= numpy.logical_or.reduce([numpy.zeros(len(heads), dtype=bool), *kinds])
    if rule.tos:
        found &= heads.tos & rule.tos.mask == rule.tos.value & rule.tos.mask
    return found


class Order:
    """The rules of one interface."""

    def __init__(self, interface: Interface, rules: List[Rule]):
        self.name = interface.name
        self.rules = [rule for rule in rules if rule.unknown is None]
        inner = {one.parent for one in interface.classes} if interface.discipline == "hfsc" else set()
        self.classes = [one.name for one in interface.classes if one.name not in inner]
        self.default = self.classes.index(next(one.name for one in interface.classes if one.is_default))
        self.has_state = numpy.array([rule.has_state and rule.word.text == "pass" for rule in self.rules] + [False])
        self.blocks = numpy.array([rule.word.text == "block" for rule in self.rules] + [False])
        self.queues = numpy.array([[self.queue(rule, 0), self.queue(rule, 1)] for rule in self.rules] + [[-1, -1]])
        self.tags = ["", *dict.fromkeys(rule.tag for rule in self.rules if rule.tag)]

    def queue(self, rule: Rule, place: int) -> int:
        """The class of a rule's first or second queue, by number; that of a queue that this interface has not is the default; -1 for none."""
        if not rule.queues:
            return -1
        name = rule.queues[min(place, len(rule.queues) - 1)].text
        return self.classes.index(name) if name in self.classes else self.default

    def verdicts(self, place: Place, heads: Headers, is_opening, tags) -> Verdicts:
        """The verdicts at a place: of the rules that match the last holds, or the first that is quick. Tags change in their place."""
        last, match = numpy.full(len(heads), -1), numpy.full(len(heads), -1)
        is_done, is_matched = numpy.zeros(len(heads), dtype=bool), numpy.zeros(len(heads), dtype=bool)
        for number, rule in enumerate(self.rules):
            if not looks(rule, place, self.name):
                continue
            is_match = rule.word.text == "match"
            found = ~is_done & ~is_matched if is_match else ~is_done
            found &= asks_kind(rule, heads, is_opening)
            if rule.tagged:
                found &= (tags == self.tag(rule.tagged[0])) != rule.tagged[1]
            if not found.any():
                continue
            found &= asks_ends(rule, heads)
            if not is_match:
                last[found] = number
            elif rule.queues:
                match[found] = number
            if rule.tag:
                tags[found] = self.tags.index(rule.tag)
            if rule.is_quick:
                (is_matched if is_match else is_done)[found] = True
        return Verdicts(last, match)

    def tag(self, name: str) -> int:
        """The number of a tag, -1 for one that no rule gives."""
        return self.tags.index(name) if name in self.tags else -1

    def makers(self, own: Verdicts, connection) -> numpy.ndarray:
        """For each packet the one whose verdict holds for it: the first of its connection that makes a state, or itself."""
        makes = numpy.flatnonzero(self.has_state[own.rule])
        first = numpy.full(int(connection.max()) + 1 if len(connection) else 0, len(connection), dtype=numpy.int64)
        first[connection[makes][::-1]] = makes[::-1]
        return numpy.minimum(first[connection], numpy.arange(len(connection)))

    def named(self, verdicts: Verdicts, is_second) -> numpy.ndarray:
        """The class that a place names for each packet, or -1."""
        place = is_second.astype(numpy.int64)
        own, other = self.queues[verdicts.rule, place], self.queues[verdicts.match, place]
        return numpy.where(own >= 0, own, other)

    def through(self, places, kinds: "Kinds", is_asked=False) -> List[Verdicts]:
        """The verdicts of all packets, or of those that they answer, at two places that a packet passes one behind the other."""
        tags, found = numpy.zeros(len(kinds.of), dtype=numpy.int64), []
        for place in places:
            of, rows = numbered(kinds.of * len(self.tags) + tags)
            heads = (kinds.asked if is_asked else kinds.heads).at(rows)
            of_rows = tags[rows]
            own = self.verdicts(place, heads, kinds.is_older[rows] | is_asked, of_rows)
            makers = self.makers(Verdicts(own.rule[of], own.match[of]), kinds.connection)
            found.append(Verdicts(own.rule[of[makers]], own.match[of[makers]]))
            tags = of_rows[of[makers]]
        return found

    def placed(self, heads: Headers) -> "Placed":
        """The class of each packet of a capture."""
        kinds, is_ip = Kinds(heads), heads.family > 0
        own_in, own_out = self.through((ELSEWHERE_IN, HERE_OUT), kinds)
        asked_in, asked_out = self.through((HERE_IN, ELSEWHERE_OUT), kinds, is_asked=True)
        is_answer = self.are_answers(heads, kinds, own_out, asked_in) & is_ip
        came, left = (Verdicts(*(numpy.where(is_answer & self.has_state[state.rule], theirs, ours) for theirs, ours in zip(state, own)))
                      for state, own in ((asked_out, own_in), (asked_in, own_out)))
        is_second = heads.is_bare | (heads.tos == LOWDELAY)
        where_out, where_in = self.named(left, is_second), self.named(came, is_second)
        found = numpy.where(where_out >= 0, where_out, where_in)
        found = numpy.where(is_ip & (found >= 0), found, self.default)
        is_blocked = self.blocks[left.rule] & is_ip
        lines = sorted({self.rules[number].word.line for number in numpy.unique(left.rule[is_blocked]).tolist()})
        return Placed(self.classes, numpy.where(is_blocked, self.default, found), is_blocked, lines, int(kinds.is_older.sum()))

    def are_answers(self, heads: Headers, kinds: "Kinds", own: Verdicts, asked: Verdicts) -> numpy.ndarray:
        """Which packets answer a connection that the other end opened."""
        firsts = kinds.firsts
        flags, is_tcp = heads.flags[firsts] & (SYN | ACK), heads.protocol[firsts] == TCP
        ours, theirs = own.rule[firsts], asked.rule[firsts]
        nothing = numpy.zeros(len(heads), dtype=bool)
        names_ours, names_theirs = (self.named(verdicts, nothing)[firsts] >= 0 for verdicts in (own, asked))
        quick = numpy.array([rule.is_quick for rule in self.rules] + [False])
        later = numpy.where(quick[theirs] == quick[ours], numpy.where(quick[ours], theirs < ours, theirs > ours), quick[theirs])
        guess = self.has_state[theirs] & (self.blocks[ours] | (names_theirs & ~names_ours) | (names_theirs & names_ours & later))
        is_answer = numpy.where(is_tcp & (flags == SYN), False, numpy.where(is_tcp & (flags == SYN | ACK), True, guess))
        return is_answer[kinds.connection]


class Kinds:
    """What of a capture's packets is the same: `connection` numbers those of one connection, `firsts` has the first packet of each, and
    `of` numbers those whose headers rules cannot tell apart. `asked` has the headers of what each packet answers."""

    def __init__(self, heads: Headers):
        self.heads, self.asked = heads, heads.turned()
        for answer, request in REQUESTS.items():
            self.asked.icmp = numpy.where(heads.icmp == answer, request, self.asked.icmp)
        self.connection = heads.groups(CONNECTION)
        self.firsts = first_rows(self.connection)
        begins = numpy.zeros(len(heads), dtype=bool)
        begins[self.firsts] = True
        self.is_older = begins & (heads.protocol == TCP) & (heads.flags & SYN == 0) & heads.has_ports
        every = Headers({**{name: getattr(heads, name) for name in COLUMNS}, "is_older": self.is_older})
        self.of = every.groups((*COLUMNS, "is_older"))


class Placed(NamedTuple):
    """Where the packets of a capture are: the classes' names, and for each packet the number of its class there, which packets a `block`
    would stop, the lines of those rules, and how many connections are older than the capture."""

    classes: List[str]
    of_class: numpy.ndarray
    is_blocked: numpy.ndarray
    block_lines: List[int]
    older: int


def placed(interface: Interface, rules: List[Rule], frames) -> Placed:
    """The class of each packet of a capture that goes out on an interface."""
    return Order(interface, rules).placed(Reading(frames).headers())


def is_asked_with(rule: Rule, rules: List[Rule], name: str) -> bool:
    """Whether a rule without a queue looks at packets where one with a queue does, or stops them where they go out."""
    if rule.word.text == "block":
        return looks(rule, HERE_OUT, name)
    places = [place for place in (HERE_OUT, ELSEWHERE_IN, HERE_IN, ELSEWHERE_OUT) if looks(rule, place, name)]
    return rule.word.text == "pass" and any(looks(other, place, name) for other in rules if other.queues for place in places)


def notes_of_order(rules: List[Rule], interface: Interface, interfaces: List[Interface], notes: Notes) -> None:
    """Notes what of the rules is not understood where packets are classified by them, and what is taken for granted."""
    names = {one.name for some in interfaces for one in some.classes}
    inner = {one.parent for one in interface.classes} if interface.discipline == "hfsc" else set()
    for rule in rules:
        if rule.unknown is not None and (rule.queues or is_asked_with(rule, rules, interface.name)):
            notes.add(rule.unknown[0], f"{rule.unknown[1]}; so its rule is left out", has_effect=rule.word.text != "block")
        for word in rule.queues if rule.word.text != "block" else []:
            if word.text not in names:
                notes.add(word, "no queue of the interfaces that are read has this name: its packets go to the default class")
            elif word.text in inner:
                notes.add(word, "it has classes below it, and HFSC has packets in others alone: its packets go to the default class", has_effect=False)
    others = {name for rule in rules if rule.queues and rule.direction != "out" for name in rule.interfaces} - {interface.name}
    if len(others) > 1:
        notes.say(f"a capture does not show where a packet came in: rules of {', '.join(sorted(others))} are asked of all packets")

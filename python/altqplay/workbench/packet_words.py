"""Packets that an operator names by words: `udp dport 10000-20000`, `tcp src 10.0.0.0/8 not dport 22,80`, `tcp ack`.

Conditions stand one behind the other, and all of them hold: `ip`, `ip6`, `tcp`, `udp`, `icmp`, `icmp6`, `proto NAME`; `src`, `dst` and
`host` (either) with addresses, nets or ranges; `sport`, `dport` and `port` (either) with ports, names or ranges, as `10000-20000`; `tos`
and `dscp` with a number or a name; `flags S/SA`; `ack`, an acknowledgement of TCP without data. Commas list; `not` turns the next one round.
"""

from __future__ import annotations

from typing import Callable, List, NamedTuple

import numpy

from . import services
from .asked import Hosts, Span, entry_of, has_port
from .faults import Refused
from .headers import Headers
from .pf_rules import flag_bits

ALONE = {"ip": 4, "ip6": 6}


class Selector(NamedTuple):
    """What was named, and the conditions on headers."""

    text: str
    conditions: List[Callable[[Headers], numpy.ndarray]]

    def holds(self, heads: Headers) -> numpy.ndarray:
        """Which packets are named; those of neither version of IP never are."""
        return numpy.logical_and.reduce([heads.family > 0, *(condition(heads) for condition in self.conditions)])


class Reader:
    """Reads a selector."""

    def __init__(self, text: str):
        self.text, self.words = text, text.split()

    def fault(self, word: str, why: str) -> Refused:
        return Refused(f"--mark: {self.text}: {word}: {why}")

    def value(self, name: str) -> str:
        """The word behind a condition's name."""
        if not self.words:
            raise self.fault(name, "its value is missing")
        return self.words.pop(0)

    def hosts(self, name: str) -> Hosts:
        found = []
        for word in self.value(name).split(","):
            entry = entry_of(word)
            if entry is None:
                raise self.fault(word, "no address, net or range of addresses")
            found.append(entry)
        return Hosts(tuple(found))

    def ports(self, name: str) -> List[Span]:
        found = []
        for word in self.value(name).split(","):
            least, _, most = word.replace(":", "-").partition("-") if services.port_number(word) is None else (word, "", "")
            ends = services.port_number(least), services.port_number(most or least)
            if None in ends or ends[0] > ends[1]:
                raise self.fault(word, "no port, name or range of ports")
            found.append(Span(*ends))
        return found

    def ends(self, name: str):
        """A condition on addresses or ports."""
        if name in ("src", "dst", "host"):
            asked = self.hosts(name)
            sides = [side for side in ("src", "dst") if name in (side, "host")]
            return lambda heads: numpy.logical_or.reduce(
                [asked.holds(heads.family, getattr(heads, side + "_high"), getattr(heads, side + "_low")) for side in sides])
        spans = self.ports(name)
        columns = [column for column in ("sport", "dport") if name in (column, "port")]
        return lambda heads: numpy.logical_or.reduce([has_port(spans, getattr(heads, column), heads.has_ports) for column in columns])

    def other(self, name: str):
        """A condition on the kind of a packet."""
        if name in ("tos", "dscp"):
            found = services.tos_of(self.value(name))
            if found is None:
                raise self.fault(name, "no type of service that is known")
            return lambda heads: heads.tos & found[1] == found[0] & found[1]
        if name == "flags":
            wanted, _, of = self.value(name).partition("/")
            bits = flag_bits(wanted), flag_bits(of) if of else 0xFF
            if None in bits:
                raise self.fault(name, "no flags of TCP that are known")
            return lambda heads: (heads.protocol == 6) & (heads.flags & bits[1] == bits[0])
        if name == "ack":
            return lambda heads: heads.is_bare
        number = services.protocol_number(self.value(name) if name == "proto" else name)
        if number is None:
            raise self.fault(name, "no condition that is known: docs/operators/PF-TC.md lists them")
        return lambda heads: heads.protocol == number

    def condition(self):
        """The next condition."""
        name = self.words.pop(0)
        if name == "not":
            inner = self.condition() if self.words else None
            if inner is None:
                raise self.fault(name, "what is not to be is missing")
            return lambda heads: ~inner(heads)
        if name in ALONE:
            return lambda heads: heads.family == ALONE[name]
        if name in ("src", "dst", "host", "sport", "dport", "port"):
            return self.ends(name)
        return self.other(name)

    def selector(self) -> Selector:
        """The whole of it."""
        conditions = []
        while self.words:
            if self.words[0] == "and":
                self.words.pop(0)
            else:
                conditions.append(self.condition())
        if not conditions:
            raise self.fault("", "it names no packets")
        return Selector(self.text, conditions)


def marks_of(words) -> dict:
    """The selectors of `--mark NAME=SELECTOR`, several of one name in a list."""
    found: dict = {}
    for word in words:
        name, equals, text = word.partition("=")
        if not equals or not name.strip():
            raise Refused(f"--mark {word}: NAME='CONDITION ..' is wanted")
        found.setdefault(name.strip(), []).append(Reader(text).selector())
    return found

"""What a configuration means, from the canonical text that `altqplay check` prints: each class with its curves."""

import re
from typing import NamedTuple, Optional

from .config_kinds import NAMES, kind_of
from .faults import Refused
from .play import check
from .rules.meters import rule_of

CURVES = {"rt": "realtime", "ls": "share", "ul": "limit"}
MILLISECOND = 10**6


class Curve(NamedTuple):
    """A service curve: m1 bits per second for d nanoseconds, then m2."""

    m1: int
    d: int
    m2: int


class Class(NamedTuple):
    """One class: its parent's name or None, its curves or None each, and whether it is the default class."""

    name: str
    parent: Optional[str]
    realtime: Optional[Curve]
    share: Optional[Curve]
    limit: Optional[Curve]
    is_default: bool


class Interface:
    """The interface of a name: `bandwidth` in bits per second, `discipline`, `classes` by name in the file's order, `fit`, the line
    of `check` on the real-time curves, `lines`, the canonical lines of its classes, each as its words, `meters`, the meters of its
    conditioners by class, and `unmarked`, the canonical text without conditioners."""

    def __init__(self, text, name):
        own = next(words for words in map(str.split, text) if words[:2] == ["interface", name])
        self.name, self.bandwidth, self.discipline = name, int(own[3]), own[4]
        self.fit = next((line for line in text if line == "fits" or line.startswith("exceeds ")), text[-1])
        self.lines = [words for words in map(str.split, text) if words[0] == "class" and words[2] == name]
        self.classes = {words[3]: class_of(words) for words in self.lines}
        self.meters = {words[2]: rule_of(words[3:]) for words in map(str.split, text) if words[:2] == ["conditioner", name]}
        self.unmarked = "".join(line + "\n" for line in text[:-1] if not line.startswith("conditioner "))

    def promised(self, name):
        """The real-time curve that holds of a class, which is not 0 everywhere; else None. The text has none of a class with children."""
        found = self.classes.get(name)
        curve = found and found.realtime
        return curve if curve and (curve.m1 * curve.d or curve.m2) else None


def class_of(words):
    """The class of a canonical line."""
    curves: dict[str, Optional[Curve]] = {"realtime": None, "share": None, "limit": None}
    for at, word in enumerate(words[5:], 5):
        if word in CURVES:
            m1, d, m2 = (int(number) for number in words[at + 1:at + 4])
            curves[CURVES[word]] = Curve(m1, d * MILLISECOND, m2)
    return Class(words[3], None if words[4] == "NULL" else words[4], is_default="default" in words[5:], **curves)


def interface_named(config, interface):
    """The interface that was asked for, or the only one of a configuration."""
    if interface is not None:
        return interface
    with open(config, encoding="ascii", errors="replace") as file:
        text = file.read()
    names = list(dict.fromkeys(re.findall(r"^[ \t\r\[\]]*interface[ \t\r\[\]]+(\S+)", text, re.MULTILINE)))
    if not names and kind_of(text) is not None:
        raise Refused(f"{config}: it is {NAMES[kind_of(text)]}, not an altq.conf: altqwork import makes one of it")
    if len(names) != 1:
        raise Refused(f"{config}: {len(names)} interfaces ({', '.join(names)}): name one with --interface")
    return names[0]


def read_conf(config, interface=None, program=None):
    """The interface of a configuration. `Refused` with what `check` said where it is refused."""
    name = interface_named(config, interface)
    return Interface(check(config, name, program), name)

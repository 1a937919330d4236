"""The classes that are played of an interface, from its canonical lines (docs/reference/CONFIGURATION.md, "Canonical text")."""

from __future__ import annotations

from dataclasses import dataclass

from ..conf import MILLISECOND, Curve, Interface
from .curves import is_zero

RULES = ("red", "ecn", "rio")
SLOTS = {"rt": "realtime", "ls": "share", "ul": "limit"}


@dataclass(frozen=True)
class Queueing:
    """How a class's queue drops: by its limit alone (`tail`), or by `red`, `ecn` or `rio`."""

    limit: int = 50
    rule: str = "tail"


@dataclass(frozen=True)
class HfscClass:
    """A class of HFSC; curves are None where it has none. `parent` is the place of its parent, None for the root."""

    name: str
    parent: int | None
    queue: Queueing
    realtime: Curve | None = None
    share: Curve | None = None
    limit: Curve | None = None


@dataclass(frozen=True)
class CbqClass:
    """A class of CBQ: its rate in bits per second, and `packetsize` in bytes."""

    name: str
    parent: int | None
    queue: Queueing
    rate: int
    priority: int = 0
    borrows: bool = False
    maxburst: int = 16
    packetsize: int = 1500


def number(words: list[str], option: str) -> int:
    """The number behind an option of a class."""
    return int(words[words.index(option, 5) + 1])


def queueing(words: list[str]) -> Queueing:
    """How the queue of a canonical line drops."""
    return Queueing(number(words, "qlimit"), next((rule for rule in RULES if rule in words[5:]), "tail"))


def curves(words: list[str]) -> dict[str, Curve]:
    """The curves of a canonical line; a real-time curve that is 0 everywhere counts as none."""
    found = {}
    for option, slot in SLOTS.items():
        if option in words[5:]:
            at = words.index(option, 5)
            m1, d, m2 = map(int, words[at + 1:at + 4])
            found[slot] = Curve(m1, d * MILLISECOND, m2)
    if "realtime" in found and is_zero(found["realtime"]):
        del found["realtime"]
    return found


def class_of(words: list[str], parent: int | None) -> HfscClass | CbqClass:
    """The class of a canonical line."""
    if words[1] == "hfsc":
        return HfscClass(words[3], parent, queueing(words), **curves(words))
    return CbqClass(words[3], parent, queueing(words), number(words, "exactbandwidth"), number(words, "priority"),
                    "borrow" in words[5:], number(words, "maxburst"), number(words, "packetsize"))


def implied(interface: Interface) -> list[HfscClass | CbqClass]:
    """The two classes of an interface without class statements."""
    rate, plain = interface.bandwidth, Queueing()
    if interface.discipline == "hfsc":
        return [HfscClass("root", None, plain), HfscClass("default", 0, plain, share=Curve(rate, 0, rate))]
    return [CbqClass("root", None, plain, rate), CbqClass("default", 0, plain, rate, borrows=True)]


def classes_of(interface: Interface) -> list[HfscClass | CbqClass]:
    """The classes of an interface, in the file's order."""
    places: dict[str, int | None] = {"NULL": None}
    found: list[HfscClass | CbqClass] = []
    for words in interface.lines:
        found.append(class_of(words, places[words[4]]))
        places[words[3]] = len(found) - 1
    return found or implied(interface)

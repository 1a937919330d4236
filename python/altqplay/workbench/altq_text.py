"""What an import makes of a foreign configuration: interfaces with classes and filters, and the altq.conf that says them.

The ranges are those of docs/reference/CONFIGURATION.md. Rates are in bits per second, times in milliseconds.
"""

import ipaddress
import re
from dataclasses import dataclass, field
from typing import List, NamedTuple, NoReturn, Optional

from .faults import Refused
from .printable import printable

NAME = re.compile(r"[A-Za-z0-9_.:/-]{1,64}\Z")
MOST_CLASSES, MOST_FILTERS, MOST_INTERFACES, MOST_LEVELS = 256, 1024, 16, 8
LEAST_RATE, GREATEST_RATE, GREATEST_D = 1000, 10**12, 10**6


class Word(NamedTuple):
    """A word of a file, with the number of its line and its own number in that line, both from 1."""

    text: str
    line: int
    place: int


class Curve(NamedTuple):
    """A service curve: m1 bits per second for d milliseconds, then m2."""

    m1: int
    d: int
    m2: int


class Address(NamedTuple):
    """Those addresses that agree with a value under a mask; a mask of 0 is any address."""

    value: int
    mask: int


ANY = Address(0, 0)


@dataclass
class Class:
    """A class; the fields that an interface of the other discipline has are None."""

    name: str
    parent: Optional[str]
    word: Word
    realtime: Optional[Curve] = None
    share: Optional[Curve] = None
    limit: Optional[Curve] = None
    rate: Optional[int] = None
    priority: Optional[int] = None
    borrow: bool = False
    qlimit: Optional[int] = None
    drop: Optional[str] = None
    is_default: bool = False


@dataclass
class Filter:
    """A filter of IPv4 or IPv6; of those that match the one of greatest rank wins."""

    owner: str
    family: int
    dst: Address = ANY
    dport: int = 0
    src: Address = ANY
    sport: int = 0
    protocol: int = 0
    tos: Optional[Address] = None
    rank: int = 0


@dataclass
class Interface:
    """An interface with its classes, parents first, and its filters."""

    name: str
    bandwidth: int
    discipline: str
    word: Word
    tbrsize: Optional[str] = None
    classes: List[Class] = field(default_factory=list)
    filters: List[Filter] = field(default_factory=list)


class Note(NamedTuple):
    """What of a file has no equivalent or means something else here: its line, or 0 for the file as a whole, the word, why, and
    whether that has an effect: packets would have another class, another queue or another turn."""

    line: int
    text: str
    why: str
    has_effect: bool
    place: int = 0

    def told(self):
        """The note in a line."""
        where = f"line {self.line} word {self.place}: " if self.line else ""
        return printable(f"{where}{self.text}: {self.why}" if self.text else f"{where}{self.why}")


class Notes:
    """Where a file is imported from, and what has no equivalent or means something else here."""

    def __init__(self, name):
        self.name, self.placed, self.general = name, [], []

    def add(self, word, text, has_effect=True):
        """Notes something at a word, once."""
        note = Note(word.line, word.text, text, has_effect, word.place)
        if note not in self.placed:
            self.placed.append(note)

    def say(self, text, has_effect=False):
        """Notes something of the file as a whole, once."""
        note = Note(0, "", text, has_effect)
        if note not in self.general:
            self.general.append(note)

    def refuse(self, word: Word, text: str) -> NoReturn:
        """Ends the import at a word."""
        raise Refused(f"{self.name}: line {word.line} word {word.place}: {word.text}: {text}")

    def all(self):
        """The notes, those with a place in the order of the file."""
        return sorted(self.placed, key=lambda note: (note.line, note.place, note.text, note.why)) + self.general

    def lines(self):
        """The notes in lines."""
        return [note.told() for note in self.all()]

    def effects(self):
        """A line that counts what has an effect and is not in the result, or None."""
        found = [note for note in self.all() if note.has_effect]
        lines = sorted({note.line for note in found if note.line})
        where = f" (line{'s' * (len(lines) > 1)} {', '.join(map(str, lines))})" if lines else ""
        words, have = ("word", "has") if len(found) == 1 else ("words", "have")
        return f"{len(found)} {words} of {printable(self.name)}{where} {have} an effect that the result does not have" if found else None


def rate_text(rate):
    """A rate in bits per second as short as the language has it."""
    for size, unit in ((10**9, "G"), (10**6, "M"), (10**3, "K")):
        if rate and rate % size == 0:
            return f"{rate // size}{unit}"
    return str(rate)


def curve_text(word, curve):
    return f"{word} {rate_text(curve.m1)} {curve.d} {rate_text(curve.m2)}"


def class_text(interface, one):
    """The line of a class."""
    words = ["class", interface.discipline, interface.name, one.name, one.parent or "NULL"]
    if one.parent is None:
        words.append("pshare 100" if interface.discipline == "hfsc" else "pbandwidth 100")
    words += [curve_text(word, curve) for word, curve in (("rt", one.realtime), ("ls", one.share), ("ul", one.limit)) if curve]
    words += [f"priority {one.priority}"] if one.priority is not None else []
    words += [f"exactbandwidth {rate_text(one.rate)}"] if one.rate is not None else []
    words += ["borrow"] if one.borrow else []
    words += [f"qlimit {one.qlimit}"] if one.qlimit is not None else []
    words += [one.drop] if one.drop else []
    words += ["default"] if one.is_default else []
    return " ".join(words)


def address_text(address, family):
    """An address of a filter with its mask or prefix length."""
    if not address.mask:
        return "0"
    if family == 6:
        return f"{ipaddress.IPv6Address(address.value & address.mask)}/{bin(address.mask).count('1')}"
    text = str(ipaddress.IPv4Address(address.value & address.mask))
    return text if address.mask == 2**32 - 1 else f"{text} netmask {ipaddress.IPv4Address(address.mask)}"


def filter_text(interface, one):
    """The line of a filter."""
    word, tos = ("filter", "tos") if one.family == 4 else ("filter6", "tclass")
    dst, src = address_text(one.dst, one.family), address_text(one.src, one.family)
    text = f"{word} {interface.name} {one.owner} ruleno {one.rank} {dst} {one.dport} {src} {one.sport} {one.protocol}"
    return text if one.tos is None else f"{text} {tos} {one.tos.value} {tos}mask {one.tos.mask}"


def text_of(interfaces, notes):
    """The altq.conf: a comment for each note, then the interfaces."""
    lines = [f"# From {printable(notes.name)} by altqwork import; docs/operators/PF-TC.md says what became of each word."]
    lines += [f"# {line}" for line in notes.lines()]
    for interface in interfaces:
        tbrsize = f" tbrsize {interface.tbrsize}" if interface.tbrsize else ""
        lines += ["", f"interface {interface.name} bandwidth {rate_text(interface.bandwidth)}{tbrsize} {interface.discipline}"]
        lines += [class_text(interface, one) for one in interface.classes]
        lines += [filter_text(interface, one) for one in interface.filters]
    return "\n".join(lines) + "\n"


def try_curve(one, word, curve, notes):
    """Refuses a curve that this language has not."""
    least = {"ul": LEAST_RATE, "ls": 1}.get(word, 0)
    if not (least <= curve.m2 <= GREATEST_RATE and curve.m1 <= GREATEST_RATE and curve.d <= GREATEST_D):
        notes.refuse(one.word, f"its curve {curve_text(word, curve)} is out of range: m2 is {least} to 10^12 here, d at most 10^6")
    if word == "ul" and curve.m1 < LEAST_RATE:
        notes.refuse(one.word, f"its curve {curve_text(word, curve)} is out of range: both slopes of an upper limit are at least 1000 here")


def try_class(one, level, notes):
    """Refuses a class that this language has not."""
    if not NAME.match(one.name):
        notes.refuse(one.word, "a name has 1 to 64 letters, digits and _ - . : / here")
    if level > MOST_LEVELS:
        notes.refuse(one.word, f"it would be on level {level}, and there are {MOST_LEVELS} here")
    if one.rate is not None and not LEAST_RATE <= one.rate <= GREATEST_RATE:
        notes.refuse(one.word, f"its rate of {one.rate} bits per second is out of range: 1000 to 10^12 here")
    for word, curve in (("rt", one.realtime), ("ls", one.share), ("ul", one.limit)):
        if curve:
            try_curve(one, word, curve, notes)


def try_interface(interface, notes):
    """Refuses an interface that this language has not."""
    if not NAME.match(interface.name):
        notes.refuse(interface.word, "a name has 1 to 64 letters, digits and _ - . : / here")
    for what, count, most in (("classes", len(interface.classes), MOST_CLASSES), ("filters", len(interface.filters), MOST_FILTERS)):
        if count > most:
            notes.refuse(interface.word, f"it has {count} {what}, and there are at most {most} here")
    levels = {None: 0}
    for one in interface.classes:
        levels[one.name] = levels[one.parent] + 1
        try_class(one, levels[one.name], notes)
    if not LEAST_RATE <= interface.bandwidth <= GREATEST_RATE:
        notes.refuse(interface.word, f"its bandwidth of {interface.bandwidth} bits per second is out of range: 1000 to 10^12 here")


def try_all(interfaces, notes):
    """Refuses what this language has not."""
    if len(interfaces) > MOST_INTERFACES:
        notes.refuse(interfaces[MOST_INTERFACES].word, f"there are at most {MOST_INTERFACES} interfaces here")
    for interface in interfaces:
        try_interface(interface, notes)


def rank(rows, interface):
    """Gives each filter its rank and keeps the order of the file. A row is a key, in rising order the less preferred first, and filters."""
    ranks = {key: number for number, key in enumerate(sorted({key for key, _ in rows}), 1)}
    for key, filters in rows:
        for one in filters:
            one.rank = ranks[key]
            interface.filters.append(one)

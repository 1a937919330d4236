"""Turns qdiscs and classes of HFSC, as tc(8) takes or shows them, into interfaces with classes."""

from __future__ import annotations

import re
from dataclasses import dataclass, field
from fractions import Fraction
from typing import Dict, List, Optional, Sequence

from .altq_text import Class, Curve, Interface, Notes, Word
from .tc_words import RATES, SIZES, TIMES, is_change, quantity, whole

CURVES = ("rt", "ls", "ul", "sc")
PARTS = {"m1": RATES, "m2": RATES, "rate": RATES, "d": TIMES, "dmax": TIMES, "umax": SIZES}
MS, SECOND = 10**6, 10**9
# A leaf without a qdisc has a pfifo as long as its device's txqueuelen, mostly 1000.
QUEUE_LENGTH = 1000
HANDLE = re.compile(r"([0-9a-fA-F]{1,4}):([0-9a-fA-F]{0,4})\Z")


@dataclass
class TcClass:
    """A class as its last line has it, with what stands behind each of rt, ls, ul and sc."""

    handle: Word
    parent: Word
    curves: Dict[str, tuple] = field(default_factory=dict)


@dataclass
class Device:
    """A device's root qdisc, its classes by handle, the qdiscs of its leaves by parent, and its filters."""

    name: Word
    kind: Optional[Word] = None
    root: str = ""
    default: Optional[int] = None
    classes: Dict[str, TcClass] = field(default_factory=dict)
    leaves: Dict[str, List[Word]] = field(default_factory=dict)
    filters: List[List[Word]] = field(default_factory=list)


def handle(word: Word, notes: Notes) -> str:
    """A handle as `major:minor` in base 16; that of a qdisc ends with its colon."""
    match = HANDLE.match(word.text)
    if match is None:
        notes.refuse(word, "no handle of tc, as 1:10")
    minor = int(match[2] or "0", 16)
    return f"{int(match[1], 16):x}:{minor:x}" if minor else f"{int(match[1], 16):x}:"


def behind(words: Sequence[Word], *names: str) -> Optional[Word]:
    """The word behind the first of some words, or None."""
    for at, word in enumerate(words[:-1]):
        if word.text in names:
            return words[at + 1]
    return None


class Reader:
    """Reads the commands one after the other; what tc shows without a device belongs to the one before, or to that of --interface."""

    def __init__(self, interface: Optional[str], notes: Notes) -> None:
        self.notes = notes
        self.devices: Dict[str, Device] = {}
        self.last = Word(interface, 1, 1) if interface else None

    def device(self, words: Sequence[Word]) -> Device:
        """The device of a command."""
        name = behind(words, "dev") or self.last
        if name is None:
            self.notes.refuse(words[0], "it names no device: give its name by --interface")
        self.last = name
        return self.devices.setdefault(name.text, Device(name))

    def read(self, words):
        """One command."""
        device = self.device(words)
        is_removed = is_change(words) and words[1].text in ("del", "delete")
        if is_removed and (words[0].text != "qdisc" or not any(word.text == "root" for word in words)):
            self.notes.refuse(words[1], "only the removal of a device's root qdisc is read")
        if is_removed:
            self.devices[device.name.text] = Device(device.name)
        else:
            {"qdisc": self.qdisc, "class": self.one_class, "filter": lambda of, line: of.filters.append(line)}[words[0].text](device, words)

    def qdisc(self, device, words):
        """A qdisc: the root, or that of a leaf."""
        kind, options = split_kind(words, ("handle", "parent", "dev", "refcnt"))
        if kind is None:
            self.notes.refuse(words[0], "it names no kind of qdisc")
        parent = behind(words, "parent")
        if parent is not None and parent.text != "root":
            device.leaves[handle(parent, self.notes)] = [kind] + options
            return
        if kind.text in ("ingress", "clsact"):
            self.notes.add(kind, "what comes in waits in no queue here, so it is left out", has_effect=False)
            return
        if not any(word.text == "root" for word in words):
            self.notes.refuse(kind, "it has no parent and is no root")
        stab = behind_stab(words)
        if stab is not None:
            self.notes.add(stab, "lengths are those of the capture here: altqwork convert --overhead and --atm change them")
            kind = next((word for word in words if word.text == "hfsc"), kind)
        if kind.text != "hfsc":
            text = "it has no equivalent: only hfsc is read, with u32, flower and matchall"
            self.notes.refuse(kind, text) if is_change(words) else self.notes.add(kind, text + "; the device is left out")
            return
        device.kind = kind
        number = behind(words, "handle") if is_change(words) else behind(words, kind.text)
        if number is None:
            self.notes.refuse(kind, "it has no handle, by which its classes name it")
        device.root = handle(number, self.notes)
        default = behind(words, "default")
        device.default = whole(default, 16, self.notes) if default else None

    def one_class(self, device, words):
        """A class of HFSC; a later line on it takes the place of an earlier one."""
        kind, options = split_kind(words, ("classid", "parent", "dev", "leaf"))
        if kind is None or kind.text != "hfsc":
            self.notes.refuse(kind or words[0], f"{kind.text if kind else 'this'} has no equivalent: only classes of hfsc are read")
        if not is_change(words) and any(word.text == "root" for word in words):
            return
        name = behind(words, "classid") if is_change(words) else next(iter(words[2:]), None)
        parent = behind(words, "parent")
        if name is None or parent is None:
            self.notes.refuse(words[0], "it names no classid, or no parent")
        known = device.classes.setdefault(handle(name, self.notes), TcClass(name, parent))
        known.curves.update(self.curves(options))

    def curves(self, words):
        """What stands behind each of rt, ls, ul and sc, with the word itself; sc is rt and ls."""
        found: Dict[str, tuple] = {}
        name = None
        for at, word in enumerate(words):
            if word.text in CURVES:
                name = word
                found[name.text] = (name, {})
            elif word.text in PARTS and name is not None:
                if at + 1 == len(words):
                    self.notes.refuse(word, "its value is missing")
                found[name.text][1][word.text] = words[at + 1]
            elif name is not None and words[at - 1].text not in PARTS:
                self.notes.refuse(word, "no part of a service curve of tc-hfsc(8)")
        return found


def behind_stab(words):
    """The word `stab` of a qdisc, if it has one."""
    return next((word for word in words if word.text == "stab"), None)


def split_kind(words, named):
    """The kind of a qdisc or class and its options: the first word that is no name of an option, value or handle."""
    start = 2 if is_change(words) else 1
    at = start
    while at < len(words):
        if words[at].text in named:
            at += 2
        elif words[at].text in ("root", "offloaded"):
            at += 1
        else:
            return words[at], words[at + 1:] if is_change(words) else shown_options(words[at + 1:], named)
    return None, []


def shown_options(words, named):
    """The options behind the kind in what tc shows, without the handle and the tree's words."""
    found, at = [], 1
    while at < len(words):
        if words[at].text in named:
            at += 2
        else:
            found += [words[at]] if words[at].text != "root" else []
            at += 1
    return found


class Maker:
    """Makes an interface of a device."""

    def __init__(self, device, given, notes):
        self.device, self.given = device, given
        self.notes: Notes = notes
        self.inner = {handle(one.parent, notes) for one in device.classes.values()}

    def rate(self, word):
        """A rate in bits per second, rounded down; percent are of --bandwidth."""
        if word.text.endswith("%"):
            if self.given.bandwidth is None:
                self.notes.refuse(word, "percent of what? give the link's bandwidth by --bandwidth")
            return int(quantity(word, {"%": 1}, "rate", self.notes) * self.given.bandwidth / 100)
        return int(quantity(word, RATES, "rate", self.notes))

    def parts(self, name, values):
        """m1 in bits per second, d in nanoseconds, m2, and the word that gave d, as tc makes them of umax and dmax."""
        slope = values.get("m2") or values.get("rate")
        if slope is None:
            self.notes.refuse(name, "m2 or rate is missing")
        m2 = self.rate(slope)
        if "dmax" not in values:
            bend = values.get("d")
            m1 = self.rate(values["m1"]) if "m1" in values else 0
            return m1, quantity(bend, TIMES, "time", self.notes) if bend else 0, m2, bend or name
        dmax = quantity(values["dmax"], TIMES, "time", self.notes)
        bits: Fraction | int = 8 * quantity(values["umax"], SIZES, "size", self.notes) if "umax" in values else 0
        if dmax and bits * SECOND > m2 * dmax:
            return -(-bits * SECOND // dmax), dmax, m2, values["dmax"]
        return 0, max(dmax - bits * SECOND / m2, 0) if m2 else dmax, m2, values["dmax"]

    def curve(self, name, values, is_limit):
        """The curve of rt, ls, ul or sc."""
        m1, d, m2, word = self.parts(name, values)
        if not d or m1 == m2:
            return Curve(m2, 0, m2)
        if is_limit and m1 < m2:
            self.notes.add(name, "an upper limit that rises later has no equivalent: it is a line of m2")
            return Curve(m2, 0, m2)
        if 0 < m1 < m2:
            self.notes.add(values["m1"], "a first slope above 0 and below m2 has no equivalent: m1 is 0")
            m1 = 0
        if d % MS:
            self.notes.add(word, "the bend of a curve is at a whole millisecond here: it is rounded up", has_effect=False)
        return Curve(int(m1), int(-(-d // MS)), m2)

    def one(self, name, tc):
        """A class."""
        curves = {}
        for word, (key, values) in tc.curves.items():
            made = self.curve(key, values, word == "ul")
            curves.update({"rt": made, "ls": made} if word == "sc" else {word: made})
        is_inner = name in self.inner
        if is_inner and "rt" in tc.curves:
            self.notes.add(tc.curves["rt"][0], "a class with classes below it is promised nothing by real time, so it is left out", has_effect=False)
        realtime = None if is_inner else curves.get("rt")
        if "ls" not in curves:
            if "rt" not in tc.curves:
                self.notes.refuse(tc.handle, "it has none of rt, ls and sc")
            self.notes.add(tc.curves["rt"][0], "every class shares what is left here: its ls is a line of m2 of its rt")
            slope = max(curves["rt"].m2, 1)
            curves["ls"] = Curve(slope, 0, slope)
        one = Class(name, handle(tc.parent, self.notes), tc.handle, realtime=realtime, share=curves["ls"], limit=curves.get("ul"))
        if not is_inner:
            self.queue(one)
        return one

    def queue(self, one):
        """Gives a leaf the queue of its qdisc."""
        words = self.device.leaves.get(one.name, [])
        kind = words[0].text if words else "pfifo"
        if kind in ("pfifo", "pfifo_fast"):
            limit = behind(words, "limit")
            one.qlimit = int(quantity(limit, {"": 1, "p": 1}, "number of packets", self.notes)) if limit else QUEUE_LENGTH
            if limit is None:
                self.notes.say(f"a leaf whose qdisc says no limit has {QUEUE_LENGTH} packets, which txqueuelen mostly is")
            elif not 1 <= one.qlimit <= 10000:
                self.notes.add(limit, "a queue has 1 to 10000 packets here, so it is the nearest")
                one.qlimit = min(max(one.qlimit, 1), 10000)
        elif kind == "red":
            one.drop = "ecn" if any(word.text == "ecn" for word in words) else "red"
            self.notes.add(words[0], "its thresholds have no equivalent: RED here has 5 and 15 packets")
        else:
            self.notes.add(words[0], "it has no equivalent: the queue is one of 50 packets that drops what comes then")

    def classes(self):
        """The classes, each behind its parent, else in the order of the file."""
        found: Dict[str, TcClass] = {}
        left = dict(self.device.classes)
        while left:
            ready = [name for name, tc in left.items() if handle(tc.parent, self.notes) in set(found) | {self.device.root}]
            if not ready:
                self.notes.refuse(next(iter(left.values())).parent, "no class with this handle is there")
            found.update({name: left.pop(name) for name in ready[:1]})
        return [self.one(name, tc) for name, tc in found.items()]

    def bandwidth(self, classes):
        """The link's bandwidth: as given, else the upper limit of the only class at the top, else the sum of those at the top."""
        if self.given.bandwidth is not None:
            return self.given.bandwidth
        top = [one for one in classes if one.parent == self.device.root]
        if len(top) == 1 and top[0].limit:
            self.notes.say(f"tc says no bandwidth of a link: that of {self.device.name.text} is the ul of {top[0].name}; give another by --bandwidth")
            return top[0].limit.m2
        self.notes.say(f"tc says no bandwidth of a link: that of {self.device.name.text} is the sum at its root; give another by --bandwidth")
        return sum(one.share.m2 for one in top)

    def interface(self):
        """The interface."""
        device, notes = self.device, self.notes
        if device.kind is None:
            notes.refuse(device.name, "no qdisc of hfsc is at its root")
        classes = self.classes()
        default = self.given.default or (f"{device.root}{device.default:x}" if device.default else None)
        named = [one for one in classes if one.name == default and one.name not in self.inner]
        if not named:
            notes.refuse(device.kind, "no class without classes below it is the default, so tc drops what no filter takes: name one by --default")
        named[0].is_default = True
        found = Interface(device.name.text, self.bandwidth(classes), "hfsc", device.name)
        found.classes = [Class(device.root, None, device.kind)] + classes
        return found


def devices_of(lines, given, notes):
    """The devices of the commands, each with what was set last."""
    reader = Reader(given.interface, notes)
    for words in lines:
        reader.read(words)
    return [device for device in reader.devices.values() if device.kind is not None or device.classes or device.filters]


def interface_of(device, given, notes):
    """The interface of a device."""
    return Maker(device, given, notes).interface()

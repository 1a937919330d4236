"""Reads the `altq` and `queue` lines of pf.conf(5), as FreeBSD and pfSense have them, into interfaces with classes."""

from __future__ import annotations

import re
from dataclasses import dataclass, field
from fractions import Fraction
from typing import Dict, List, NamedTuple, Optional

from .altq_text import Class, Curve, Interface, Word
from .pf_words import Cursor

BANDWIDTH = re.compile(r"(\d+(?:\.\d+)?)(b|Kb|Mb|Gb|%)?\Z")
UNITS = {None: 1, "b": 1, "Kb": 10**3, "Mb": 10**6, "Gb": 10**9}
LATER = {"parent", "min", "max", "burst", "flows", "quantum"}
OPENBSD = "this is the later queue language of OpenBSD (5.5 and on), whose queues are not ALTQ's: write altq and queue lines"
CURVES = {"realtime": "rt", "linkshare": "ls", "upperlimit": "ul"}


class Bandwidth(NamedTuple):
    """So many bits per second, or percent of what a parent has."""

    value: Fraction
    is_percent: bool

    def of(self, parent):
        """In bits per second, rounded down."""
        return int(self.value * parent / 100 if self.is_percent else self.value)


class Spec(NamedTuple):
    """A service curve with the word that began it; d is in milliseconds."""

    word: Word
    m1: Bandwidth
    d: int
    m2: Bandwidth

    def curve(self, parent):
        return Curve(self.m1.of(parent), self.d, self.m2.of(parent))


@dataclass
class Queue:
    """An `altq` line or a `queue` line."""

    word: Word
    interfaces: List[Word] = field(default_factory=list)
    options: Dict[str, object] = field(default_factory=dict)
    scheduler: Optional[Word] = None
    flags: Dict[str, Word] = field(default_factory=dict)
    curves: Dict[str, Spec] = field(default_factory=dict)
    children: List[Word] = field(default_factory=list)


def number(cursor, what):
    word = cursor.take(what)
    if not word.text.isdecimal():
        cursor.notes.refuse(word, f"{what} is a whole number")
    return int(word.text)


def bandwidth(cursor: Cursor) -> Bandwidth:
    """The bandwidth that is next."""
    word = cursor.take("a bandwidth")
    match = BANDWIDTH.match(word.text)
    if match is None:
        cursor.notes.refuse(word, "a bandwidth is a number with b, Kb, Mb, Gb or %")
    return Bandwidth(Fraction(match[1]) * UNITS.get(match[2], 1), match[2] == "%")


def spec(cursor, word):
    """The curve that is next: one bandwidth, or m1, d and m2 in parentheses."""
    if not cursor.skip("("):
        m2 = bandwidth(cursor)
        return Spec(word, m2, 0, m2)
    m1 = bandwidth(cursor)
    cursor.skip(",")
    d = number(cursor, "d in milliseconds")
    cursor.skip(",")
    m2 = bandwidth(cursor)
    cursor.expect(")")
    return Spec(word, m1, d, m2)


def scheduler(cursor, queue):
    """Reads what stands in parentheses behind a scheduler's name."""
    if not cursor.skip("("):
        return
    while not cursor.skip(")"):
        word = cursor.take(")")
        if word.text in CURVES:
            queue.curves[CURVES[word.text]] = spec(cursor, word)
        elif word.text in ("default", "borrow", "red", "ecn", "rio", "codel"):
            queue.flags[word.text] = word
        elif word.text != ",":
            cursor.notes.refuse(word, f"no option of {queue.scheduler.text}")


def options(cursor, queue):
    """Reads the options of an `altq` or `queue` line up to its list."""
    while cursor.has() and not cursor.has("{"):
        word = cursor.take("an option")
        if word.text == "bandwidth":
            queue.options["bandwidth"] = bandwidth(cursor)
        elif word.text in ("priority", "qlimit", "tbrsize"):
            queue.options[word.text] = (word, cursor.words[cursor.at] if cursor.has() else word, number(cursor, word.text))
        elif word.text in ("cbq", "hfsc", "priq", "fairq", "codel", "fifo"):
            queue.scheduler = word
            scheduler(cursor, queue)
        elif word.text == "queue" and queue.word.text == "altq":
            break
        else:
            cursor.notes.refuse(word, "no option of a queue")


def altq_line(words, notes):
    """An `altq` line."""
    cursor = Cursor(words, notes)
    queue = Queue(cursor.take("altq"))
    cursor.expect("on")
    queue.interfaces = cursor.listed("an interface")
    options(cursor, queue)
    if queue.scheduler is None:
        notes.refuse(queue.word, "it names no scheduler: cbq or hfsc")
    if cursor.has():
        queue.children = cursor.listed("a queue")
    return queue


def queue_line(words, notes):
    """A `queue` line."""
    depth = 0
    for word in words:
        depth += {"(": 1, "{": 1, ")": -1, "}": -1}.get(word.text, 0)
        if depth == 0 and word.text in LATER and word != words[1]:
            notes.refuse(words[0], OPENBSD)
    cursor = Cursor(words, notes)
    cursor.take("queue")
    queue = Queue(cursor.take("a queue's name"))
    if cursor.skip("on"):
        queue.interfaces = cursor.listed("an interface")
    options(cursor, queue)
    if cursor.has():
        queue.children = cursor.listed("a queue")
    return queue


def drop_rule(queue, notes):
    """How the queue drops, of those that pf can combine."""
    if "codel" in queue.flags:
        notes.add(queue.flags["codel"], "CoDel has no equivalent, and is left out: the queue drops at its limit alone")
    if "rio" in queue.flags:
        if "ecn" in queue.flags:
            notes.add(queue.flags["ecn"], "RIO that marks has no equivalent: the queue is rio")
        return "rio"
    return "ecn" if "ecn" in queue.flags else "red" if "red" in queue.flags else None


def queue_limit(queue, notes):
    """The queue's limit in packets, or None for the 50 that both languages have."""
    if "qlimit" not in queue.options:
        return None
    _, word, limit = queue.options["qlimit"]
    if limit > 10000:
        notes.add(word, "a queue has at most 10000 packets here, so it is 10000")
    return min(limit, 10000) or None


def hfsc_class(queue, name, parent, own, notes):
    """A class of HFSC: `own` and `parent.of_queue` are bandwidths in bits per second."""
    curves = {word: one.curve(parent) for word, one in queue.curves.items()}
    for word, curve in curves.items():
        if curve.d and 0 < curve.m1 < curve.m2:
            notes.refuse(queue.curves[word].word, "m1 is 0 or at least m2, here as in pf")
    if queue.children and "rt" in curves:
        notes.add(queue.curves["rt"].word, "a class with classes below it is promised nothing by real time, so it is left out", has_effect=False)
        del curves["rt"]
    if "ul" in curves and curves["ul"].d and curves["ul"].m1 == 0:
        notes.add(queue.curves["ul"].word, "an upper limit of 0 at first has no equivalent, and is left out")
        del curves["ul"]
    if "priority" in queue.options:
        notes.add(queue.options["priority"][0], "a class of HFSC has no priority, and it is left out", has_effect=False)
    if "borrow" in queue.flags:
        notes.refuse(queue.flags["borrow"], "no option of hfsc")
    share = curves.get("ls")
    share = share if share and share.m2 else Curve(own, 0, own)
    return Class(queue.word.text, name, queue.word, realtime=curves.get("rt"), share=share, limit=curves.get("ul"))


def cbq_class(queue, name, parent, own, notes):
    """A class of CBQ."""
    for one in queue.curves.values():
        notes.refuse(one.word, "no option of cbq")
    priority = queue.options.get("priority", (None, None, 1))
    if priority[2] > 7:
        notes.refuse(priority[1], "a priority of cbq is 0 to 7")
    return Class(queue.word.text, name, queue.word, rate=own, priority=priority[2], borrow="borrow" in queue.flags)


class Builder:
    """Joins the lines to interfaces: a queue's parent is what lists it, on the interface or above it."""

    def __init__(self, altqs, queues, defaults, notes):
        self.altqs, self.queues, self.bandwidth, self.notes = altqs, queues, defaults, notes
        self.placed = set()

    def interface(self, altq, on):
        """One interface of an `altq` line with its classes."""
        given = altq.options.get("bandwidth")
        if self.bandwidth is None and (given is None or given.is_percent):
            self.notes.refuse(on, "the line says no bandwidth in bits per second: give it by --bandwidth")
        total = given.of(self.bandwidth or 0) if given else self.bandwidth
        tbrsize = altq.options.get("tbrsize")
        found = Interface(on.text, total, altq.scheduler.text, on, tbrsize=str(tbrsize[2]) if tbrsize else None)
        root = f"root_{on.text}"
        found.classes.append(Class(root, None, on))
        parents = {child.text: (root, total, child) for child in altq.children}
        for queue in self.queues:
            self.place(queue, found, parents)
        for child, (_, _, word) in parents.items():
            if child not in {one.name for one in found.classes}:
                self.notes.refuse(word, f"no queue line behind this one defines it on {on.text}")
        return found

    def place(self, queue, interface, parents):
        """Puts a queue into an interface whose lists name it."""
        if queue.interfaces and interface.name not in {word.text for word in queue.interfaces}:
            return
        if queue.word.text not in parents:
            return
        if any(one.name == queue.word.text for one in interface.classes):
            self.notes.refuse(queue.word, f"it is there twice on {interface.name}")
        name, above, _ = parents[queue.word.text]
        own = queue.options["bandwidth"].of(above) if "bandwidth" in queue.options else above
        if queue.scheduler is not None and queue.scheduler.text != interface.discipline:
            self.notes.refuse(queue.scheduler, f"its interface has {interface.discipline}")
        make = hfsc_class if interface.discipline == "hfsc" else cbq_class
        one = make(queue, name, above, own, self.notes)
        one.qlimit, one.drop, one.is_default = queue_limit(queue, self.notes), drop_rule(queue, self.notes), "default" in queue.flags
        if one.is_default and queue.children and interface.discipline == "hfsc":
            self.notes.refuse(queue.flags["default"], "the default class of HFSC has no classes below it")
        interface.classes.append(one)
        self.placed.add(queue.word)
        parents.update({child.text: (queue.word.text, own, child) for child in queue.children})

    def all(self):
        """The interfaces of all `altq` lines that can be played."""
        found = []
        for altq in self.altqs:
            if altq.scheduler.text in ("cbq", "hfsc"):
                found += [self.interface(altq, on) for on in altq.interfaces]
        return found


def passed_over(altqs, queues, notes):
    """Notes the schedulers without an equivalent, and answers the queues of their interfaces."""
    names, interfaces = set(), set()
    for altq in altqs:
        for option, text in (("tbrsize", "it has no effect here: a link sends packet after packet"),
                             ("qlimit", "the root of an interface holds no packets, so it is left out")):
            if option in altq.options and altq.scheduler.text in ("cbq", "hfsc"):
                notes.add(altq.options[option][0], text, has_effect=False)
        if altq.scheduler.text not in ("cbq", "hfsc"):
            notes.add(altq.scheduler, f"{altq.scheduler.text} has no equivalent: its interface is left out with its queues")
            interfaces |= {word.text for word in altq.interfaces}
            names |= {word.text for word in altq.children}
    return names, interfaces


def is_left_out(queue, names, interfaces):
    """Whether a queue belongs to interfaces that are left out; so do those below it."""
    out = {word.text for word in queue.interfaces} <= interfaces if queue.interfaces else queue.word.text in names
    if out:
        names |= {word.text for word in queue.children}
    return out


def default_class(interface, default, notes):
    """Sees to it that an interface has one default class."""
    named = [one for one in interface.classes if one.is_default]
    if not named and default is not None:
        named = [one for one in interface.classes if one.name == default]
        for one in named:
            one.is_default = True
    if not named:
        notes.refuse(interface.word, "no queue of this interface is its default: name one by --default")
    if len(named) > 1:
        notes.refuse(named[1].word, "a second default of this interface")


def tell_thresholds(interfaces, notes):
    """Says that the thresholds of RED are not read from the limit of a queue."""
    dropping = [one for interface in interfaces for one in interface.classes if one.drop]
    other = ", ".join(f"{one.name} with qlimit {one.qlimit}" for one in dropping if one.qlimit not in (None, 50))
    if other:
        notes.say(f"red, ecn, rio: thresholds do not follow qlimit here ({other}), as those of pf's ALTQ are said to: docs/operators/PF-TC.md", has_effect=True)
    elif dropping:
        notes.say("red, ecn, rio: the thresholds are those of docs/reference/QUEUE-RULES.md; pf.conf(5) names none")


def interfaces_of(lines, options_given, notes):
    """The interfaces of the statements of a pf.conf."""
    altqs = [altq_line(words, notes) for words in lines if words[0].text == "altq"]
    first = next((words[0] for words in lines if words[0].text == "queue"), None)
    if first is not None and not altqs:
        notes.refuse(first, OPENBSD)
    queues = [queue_line(words, notes) for words in lines if words[0].text == "queue"]
    if not altqs:
        notes.refuse(Word("end of the file", 1, 1), "no altq line stands in it")
    names, out = passed_over(altqs, queues, notes)
    builder = Builder(altqs, queues, options_given.bandwidth, notes)
    found = builder.all()
    for queue in queues:
        if queue.word not in builder.placed and not is_left_out(queue, names, out):
            notes.refuse(queue.word, "no altq line and no queue line above lists it")
    if not found:
        notes.refuse(altqs[0].scheduler, "no interface is left: only cbq and hfsc can be played")
    for interface in found:
        default_class(interface, options_given.default, notes)
    tell_thresholds(found, notes)
    return found

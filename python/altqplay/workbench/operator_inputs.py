"""What an operator has, a configuration of any kind and captures of any kind, as what the program plays.

`prepared` is the one way in. Of pf.conf or tc it makes an altq.conf as `altqwork import` does, and of other captures one that the program
reads, as `altqwork convert` does. Where filters cannot say what the rules ask for, it gives each packet its class by the rules
themselves and plays a marked copy. It says what was not understood.
"""

from __future__ import annotations

import argparse
import os
from dataclasses import dataclass, field
from typing import Any, Callable, List, NamedTuple, Optional, Sequence

import numpy

from . import importing, pf_filters, tc_filters
from .altq_text import MOST_FILTERS, Note, Notes, text_of, try_all
from .captures import LONGEST, frames_of
from .conf import interface_named, read_conf
from .config_kinds import kind_of
from .convert import converted, is_playable
from .faults import Refused
from .frames_told import told_of_frames
from .marking import GREATEST_RULE, Marking, filters
from .headers import reading_of
from .pf_order import Order as PfOrder
from .pf_order import HERE_OUT, Placed, looks, notes_of_order
from .packet_words import marks_of
from .tc_order import Order as TcOrder
from .tc_order import number_of


@dataclass
class Options:
    """What the configuration or the captures do not say themselves, as on the command line of `import` and `convert`."""

    bandwidth: Optional[str] = None
    default: Optional[str] = None
    kind: Optional[str] = None
    address: Sequence[str] = ()
    overhead: int = 0
    atm: bool = False
    snap: int = LONGEST
    program: Optional[str] = None


@dataclass
class Prepared:
    """What is played: `conf_text` with its `interface`, and the capture `arrivals`. `notes` say what was not understood.

    `original` is the capture as given; `shown` the classic capture of Ethernet that has its frames, number by number.
    `numbers[n]` is the number there of the packet that the play numbers n; it takes one number, or a column of numpy. Here they are the same.
    `classes`, where packets were classified here, has the class of each packet of the play, by its number less 1.
    `told` has lines on what was done to the capture.
    """

    conf_text: str
    interface: str
    notes: List[Note]
    arrivals: str
    original: str
    shown: str
    numbers: numpy.ndarray
    told: List[str] = field(default_factory=list)
    classes: Optional[List[str]] = None

    def not_understood(self) -> Optional[str]:
        """One line of what has an effect and is not in what is played, or None."""
        found = [note.told() for note in self.notes if note.has_effect]
        return f"not understood: {'; '.join(found)}" if found else None


class Read(NamedTuple):
    """A configuration that was read: an altq.conf by its filters, what of it filters do not say, and what classifies packets by the rules
    themselves, given what marks them and the notes."""

    conf_text: str
    interface: str
    notes: Notes
    unsaid: Notes
    classify: Optional[Callable[[Marking, Notes], Placed]]
    bare_text: str
    has_blocks: bool = False

    def needs_order(self) -> bool:
        """Whether packets must be classified by the rules themselves: no filter says all of them, or some may be stopped."""
        return self.has_blocks or any(note.has_effect for note in self.unsaid.all())


def chosen(interfaces: Sequence[Any], name: Optional[str], config: str) -> int:
    """The place of the interface that is asked for, or of the only one."""
    names = [one.name for one in interfaces]
    if name is None and len(names) > 1:
        raise Refused(f"{config}: {len(names)} interfaces ({', '.join(names)}): name one with --interface")
    if name is not None and name not in names:
        raise Refused(f"{config}: it has no queues on {name}, but on {', '.join(names)}")
    return names.index(name) if name else 0


def read_foreign(config: str, text: str, kind: Optional[str], interface: Optional[str], options: Options, marks: dict) -> Read:
    """A configuration of pf or tc."""
    given = argparse.Namespace(file=config, kind=kind, interface=interface, bandwidth=importing.rate(options.bandwidth), default=options.default,
                               addresses=importing.addresses_of(options.address))
    notes, unsaid, has_blocks = Notes(config), Notes(config), False
    given.kind = kind or importing.kind(text, config)
    if given.kind != "tc":
        rules, interfaces = importing.pf_parts(text, given, notes)
        one = interfaces[chosen(interfaces, interface, config)]
        bare_text = text_of([one], notes)
        pf_filters.add_filters(rules, [one], unsaid)
        has_blocks = any(rule.word.text == "block" and looks(rule, HERE_OUT, one.name) for rule in rules)

        def classify(marking, order_notes):
            notes_of_order(rules, one, interfaces, order_notes)
            return PfOrder(one, rules).placed(marking.heads)
    else:
        devices, interfaces = importing.tc_parts(text, given, notes)
        place = chosen(interfaces, interface, config)
        one, device = interfaces[place], devices[place]
        bare_text = text_of([one], notes)
        tc_filters.add_filters(device, one, unsaid)

        def classify(marking, order_notes):
            return TcOrder(device, one, marking, marks, order_notes).placed()
    if len(one.filters) > MOST_FILTERS:
        unsaid.say(f"the rules would be {len(one.filters)} filters, and there are at most {MOST_FILTERS}", has_effect=True)
        one.filters = []
    try_all([one], notes)
    return Read(text_of([one], notes), one.name, notes, unsaid, classify, bare_text, has_blocks)


def read_config(config: str, interface: Optional[str], options: Options, marks: dict) -> Read:
    """A configuration of any kind."""
    text = importing.read(config)
    kind = options.kind or kind_of(text)
    if kind == "altq":
        return Read(text, interface_named(config, interface), Notes(config), Notes(config), None, text)
    return read_foreign(config, text, kind, interface, options, marks)


def playable(captures: Sequence[str], folder: str, options: Options):
    """The capture that is played of some, and what was done for that."""
    if not captures:
        raise Refused("name a capture of the arrivals")
    if len(captures) == 1 and is_playable(captures[0], options.overhead, options.atm):
        return captures[0], []
    made = os.path.join(folder, "arrivals.pcap")
    return made, converted(list(captures), made, options).told()


def of_altq(config: str, read: Read, options: Options, count: int):
    """The classes of an altq.conf that hold packets, none of the packets having one yet, and the least number above those of its filters."""
    conf = read_conf(config, read.interface, options.program)
    inner = {one.parent for one in conf.classes.values()} if conf.discipline == "hfsc" else set()
    rules = [int(words[words.index("ruleno") + 1]) for words in map(str.split, conf.unmarked.split("\n")) if "ruleno" in words]
    rule = max(rules, default=0) + 1
    if rule > GREATEST_RULE:
        raise Refused(f"{config}: a filter has ruleno {GREATEST_RULE}, so none of a greater number can be put above it")
    return Placed([name for name in conf.classes if name not in inner], numpy.full(count, -1), numpy.zeros(count, dtype=bool), [], 0), rule


def put_marks(placed: Placed, marks: dict, heads) -> None:
    """Gives the packets that --mark names their class; of several marks the last holds."""
    for name, selectors in marks.items():
        if name in placed.classes:
            for selector in selectors:
                placed.of_class[selector.holds(heads)] = placed.classes.index(name)
        elif number_of(name) is None:
            raise Refused(f"--mark {name}: no class that holds packets has this name: {', '.join(placed.classes)}")


def told_of(placed: Placed) -> List[str]:
    """What was done to the packets, in lines."""
    count, blocked = len(placed.of_class), int(placed.is_blocked.sum())
    lines = [f"{count} packets were given their classes by the rules themselves: a marked copy is played, in which the target's address stands for"
             " the class; numbers and frames are those of the capture"]
    if blocked:
        where = ", ".join(map(str, placed.block_lines))
        lines.append(f"{blocked} packets would be stopped by a block rule (line {where}): they are played in the default class; leave them out of the capture")
    if placed.older:
        lines.append(f"{placed.older} connections of TCP began before the capture: each is read as if its first packet here had opened it")
    return lines


def prepared(config: str, interface: Optional[str], captures: Sequence[str], folder: str, marks: Sequence[str] = (),
             options: Optional[Options] = None) -> Prepared:
    """What is played of a configuration and captures; what is made lies in the folder."""
    options, selectors = options or Options(), marks_of(marks)
    read = read_config(config, interface, options, selectors)
    os.makedirs(folder, exist_ok=True)
    shown, told = playable(captures, folder, options)
    frames = frames_of(shown)
    numbers = numpy.arange(len(frames) + 1)
    reading = reading_of(frames)
    told += told_of_frames(frames, reading)
    if not selectors and not read.needs_order():
        return Prepared(read.conf_text, read.interface, read.notes.all() + read.unsaid.all(), shown, captures[0], shown, numbers, told)
    marking, rule = Marking(frames, reading), 1
    if read.classify is None:
        placed, rule = of_altq(config, read, options, len(frames))
    else:
        placed = read.classify(marking, read.notes)
    put_marks(placed, selectors, marking.heads)
    arrivals = os.path.join(folder, "marked.pcap")
    marking.write(arrivals, placed.of_class, placed.classes)
    names = [placed.classes[number] for number in placed.of_class.tolist()] if read.classify else None
    conf_text = read.bare_text + filters(read.interface, placed.classes, marking.base, rule)
    return Prepared(conf_text, read.interface, read.notes.all(), arrivals, captures[0], shown, numbers, told + told_of(placed), names)


def without_captures(config: str, interface: Optional[str], marks: Sequence[str] = (), options: Optional[Options] = None) -> Prepared:
    """A configuration of plays that were made: nothing is played of it."""
    read = read_config(config, interface, options or Options(), marks_of(marks))
    return Prepared(read.conf_text, read.interface, read.notes.all() + read.unsaid.all(), "", "", "", numpy.arange(1))

"""The plays that a question is about: one, or one before and one after a change, with the due moments of their packets.

Columns of a `Side` stand by the packets' numbers, so those of two plays of the same arrivals stand beside each other.
"""

import os
import shutil
import tempfile
from concurrent.futures import ThreadPoolExecutor

import numpy

from . import importing, operator_inputs
from .captures import frames_of
from .conf import read_conf
from .convert import add_lengths
from .due import BYTE, MOST, due_moments
from .faults import Refused
from .play import add_program, play
from .rows import read_fates


class Side:
    """One play: the interface, and a column each of its fates and of what was due.

    `due` and `missed`, the end less the due moment, have a meaning where `has_due`. A packet `is_late` if it ends more than
    `allowed` nanoseconds after its due moment: by default the time of the longest packet sent, rounded up, since a packet
    under way is not broken off.
    """

    def __init__(self, label, interface, fates, allowed=None):
        self.label, self.interface = label, interface
        order = numpy.argsort(fates.number, kind="stable")
        self.number, self.arrival, self.length, self.start, self.end, self.is_sent, self.of_class = (
            values[order] for values in (fates.number, fates.arrival, fates.length, fates.start, fates.end, fates.is_sent, fates.of_class))
        self.of_fate, self.fate_names, self.class_names = fates.of_fate[order], fates.fates, fates.classes
        ends = numpy.cumsum(numpy.bincount(self.of_class, minlength=len(fates.classes)))
        self.places = numpy.split(numpy.argsort(self.of_class, kind="stable"), ends[:-1])
        longest = int(self.length[self.is_sent].max()) if self.is_sent.any() else 0
        self.longest = longest
        self.allowed = -(-longest * BYTE // interface.bandwidth) if allowed is None else allowed
        due, has_due = due_of(interface, fates)
        self.due, self.has_due = due[order], has_due[order]
        self.missed = self.end - self.due
        self.is_late = self.has_due & (self.missed > self.allowed).astype(bool)

    def __len__(self):
        return len(self.number)

    def class_is(self, name):
        """The places of the packets of a class, in rising order."""
        return self.places[self.class_names.index(name)] if name in self.class_names else numpy.zeros(0, dtype=numpy.int64)

    def count(self, own, fate):
        """How many of the packets at some places have a fate."""
        return int((self.of_fate[own] == self.fate_names.index(fate)).sum()) if fate in self.fate_names else 0

    def classes(self):
        """The classes that packets are of, in the configuration's order."""
        known = [name for name in self.interface.classes if name in self.class_names]
        return known + [name for name in self.class_names if name not in self.interface.classes]


def due_of(interface, fates):
    """The due moment of each fate, in their order, and which have one."""
    due, has_due = numpy.zeros(len(fates), dtype=numpy.int64), numpy.zeros(len(fates), dtype=bool)
    for name in fates.classes:
        curve = interface.promised(name)
        if curve is not None:
            own = numpy.flatnonzero(fates.class_is(name) & fates.is_sent)
            moments, has_due[own] = due_moments(curve, fates.arrival[own], fates.start[own], fates.length[own])
            if moments.dtype == object and not (abs(moments) < MOST).all():
                due = due.astype(object)
            due[own] = moments
    return due, has_due


def class_names(sides):
    """The classes that packets of some plays are of, in the configurations' order."""
    return list(dict.fromkeys(name for side in sides for name in side.classes()))


def every(side):
    """The places of all packets of a play."""
    return numpy.arange(len(side))


def of_either(sides, name):
    """The places of the packets that are of a class in any of some plays."""
    owns = [side.class_is(name) for side in sides]
    return owns[0] if all(len(own) == len(owns[0]) and (own == owns[0]).all() for own in owns) else numpy.unique(numpy.concatenate(owns))


def same_arrivals(sides):
    """Refuses two plays that are not of the same arrivals."""
    if len(sides) < 2:
        return
    first, second = sides
    if len(first) != len(second) or (first.number != second.number).any():
        odd = numpy.setxor1d(first.number, second.number)
        raise Refused(f"packet {odd[0]} stands in one play alone: not the same arrivals, or a play that was cut off")
    other = numpy.flatnonzero((first.arrival != second.arrival) | (first.length != second.length))
    if len(other):
        raise Refused(f"packet {first.number[other[0]]} has another arrival or length in the second play")


def add_arguments(parser):
    """The words that name one play or two."""
    parser.add_argument("--config", metavar="FILE", help="the configuration of one play: an altq.conf, a pf.conf, or lines of tc")
    parser.add_argument("--before", metavar="FILE", help="the configuration before a change")
    parser.add_argument("--after", metavar="FILE", help="the configuration after it")
    parser.add_argument("--as", dest="kind", choices=["pf", "tc"], help="what the configurations are, where their words do not tell")
    parser.add_argument("--bandwidth", metavar="RATE", help="the link's bandwidth where a pf.conf or tc does not say it, as 10mbit or 10Mb")
    parser.add_argument("--default", metavar="CLASS", help="the default class where a pf.conf or tc names none")
    parser.add_argument("--address", action="append", default=[], metavar="NAME=ADDRESS[,..]",
                        help="the addresses of a name that a pf.conf does not tell: of (self), em0:network, a table or a host")
    parser.add_argument("--mark", dest="marks", action="append", default=[], metavar="NAME='PACKETS'",
                        help="the packets of a class, or with a mark of tc's fwmark, as 10='udp dport 10000-20000'; of several marks the last holds")
    parser.add_argument("--fates", metavar="FILE", action="append", default=[],
                        help="fates of a play that was made, one for each configuration in their order; else the capture is played")
    parser.add_argument("--seed", type=int, default=42, metavar="N", help="the seed of the plays, 42 by default")
    parser.add_argument("--allow", type=int, metavar="NS",
                        help="nanoseconds after its due moment that a packet may end and not be late; else the time of the longest packet sent")
    parser.add_argument("--keep", metavar="FOLDER", help="keeps the files of the plays in this folder")
    add_program(parser)
    add_lengths(parser)
    parser.add_argument("--arrivals", dest="captures", action="append", default=[], metavar="CAPTURE",
                        help="a capture of the arrivals, of any kind; several are merged by their stamps")
    parser.add_argument("arrivals", nargs="?", help="the same, without a word before it; without a capture no flows are told")


def captures_of(args):
    """The captures of the arrivals that the words name."""
    return args.captures + ([args.arrivals] if args.arrivals is not None else [])


class Question:
    """The plays that the words name, as `sides`, and the `frames` of the arrivals, or None without a capture. `told` says what was
    done to the capture, `missing` what of a configuration has an effect and is not played.

    Use it in a `with`: what was played and converted lies in a folder that is gone after it, unless it is kept.
    """

    def __init__(self, args):
        self.args = args
        self.configs, self.captures = configs_of(args), captures_of(args)
        self.folder = args.keep or tempfile.mkdtemp(prefix="altqwork-")
        try:
            os.makedirs(self.folder, exist_ok=True)
            self.inputs = self.all_inputs()
            with ThreadPoolExecutor() as pool:
                self.sides = list(pool.map(self.side, range(len(self.configs))))
            same_arrivals(self.sides)
            self.told = told_of(self.configs, self.inputs)
            self.missing = [f"{config}: {text}" for (_label, config), one in zip(self.configs, self.inputs)
                            for text in [one.not_understood()] if text]
            self.frames = frames_of(self.inputs[0].shown) if self.captures else None
        except BaseException:
            self.close()
            raise
        if self.frames and len(self.sides[0]) and self.sides[0].number[-1] > len(self.frames):
            raise Refused(f"{', '.join(self.captures)}: {len(self.frames)} records, and packet {self.sides[0].number[-1]} has a fate")

    def all_inputs(self):
        """What is played of each configuration. The captures are converted once."""
        args = self.args
        found: list[operator_inputs.Prepared] = []
        for label, config in self.configs:
            folder = os.path.join(self.folder, label)
            lengths = {} if found else {"overhead": args.overhead, "atm": args.atm, "snap": args.snap}
            options = operator_inputs.Options(args.bandwidth, args.default, args.kind, args.address, program=args.program, **lengths)
            captures = [found[0].shown] if found and self.captures else self.captures
            if captures:
                found.append(operator_inputs.prepared(config, args.interface, captures, folder, args.marks, options))
            else:
                found.append(operator_inputs.without_captures(config, args.interface, args.marks, options))
        return found

    def conf_file(self, number, folder):
        """The altq.conf of a play: the one that was given, or one made of what was given."""
        config, text = self.configs[number][1], self.inputs[number].conf_text
        if config != "-" and importing.read(config) == text:
            return config
        made = os.path.join(folder, "altq.conf")
        if config != "-" and os.path.exists(made) and os.path.samefile(made, config):
            raise Refused(f"{made}: the configuration itself would be written over")
        with open(made, "w", encoding="utf-8") as file:
            file.write(text)
        return made

    def side(self, number):
        """The play of a configuration: made now, or read."""
        label, given = self.configs[number][0], self.inputs[number]
        folder = os.path.join(self.folder, label)
        os.makedirs(folder, exist_ok=True)
        config = self.conf_file(number, folder)
        interface = read_conf(config, given.interface, self.args.program)
        if self.args.fates:
            fates = self.args.fates[number]
        else:
            fates = play(config, interface.name, given.arrivals, folder, self.args.seed, self.args.program).fates
        return Side(label, interface, read_fates(fates), self.args.allow)

    def close(self):
        if not self.args.keep:
            shutil.rmtree(self.folder, ignore_errors=True)

    def __enter__(self):
        return self

    def __exit__(self, *_fault):
        self.close()


def told_of(configs, inputs):
    """What was done to the captures for the plays: what is said of one alone names it."""
    first = inputs[0].told
    alone = [f"{label}: {line}" for (label, _config), one in zip(configs, inputs) for line in one.told if not all(line in other.told for other in inputs)]
    return [line for line in first if all(line in other.told for other in inputs[1:])] + alone if len(inputs) > 1 else first


def configs_of(args):
    """The configurations that the words name, each with its label."""
    if args.config and not (args.before or args.after):
        found = [("play", args.config)]
    elif args.before and args.after and not args.config:
        found = [("before", args.before), ("after", args.after)]
    else:
        raise Refused("name one configuration by --config, or two by --before and --after")
    if args.fates and len(args.fates) != len(found):
        raise Refused(f"{len(args.fates)} fates for {len(found)} configurations")
    if not args.fates and not captures_of(args):
        raise Refused("name a capture of the arrivals, or the fates of a play by --fates")
    return found

"""Plays a capture on one link and what leaves that on a second one, say that of the provider: what each class meets on both.

    altqwork chain --config pf.conf --next provider.conf lan.pcap
    altqwork chain --config today.conf --next 'police 18M burst 60k' --want 'voice drop=0' --page page.html lan.pcap

Both configurations may be an altq.conf, a pf.conf or lines of tc, and the capture of any kind. Packets keep the class that they have
on the first link. Of each class it says how many packets each link drops, and of those that both send the delay, from the
arrival on the first to the end on the second. Each --want is judged behind the first link and behind both. --page writes the page
of `report`, in which the second play is that over both links; --keep keeps the files of both plays.

`police RATE burst SIZE` is a policer: it is played as a link of that rate with a queue of that burst, counted in longest packets sent,
and SIZE is bytes, of which k and m are 1,000 and 1,000,000. A policer delays nothing, so the delays are those behind the first
link. It is a bucket of bytes and not a queue of packets, so how many packets a full bucket at first would drop is told beside.

The exit status is 0 where each --want is kept behind both links, else 1.
"""

from __future__ import annotations

import copy
import os
import re
from argparse import ArgumentParser, Namespace
from dataclasses import dataclass
from typing import Any, Optional

import numpy

from . import page, plays, wants
from .captures import Record, write_ethernet
from .delays import ranks
from .faults import Refused
from .path import DELAYS, PARTS
from .report import span
from .rows import read_fates
from .rules.meters import GREEN, Meter, MeterRule
from .texts import Times, add_times, aligned
from .written import new_file

NAME = "chain"
HELP = "two links in a row, or a link and a policer: what each class meets on both"
POLICER = re.compile(r"police\s+(\d+(?:\.\d+)?)([KMGkmg]?)(?:bit)?\s+burst\s+(\d+)([KMkm]?)b?\Z")
SCALE = {"": 1, "k": 1000, "m": 10**6, "g": 10**9}
LABELS = ("first", "both")
OF_FIRST = ("before", "after", "fates")  # words of other subcommands that name plays, which have no place here


def add_arguments(parser: ArgumentParser) -> None:
    plays.add_arguments(parser)
    parser.add_argument("--next", dest="second", required=True, metavar="FILE", help="the configuration of the second link, or 'police RATE burst SIZE'")
    parser.add_argument("--next-interface", metavar="NAME", help="the interface of the second link; not needed where its configuration has one")
    parser.add_argument("--page", metavar="FILE", help="also writes a page, HTML")
    wants.add_wants(parser)
    add_times(parser)


@dataclass(frozen=True)
class Policer:
    """A policer: bits per second, and the bytes that its bucket holds."""

    rate: int
    burst: int

    def passes(self, moments: list[int], lengths: list[int]) -> numpy.ndarray:
        """Which packets its bucket, full at first, lets pass, each at its moment."""
        meter = Meter(MeterRule(None, 0, self.rate, self.burst, 1))
        return numpy.array([meter.colour(moment, length) == GREEN for moment, length in zip(moments, lengths)], dtype=bool)

    def limit(self, longest: int) -> int:
        """How many longest packets its burst holds, at least one."""
        return max(1, self.burst // max(longest, 1))

    def text(self, longest: int) -> str:
        """The configuration of the link that is played in its place."""
        return (f"interface policer bandwidth {self.rate} hfsc\nclass hfsc policer root NULL pshare 100\n"
                f"class hfsc policer all root pshare 100 qlimit {self.limit(longest)} default\n")


def policer_of(text: str) -> Optional[Policer]:
    """The policer of a text; None where it is the name of a file."""
    match = POLICER.match(text)
    if match is None:
        if text.startswith("police "):
            raise Refused(f"--next {text!r}: a policer is 'police RATE burst SIZE', as 'police 18M burst 60k'")
        return None
    whole, _point, part = match[1].partition(".")
    scale = SCALE[match[2].lower()]
    if len(part) > len(str(scale)) - 1:
        raise Refused(f"--next {text!r}: the rate is no whole number of bits per second")
    rate, burst = (int(whole) * scale + int(part or 0) * scale // 10 ** len(part)), int(match[3]) * SCALE[match[4].lower()]
    if not rate or not burst:
        raise Refused(f"--next {text!r}: rate and burst are above 0")
    return Policer(rate, burst)


class Over:
    """The play of a first link and what becomes of its packets over both, as `plays.Side` sees fates; its numbers are those of the capture."""

    def __init__(self, first: Any, second: Any, is_policed: bool) -> None:
        sent = numpy.flatnonzero(first.is_sent)  # in the order of the file, so the k-th is packet k of the second
        at = sent[second.number - 1]
        self.number, self.arrival, self.length, self.of_class, self.classes = first.number, first.arrival, first.length, first.of_class, first.classes
        self.fates = list(dict.fromkeys([*first.fates, *second.fates]))
        codes = numpy.array([self.fates.index(fate) for fate in second.fates], dtype=first.of_fate.dtype)
        self.of_fate, self.is_sent, self.start, self.end = (values.copy() for values in (first.of_fate, first.is_sent, first.start, first.end))
        self.of_fate[at], self.is_sent[at] = codes[second.of_fate], second.is_sent
        if not is_policed:
            self.start[at], self.end[at] = second.start, second.end
        self.start[~self.is_sent], self.end[~self.is_sent] = -1, -1

    def __len__(self) -> int:
        return len(self.number)

    def class_is(self, name: str) -> numpy.ndarray:
        """Which rows are of a class."""
        return self.of_class == self.classes.index(name) if name in self.classes else self.of_class < -1


def without_promises(interface: Any) -> Any:
    """An interface of whose curves nothing is asked, since a second link keeps none of them."""
    found = copy.copy(interface)
    found.promised = lambda _name: None
    return found


class Chain:
    """Both plays: `sides` behind the first link and behind both, with what a page asks of a question. Use it in a `with`."""

    def __init__(self, args: Namespace) -> None:
        self.policer, self.second_question = policer_of(args.second), None
        if any(getattr(args, word) for word in OF_FIRST):
            raise Refused("name the first link by --config and the second by --next")
        self.question = plays.Question(args)
        try:
            self.folder, self.told, self.frames = self.question.folder, list(self.question.told), self.question.frames
            self.first = read_fates(os.path.join(self.folder, "play", "fates.csv"))
            longest = self.question.sides[0].longest
            self.second_question = plays.Question(self.second_args(args, longest))
            self.missing = [*self.question.missing, *self.second_question.missing]
            second = read_fates(os.path.join(self.folder, "next", "play", "fates.csv"))
            self.over = Over(self.first, second, self.policer is not None)
            self.policed = self.bucket()
            interface = without_promises(self.question.sides[0].interface)
            self.sides = [plays.Side(label, interface, fates, 0) for label, fates in zip(LABELS, (self.first, self.over))]
            self.configs = [(LABELS[0], args.config), (LABELS[1], args.second)]
            self.told += self.policer_told(longest) if self.policer else []
        except BaseException:
            self.close()
            raise

    def second_args(self, args: Namespace, longest: int) -> Namespace:
        """The words of the second play."""
        folder = os.path.join(self.folder, "next")
        os.makedirs(folder, exist_ok=True)
        config = args.second
        if self.policer:
            config = os.path.join(folder, "policer.conf")
            with open(config, "w", encoding="ascii") as file:
                file.write(self.policer.text(longest))
        return Namespace(**{**vars(args), "config": config, "interface": args.next_interface, "captures": [self.departures()], "arrivals": None,
                            "keep": folder, "overhead": 0, "atm": False, "kind": None, "marks": []})

    def departures(self) -> str:
        """The capture of what left the first link: that of the program, or of the frames that came where another was played."""
        given = self.question.inputs[0]
        if given.arrivals == given.shown:
            return os.path.join(self.folder, "play", "departures.pcap")
        made, frames, rows = os.path.join(self.folder, "left.pcap"), self.frames, numpy.flatnonzero(self.first.is_sent)
        write_ethernet(made, (self.left(frames, int(row)) for row in rows))
        return made

    def left(self, frames: Any, row: int) -> Record:
        """The frame of a row that left, with its end as its stamp."""
        number = int(self.question.inputs[0].numbers[self.first.number[row]])
        at = frames.places[number - 1] + 16
        return Record(int(self.first.end[row]), frames.data[at:at + frames.captured[number - 1]], int(self.first.length[row]), 1)

    def bucket(self) -> numpy.ndarray:
        """Which rows of the first link's fates a policer's bucket drops."""
        found, rows = numpy.zeros(len(self.first), dtype=bool), numpy.flatnonzero(self.first.is_sent)
        if self.policer:
            found[rows] = ~self.policer.passes(self.first.end[rows].tolist(), self.first.length[rows].tolist())
        return found

    def policer_told(self, longest: int) -> list[str]:
        """What is played in the place of a policer, and what the policer itself would do."""
        policer, here = self.policer, self.first.is_sent & ~self.over.is_sent
        assert policer is not None
        both = int((self.policed & here).sum())
        return [f"the policer is played as a link of {policer.rate} bit/s with a queue of {policer.limit(longest)} packets, which holds"
                f" {policer.burst} bytes in packets of {longest}",
                f"a true policer is a bucket of {policer.burst} bytes: short packets take less of it, and as much of a queue as long ones do. It drops"
                f" {int(self.policed.sum())} packets (the column bucket), of which the queue drops {both}; the queue drops {int(here.sum()) - both} others",
                "a policer delays nothing that passes: delays are those behind the first link"]

    def close(self) -> None:
        """Removes what was made, unless it is kept."""
        self.question.close()

    def __enter__(self) -> Chain:
        return self

    def __exit__(self, *_fault: Any) -> None:
        self.close()


def class_rows(chain: Chain, times: Times) -> list[list[str]]:
    """The rows of the table: of each class packets, drops on each link, and delays over both."""
    first, both = chain.sides
    policed = chain.policed[numpy.argsort(chain.first.number, kind="stable")]
    rows = [[f"times in {times.unit}", "packets", "dropped1", "dropped2", *(["bucket"] if chain.policer else []), "sent", *DELAYS]]
    for name in plays.class_names(chain.sides):
        own = first.class_is(name)
        sent = own[both.is_sent[own]]
        lost = int((~first.is_sent[own]).sum())
        counts = [len(own), lost, len(own) - lost - len(sent), *([int(policed[own].sum())] if chain.policer else []), len(sent)]
        rows.append([name, *map(str, counts), *(times.number(delay) for delay in ranks(both.end[sent] - both.arrival[sent], PARTS))])
    return rows


def run(args: Namespace) -> int:
    if args.page and not args.page.endswith((".html", ".htm")):
        raise Refused(f"{args.page}: the page is HTML, and its name ends in .html")
    times = Times(args.ns)
    with Chain(args) as chain:
        verdicts = wants.of_sides(args.wants, chain.sides)
        lines = [*chain.told, *chain.missing, *aligned(class_rows(chain, times)), *wants.lines([side.label for side in chain.sides], verdicts, times)]
        print("\n".join(lines))
        if args.page:
            spans = [span(side, None, None) for side in chain.sides]
            text = page.html(chain, verdicts, times, None, (min(begin for begin, _end in spans), max(end for _begin, end in spans)))
            with new_file(args.page, "w", encoding="utf-8") as file:
                file.write(text)
        return 0 if wants.all_kept(verdicts) else 1

"""Finds the values of one option with which a play keeps what is asked for: the least, the greatest, and the greatest that fits.

    altqwork find today.conf --class voip --set 'rt=?' --want 'voip delay<10ms' monday.pcap
    altqwork find today.conf --class bulk --set 'ul=?' --want 'voip delay<10ms' --want 'bulk rate>=1M' monday.pcap tuesday.pcap

`?` stands for the number that is sought: of `rt`, `ls`, `sc` and `ul` the rate of a line, or one number of a curve of two slopes, as
?/10/1500K; of `exactbandwidth`, `pbandwidth`, `pshare`, `priority` and `qlimit` the value; with `bandwidth=?` no class is named. A
value keeps what is asked for where each --want is kept in the play of each capture.

Some values over the whole range are played first, then those between one that keeps it and a neighbour that does not, by halving
or, on several processors, in as many parts; so of the two values told at an edge both were played, and of those far from an
edge most were not. Rates go in steps of the link's rate by 1,000 or less, times in milliseconds. Of `rt` and `sc`, `check` also
tells the greatest value that fits: up to it the due moments hold in every capture. The exit status is 0 where a value keeps it,
and 1 where none of those that were played does.
"""

from __future__ import annotations

import os
import re
import tempfile
from argparse import ArgumentParser, Namespace
from collections.abc import Callable, Iterable, Sequence
from concurrent.futures import ProcessPoolExecutor
from dataclasses import dataclass
from typing import Optional

from . import wants
from .conf import Interface, interface_named, read_conf
from .faults import Refused
from .play import add_program, play, program
from .rows import read_fates
from .sweep import CURVES, VALUES, changed
from .texts import Times, add_times

NAME = "find"
HELP = "the least and the greatest value of an option that keeps what is asked for"
FORM = re.compile(r"(?:(\S+)\s+)?(\w+)=(\S+)\Z")
PARTS = 1000  # steps in which a rate goes up to the link's
RANGES = {"pbandwidth": range(1, 101), "pshare": range(1, 101), "priority": range(8), "qlimit": range(1, 10_001)}
TIMES_OF_CURVES = range(1, 1001)  # milliseconds
FIRST = 8  # values that are played first, at least


def add_arguments(parser: ArgumentParser) -> None:
    parser.add_argument("--class", dest="of", metavar="NAME", help="the class whose option is sought")
    parser.add_argument("--set", dest="setting", required=True, metavar="'WORD=?'", help="the option, with ? in the place of the number that is sought")
    wants.add_wants(parser)
    parser.add_argument("--seed", type=int, default=42, metavar="N", help="the seed of the plays, 42 by default")
    parser.add_argument("--jobs", type=int, metavar="N", help="how many plays at a time; all processors by default")
    add_program(parser)
    add_times(parser)
    parser.add_argument("config", metavar="CONFIG", help="the configuration")
    parser.add_argument("arrivals", nargs="+", metavar="CAPTURE", help="the captures")


@dataclass(frozen=True)
class Sought:
    """What is sought: a class's option, or of None the interface's, with `?` in its value."""

    of: Optional[str]
    option: str
    form: str

    def is_time(self) -> bool:
        """Whether the number is a curve's time in milliseconds."""
        return self.option in CURVES and self.form.split("/")[1:2] == ["?"]

    def is_rate(self) -> bool:
        """Whether the number is bits per second."""
        return self.option in (*CURVES, "bandwidth", "exactbandwidth") and not self.is_time()

    def values(self, bandwidth: int) -> Sequence[int]:
        """The values that may be played, in rising order."""
        if self.is_time():
            return TIMES_OF_CURVES
        if not self.is_rate():
            return RANGES[self.option]
        step = 1000
        while step * 10 * PARTS <= bandwidth:
            step *= 10
        most = 10 * bandwidth if self.option == "bandwidth" else bandwidth
        return range(step, max(most, step) + 1, step)

    def text(self, value: int) -> str:
        """A value as a configuration says it."""
        if not self.is_rate():
            return str(value)
        size, letter = (10**6, "M") if value >= 10**6 else (1000, "K")
        whole, rest = divmod(value, size)
        return (f"{whole}.{rest * 1000 // size:03}".rstrip("0").rstrip(".") if rest else str(whole)) + letter

    def setting(self, value: int) -> tuple[tuple[Optional[str], str], str]:
        """A setting as `sweep.changed` takes it."""
        return (self.of, self.option), self.form.replace("?", self.text(value))

    def told(self, value: int) -> str:
        """A value in words."""
        return f"{self.option}={self.form.replace('?', self.text(value))}"


def sought_of(text: str, of: Optional[str]) -> Sought:
    """What the words ask for. `Refused` where they do not name one option and one number of it."""
    match = FORM.match(text)
    if match is None or match[2] not in (*CURVES, *VALUES, "bandwidth") or match[3].split("/").count("?") != 1 or match[3].count("?") != 1:
        raise Refused(f"--set {text!r}: not WORD=? with rt, ls, sc, ul, {', '.join(VALUES)} or bandwidth, nor a curve as ?/10/1500K")
    of = match[1] or of
    if match[3].count("/") not in ((0, 2) if match[2] in CURVES else (0,)):
        raise Refused(f"--set {text!r}: a curve is a rate, or m1/d/m2 as ?/10/1500K")
    if (of is None) != (match[2] == "bandwidth"):
        raise Refused(f"--set {text!r}: name the class by --class" if of is None else f"--set {text!r}: the bandwidth is of no class")
    return Sought(of, match[2], match[3])


@dataclass(frozen=True)
class Probe:
    """One value that is played: the text of its configuration, and what is asked of it."""

    text: str
    interface: str
    captures: tuple[str, ...]
    seed: int
    program: str
    wants: tuple[wants.Want, ...]


@dataclass(frozen=True)
class Answer:
    """What plays make of a value: the verdicts by capture and want, or why the program refuses it."""

    verdicts: tuple[wants.Verdict, ...]
    fault: str = ""

    @property
    def is_kept(self) -> bool:
        """Whether all is kept that is asked for."""
        return not self.fault and all(verdict.state == wants.KEPT for verdict in self.verdicts)

    def worst(self) -> Optional[wants.Verdict]:
        """The first verdict that is not kept, or the first of all."""
        return next((verdict for verdict in self.verdicts if verdict.state != wants.KEPT), self.verdicts[0] if self.verdicts else None)

    def told(self, times: Times) -> str:
        """The answer in words."""
        verdict = self.worst()
        return self.fault if verdict is None else f"{verdict.want.text} {verdict.told(times)}"


def played(probe: Probe) -> Answer:
    """The answer of a value. It is called in another process."""
    found: list[wants.Verdict] = []
    with tempfile.TemporaryDirectory(prefix="altqwork-") as folder:
        config = os.path.join(folder, "altq.conf")
        with open(config, "w", encoding="ascii", errors="replace") as file:
            file.write(probe.text)
        try:
            for capture in probe.captures:
                fates = read_fates(play(config, probe.interface, capture, folder, probe.seed, probe.program).fates)
                for want in probe.wants:
                    own = fates.class_is(want.of)
                    found.append(wants.judged(want, fates.arrival[own], fates.end[own], fates.length[own], fates.is_sent[own]))
        except Refused as fault:
            return Answer((), str(fault))
    return Answer(tuple(found))


class Search:
    """The values that were played, by place, and those that are asked for next. `ask(places)` plays some."""

    def __init__(self, count: int, jobs: int, ask: Callable[[list[int]], list[Answer]]) -> None:
        self.count, self.jobs, self.ask = count, jobs, ask
        self.answers: dict[int, Answer] = {}

    def look(self, places: Iterable[int]) -> None:
        """Plays those of some places that were not played."""
        missing = sorted({place for place in places if place not in self.answers})
        self.answers.update(zip(missing, self.ask(missing)))

    def first(self) -> None:
        """Plays values over the whole range, nearer to each other where they are small."""
        count = max(FIRST, self.jobs)
        self.look({0, self.count - 1, *(min(round(self.count ** (part / (count - 1))) - 1, self.count - 1) for part in range(count))})

    def kept(self) -> list[int]:
        """The places played that keep it, in rising order."""
        return sorted(place for place, answer in self.answers.items() if answer.is_kept)

    def edge(self, up: bool) -> tuple[int, Optional[int]]:
        """The least place that keeps it, or with `up` the greatest, and its neighbour that does not, None where there is none."""
        while True:
            kept = self.kept()[-1 if up else 0]
            beyond = [place for place in self.answers if (place > kept if up else place < kept)]
            if not beyond:
                return kept, None
            broken = min(beyond) if up else max(beyond)
            gap = abs(kept - broken)
            if gap == 1:
                return kept, broken
            parts = min(self.jobs + 1, gap)
            low = min(kept, broken)
            self.look(low + gap * part // parts for part in range(1, parts))


def greatest_fit(count: int, fits: Callable[[int], bool]) -> Optional[int]:
    """The greatest place that fits, where all below one that fits do; None where none does."""
    low, high = -1, count
    while high - low > 1:
        middle = (low + high) // 2
        low, high = (middle, high) if fits(middle) else (low, middle)
    return None if low < 0 else low


class Finder:
    """A question: the configuration, what is sought in it, and the values it may take."""

    def __init__(self, args: Namespace) -> None:
        self.sought, self.args = sought_of(args.setting, args.of), args
        if not args.wants:
            raise Refused("name what is asked for by --want")
        self.name = interface_named(args.config, args.interface)
        self.today: Interface = read_conf(args.config, self.name, args.program)
        wants.known(args.wants, self.today.classes)
        with open(args.config, encoding="ascii", errors="replace") as file:
            self.text = file.read()
        self.values = self.sought.values(self.today.bandwidth)
        self.program = os.path.abspath(program(args.program))

    def config(self, place: Optional[int]) -> str:
        """The text with the value of a place; today's for None."""
        settings = [] if place is None else [self.sought.setting(self.values[place])]
        return changed(self.text, self.name, settings, self.args.config)

    def probe(self, place: Optional[int]) -> Probe:
        """A value as it is played."""
        captures = tuple(os.path.abspath(name) for name in self.args.arrivals)
        return Probe(self.config(place), self.name, captures, self.args.seed, self.program, tuple(self.args.wants))

    def told(self, place: int) -> str:
        """The value of a place in words."""
        return self.sought.told(self.values[place])

    def fit(self) -> Optional[int]:
        """The place of the greatest value that fits."""
        with tempfile.TemporaryDirectory(prefix="altqwork-") as folder:
            config = os.path.join(folder, "altq.conf")

            def fits(place: int) -> bool:
                with open(config, "w", encoding="ascii", errors="replace") as file:
                    file.write(self.config(place))
                try:
                    return read_conf(config, self.name, self.program).fit == "fits"
                except Refused:
                    return False

            return greatest_fit(len(self.values), fits)


def edge_lines(finder: Finder, search: Search, times: Times) -> list[str]:
    """The lines on the least and on the greatest value that keeps it."""
    lines = []
    for up, what in ((False, "least"), (True, "greatest")):
        kept, broken = search.edge(up)
        if broken is None:
            lines.append(f"{finder.told(kept)} keeps it, the {what} that was tried: {search.answers[kept].told(times)}")
        else:
            lines.append(f"{finder.told(kept)} is the {what} that keeps it: {search.answers[kept].told(times)}")
            lines.append(f"  {finder.told(broken)} does not: {search.answers[broken].told(times)}")
    return lines


def fit_lines(finder: Finder, least: Optional[int]) -> list[str]:
    """The lines on what fits; `least` is the place of the least value that keeps it."""
    if finder.sought.option not in ("rt", "sc") or finder.today.discipline != "hfsc":
        return []
    fit = finder.fit()
    if fit is None:
        return ["no value fits: the curves of the others exceed the link"]
    what = "" if least is None else ", less than what keeps it: the want is kept in these captures, and promised in none" if fit < least else ""
    return [f"{finder.told(fit)} is the greatest that fits{what}"]


def run(args: Namespace) -> int:
    finder, times, jobs = Finder(args), Times(args.ns), max(1, args.jobs or os.cpu_count() or 1)
    with ProcessPoolExecutor(jobs) as pool:
        today = pool.submit(played, finder.probe(None)).result()
        if today.fault:
            raise Refused(today.fault)
        search = Search(len(finder.values), jobs, lambda places: list(pool.map(played, [finder.probe(place) for place in places])))
        search.first()
        lines = [f"as it is: {today.told(times)}"]
        kept = search.kept()
        if kept:
            lines += edge_lines(finder, search, times)
        else:
            tried = sorted(search.answers)
            best = min(tried, key=lambda place: (bool(search.answers[place].fault), breaking(search.answers[place])))
            lines.append(f"none of {len(tried)} values from {finder.told(tried[0])} to {finder.told(tried[-1])} keeps it;"
                         f" the fewest break it with {finder.told(best)}: {search.answers[best].told(times)}")
    print("\n".join(lines + fit_lines(finder, search.edge(False)[0] if kept else None)))
    return 0 if kept else 1


def breaking(answer: Answer) -> int:
    """How many packets break what is asked for."""
    return sum(verdict.breaking for verdict in answer.verdicts)

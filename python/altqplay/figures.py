"""The figures of HFSC, RED, RIO and CBQ, each a function with parameters: its plays, its numbers and its picture.

    from altqplay import figures
    figures.hfsc_delay(video="4M 20 2M")

docs/teaching/FIGURES.md says what each figure shows, and what differs from the papers. Rates and curves are words of a configuration, as `8M`
and `6.6M 10 2M`. Pictures need plotly.
"""

from __future__ import annotations

from typing import Any, Callable, Iterable, Mapping, Optional, Sequence

import numpy
import pandas

from .playing import Play, play
from .workbench import figure_numbers as numbers
from .workbench import figure_plays as plays
from .workbench.figure_plays import IN, LEAVES, MILLISECOND, SECOND
from .workbench.rows import Fate, fate_rows

AGENCY_TITLES = {"none": "no class may borrow", "agency": "classes borrow from their agency", "link": "agencies borrow from the link too"}
SPANS = ((0, 100), (100, 150), (150, 200))  # milliseconds of hfsc_return

Line = tuple[str, str, Sequence[float], Sequence[float]]  # a panel's title, a name, and the places of its points


class Figure:
    """A figure that was played: `title`, `plays` by name, `table`, its numbers, and `picture()`, which a notebook shows.

    `lines` are the lines of the picture, each with its panel's title, its name and its points.
    """

    def __init__(self, title: str, plays: dict[str, Play], table: pandas.DataFrame, lines: Sequence[Line], axes: tuple[str, str]) -> None:
        self.title, self.plays, self.table, self.lines, self.axes = title, plays, table, lines, axes

    def __repr__(self) -> str:
        return f"{self.title}\n{self.table.to_string(index=False)}"

    def picture(self) -> Any:
        """The picture, of plotly: panels beside each other, a line or points for each name."""
        from plotly import graph_objects, subplots

        titles = list(dict.fromkeys(line[0] for line in self.lines))
        names = list(dict.fromkeys(line[1] for line in self.lines))
        drawn = subplots.make_subplots(1, len(titles), subplot_titles=titles)
        for title, name, across, up in self.lines:
            look = {"color": COLOURS[names.index(name) % len(COLOURS)]}
            drawn.add_trace(graph_objects.Scatter(x=list(across), y=list(up), name=name, legendgroup=name, mode="markers" if name in POINTS else "lines", line=look,
                                                  marker=look, showlegend=title == next(one[0] for one in self.lines if one[1] == name)), 1, titles.index(title) + 1)
        drawn.update_layout(title=self.title, template="plotly_white")
        return drawn.update_xaxes(title=self.axes[0]).update_yaxes(title=self.axes[1], rangemode="tozero", col=1)

    def _ipython_display_(self) -> None:
        from IPython.display import display

        display(self.table, self.picture())


# Tellable apart by the colour-blind (Okabe and Ito).
COLOURS = ("#0072b2", "#d55e00", "#009e73", "#cc79a7", "#000000", "#56b4e9")
POINTS = ("early drops", "forced drops", "full drops", "one-slope", "two-slopes")


def played(made: Iterable[plays.Play], seed: int, program: Optional[str]) -> tuple[dict[str, Play], dict[str, list[Fate]]]:
    """The plays by name, and the rows of their fates."""
    found = {}
    for one in made:
        times, lengths, ports, services = zip(*one.frames)
        packets = pandas.DataFrame({"time_ns": times, "length": lengths, "port": ports, "tos": services})
        found[one.name] = play(one.configuration, packets, seed, program=program)
    return found, {name: list(fate_rows(one.fates_file)) for name, one in found.items()}


def sums(rows: Sequence[Fate], name: str, moments: Sequence[int]) -> list[float]:
    """What a class was sent up to some moments, in thousands of bytes."""
    own = numbers.sent(rows, name)
    ends, totals = [one.end for one in own], numpy.concatenate([[0], numpy.cumsum([one.length for one in own])])
    return [int(totals[numbers.packets_until(ends, moment)]) / 1000 for moment in moments]


def hfsc_delay(video: str = "6.6M 10 2M", ftp: str = "0 6 8M", length: int = 1250, *, seed: int = 42, program: Optional[str] = None) -> Figure:
    """Delay and bandwidth are decoupled (Stoica, Zhang and Ng 1997): a frame of video each 33 ms beside a transfer of packets of some bytes,
    on 10 Mbit/s. `two-slopes` has the curves that are given, `one-slope` their rates in the long run.

    >>> hfsc_delay(video="4M 20 2M").table["greatest"].tolist()
    [32200000, 15600000]
    """
    found, rows = played(plays.hfsc_delay(video, ftp, length), seed, program)
    took = {name: numbers.frames(own, "video") for name, own in rows.items()}
    table = pandas.DataFrame([[name, min((t for _at, t in took[name]), default=None), max((t for _at, t in took[name]), default=None),
                               *(numbers.bytes_until(own, leaf, SECOND) for leaf in ("video", "ftp"))] for name, own in rows.items()],
                             columns=["play", "least", "greatest", "video", "ftp"])
    lines = [("delay of each video frame, ms", name, [at / MILLISECOND for at, _t in own], [t / MILLISECOND for _at, t in own]) for name, own in took.items()]
    moments = range(0, SECOND + 1, 20 * MILLISECOND)
    lines += [("sent, kB", f"{leaf}, {name}", [at / MILLISECOND for at in moments], sums(own, leaf, moments)) for name, own in rows.items() for leaf in ("video", "ftp")]
    return Figure(f"video {video}, ftp {ftp}: what a frame takes, and what was sent in a second", found, table, lines, ("time, ms", ""))


def hfsc_return(a: str = "4M", b: str = "4M", *, seed: int = 42, program: Optional[str] = None) -> Figure:
    """A class that used what others left is not punished when they return (the same paper): `a` always waits, `b` from 100 ms on, on
    8 Mbit/s. The second side is not a play: it is computed as if the least deadline went first.

    >>> hfsc_return().table.values.tolist()[1][-4:]
    [0, 50, 25, 25]
    """
    found, rows = played(plays.hfsc_return(a, b), seed, program)
    own = rows["returning"]
    sides = {"HFSC": {name: [fate.end for fate in numbers.sent(own, name)] for name in ("a", "b")},
             "least deadline first": numbers.earliest_deadline(own, {"a": plays.rate_of(a), "b": plays.rate_of(b)})}
    until: Callable[[list[int], int], int] = lambda ends, ms: numbers.packets_until(ends, ms * MILLISECOND)
    table = pandas.DataFrame([[side, *(until(ends[name], end) - until(ends[name], begin) for begin, end in SPANS for name in ("a", "b"))] for side, ends in sides.items()],
                             columns=["scheduler", *(f"{name}, {begin}-{end} ms" for begin, end in SPANS for name in ("a", "b"))])
    lines = [(side, f"class {name}", range(301), [until(ends[name], ms) for ms in range(301)]) for side, ends in sides.items() for name in ("a", "b")]
    return Figure(f"a {a}, b {b}: packets sent", found, table, lines, ("time, ms", "packets sent"))


def red_average(least: int = 9, most: int = 19, starts: Sequence[int] = (0, 203, 411, 617), qlimit: int = 100, *, seed: int = 42, program: Optional[str] = None) -> Figure:
    """The average follows the queue slowly, and drops follow the average (Floyd and Jacobson 1993): senders whose windows go as a saw
    from `least` to `most`, which start at some milliseconds, into one queue with `red` on 8 Mbit/s. `disagree` counts fates that the
    average does not allow.

    >>> red_average().table[["packets", "early", "forced", "full"]].values.tolist()
    [[3968, 367, 28, 0]]
    """
    found, rows = played(plays.red_average(least, most, starts, qlimit), seed, program)
    own = numbers.red_averages(rows["red"])
    drops = {kind: [one for one in own if one[3] == kind] for kind in ("early", "forced", "full")}
    values: dict[str, Any] = {"packets": len(own), **{kind: len(some) for kind, some in drops.items()}, "most waiting": max((one[1] for one in own), default=0),
                              "greatest average": max((one[2] for one in own), default=0) / numbers.PACKET,
                              "first early": drops["early"][0][0] if drops["early"] else None,
                              "disagree": sum(not numbers.agrees(one[2], one[3]) for one in own)}
    at = [one[0] / MILLISECOND for one in own]
    lines: list[Line] = [("", "packets that wait", at, [one[1] for one in own]), ("", "RED's average", at, [one[2] / numbers.PACKET for one in own])]
    lines += [("", f"threshold {limit}", [0, 4000], [limit, limit]) for limit in (5, 15)]
    lines += [("", f"{kind} drops", [one[0] / MILLISECOND for one in some], [one[2] / numbers.PACKET for one in some]) for kind, some in drops.items() if some]
    return Figure(f"{len(starts)} senders, windows {least} to {most}: the queue and RED's average", found, pandas.DataFrame([values]), lines, ("time, ms", "packets"))


def rio_drops(loads: Sequence[int] = range(80, 210, 10), inside: int = 6, qlimit: int = 200, *, seed: int = 42, program: Optional[str] = None) -> Figure:
    """Packets within the profile are dropped last (Clark and Fang 1998): loads in percent of 8 Mbit/s, so many tenths of each in profile,
    into RED and into RIO. The numbers are percent of the packets of their kind that were dropped.

    >>> rio_drops([120]).table.values.tolist()
    [[120.0, 17.0, 16.0, 0.0, 42.3]]
    """
    made = plays.rio_drops(loads, inside, qlimit)
    found, rows = played(made, seed, program)
    kinds = {one.name: {number for number, frame in enumerate(one.frames, 1) if frame[3] == IN} for one in made}
    percent = {name: [tenths / 10 for tenths in numbers.percent_dropped(own, kinds[name])] for name, own in rows.items()}
    columns = [(rule, place) for rule in ("red", "rio") for place in (0, 1)]
    table = pandas.DataFrame([[load, *(percent[f"{rule}-{load}"][place] for rule, place in columns)] for load in loads],
                             columns=["load", *(f"{rule.upper()} {('in', 'out')[place]}" for rule, place in columns)])
    lines = [(rule.upper(), ("in profile", "out of profile")[place], list(loads), [percent[f"{rule}-{load}"][place] for load in loads]) for rule, place in columns]
    return Figure(f"{inside} tenths in profile: percent dropped", found, table, lines, ("load, percent of the link", "dropped, percent"))


def cbq_borrowing(a: str = plays.AGENCIES["a"], b: str = plays.AGENCIES["b"], *, rates: Mapping[str, str] = LEAVES, seed: int = 42, program: Optional[str] = None) -> Figure:
    """Link sharing between agencies (Floyd and Jacobson 1995): the agencies `a` and `b` of 8 Mbit/s with two classes each, whose rates
    are `rates`. Each class sends 6 Mbit/s; from 500 ms to 1,500 ms `a1` is silent, from 1,000 to 1,500 ms `a2` too. Numbers are
    thousands of bits per second.

    >>> cbq_borrowing().table.iloc[5].tolist()
    ['agency', 'a2', 1620, 4740, 0, 1600]
    """
    found, rows = played(plays.cbq_borrowing(a, b, **rates), seed, program)
    spans = [(500 * k + 100, 500 * k + 500) for k in range(4)]
    cells = [[name.partition("-")[2], leaf, *(numbers.rates(own, leaf, begin * MILLISECOND, end * MILLISECOND) for begin, end in spans)]
             for name, own in rows.items() for leaf in LEAVES]
    table = pandas.DataFrame(cells, columns=["borrowing", "class", *(f"{begin}-{end} ms" for begin, end in spans)])
    parts = range(0, 2000, 100)
    lines = [(AGENCY_TITLES[name.partition("-")[2]], leaf, [ms + 50 for ms in parts],
              [numbers.rates(own, leaf, ms * MILLISECOND, (ms + 100) * MILLISECOND) / 1000 for ms in parts]) for name, own in rows.items() for leaf in LEAVES]
    return Figure(f"agencies a {a}, b {b}: the rate of each class, Mbit/s", found, table, lines, ("time, ms", "Mbit/s"))

"""Plays of packets over a configuration, by the program, with their results as tables."""

from __future__ import annotations

import argparse
import contextlib
import io
import os
import shutil
import tempfile
from functools import cached_property
from typing import Any, Iterable, Optional

import pandas

from .workbench.captures import records
from .workbench.conf import Interface
from .workbench.delays import RANKS, ranks
from .workbench.plays import Side
from .workbench.rows import read_fates

from . import tables
from .inputs import Conf, Packets, capture_file, conf_file, interface_name
from .running import interface_of, named_alone, run

LEFT = ("departures.pcap", "fates.csv", "stats.csv")


class Text(str):
    """A text that a notebook shows with its lines."""

    def __repr__(self) -> str:
        return str(self)


class Room:
    """A folder for the files of a play, which is gone when nothing uses it any more."""

    def __init__(self) -> None:
        self.held = tempfile.TemporaryDirectory(prefix="altqplay-")
        self.folder = self.held.name

    def path(self, name: str) -> str:
        """A file of the folder."""
        return os.path.join(self.folder, name)


class Play:
    """One play: what was played, and what became of it.

    `config`, `arrivals`, `departures_file`, `fates_file` and `stats_file` are the paths of its files, which are there as long as the
    play is (`save` copies them), `interface` is what the configuration means, `seed` the seed. Moments are nanoseconds since 1970-01-01 00:00:00 UTC, lengths bytes.
    """

    def __init__(self, room: Room, config: str, interface: Interface, arrivals: str, seed: int, program: Optional[str], left: Iterable[str] = LEFT) -> None:
        self.room, self.config, self.interface, self.arrivals, self.seed, self.program = room, config, interface, arrivals, seed, program
        self.departures_file, self.fates_file, self.stats_file = (room.path(name) for name in left)

    def __repr__(self) -> str:
        total = self.stats.iloc[-1]
        return f"<altqplay.Play of {total['arrived']} packets over {self.interface.name}: {total['sent']} sent, seed {self.seed}>"

    @cached_property
    def columns(self) -> Any:
        """The fates in columns of numpy."""
        return read_fates(self.fates_file)

    @cached_property
    def fates(self) -> pandas.DataFrame:
        """A row for each packet in the order of decision: number, arrival, length, class, fate, start and end.

        The moments are exact: `start` and `end` are nullable Int64, `<NA>` where the packet was dropped. pandas' own reading of the
        file makes floats of them as soon as one packet is dropped, and loses up to 241 ns.
        """
        return tables.fates_of(self.columns)

    @cached_property
    def stats(self) -> pandas.DataFrame:
        """A row for each class, and one of the sums, `*`: packets and bytes that arrived and were sent, and drops by reason."""
        return tables.values(self.stats_file)

    @cached_property
    def departures(self) -> pandas.DataFrame:
        """A row for each packet that was sent, in their order: number, end, length and class, and bytes, the frame as it left."""
        sent = self.fates[self.fates["end"].notna()][["number", "end", "length", "class"]].reset_index(drop=True)
        sent["bytes"] = [bytes(one.data) for one in records(self.departures_file)]
        return sent

    @cached_property
    def side(self) -> Side:
        """The play with its due moments, as `altqwork late` has it."""
        return Side("play", self.interface, self.columns)

    def delays(self) -> pandas.DataFrame:
        """A row for each class: packets, dropped, and of those sent the least delay, the median, the one that 99 of a hundred do not
        pass, and the greatest, in nanoseconds. A delay is the end less the arrival."""
        found, side = [], self.side
        for name in side.classes():
            own = side.class_is(name)
            sent = own[side.is_sent[own]]
            found.append([name, len(own), len(own) - len(sent), *ranks(side.end[sent] - side.arrival[sent], RANKS)])
        table = pandas.DataFrame(found, columns=["class", "packets", "dropped", "least", "median", "of99", "greatest"])
        for column in table.columns[1:]:
            table[column] = tables.numbers([None if pandas.isna(value) else int(value) for value in (row[list(table.columns).index(column)] for row in found)])
        return table

    def late(self, allowed: Optional[int] = None) -> pandas.DataFrame:
        """A row for each packet in the order of numbers: number, class, arrival, end, due, missed and late.

        `due` is the due moment by the class's real-time curve (docs/reference/HFSC.md, "Due moments"), `<NA>` where it has none;
        `missed` is the end less that, in nanoseconds. A packet is `late` that misses by more than `allowed` nanoseconds: by default by
        the time of the longest packet sent, rounded up.
        """
        side = self.side if allowed is None else Side("play", self.interface, self.columns, allowed)
        names = [side.class_names[code] for code in side.of_class.tolist()]
        due = [value if there else None for value, there in zip(side.due.tolist(), side.has_due.tolist())]
        missed = [value if there else None for value, there in zip(side.missed.tolist(), side.has_due.tolist())]
        return pandas.DataFrame({"number": side.number, "class": names, "arrival": side.arrival, "end": tables.nullable(side.end, side.is_sent),
                                 "due": tables.numbers(due), "missed": tables.numbers(missed), "late": side.is_late})

    def why(self, number: int, story: bool = True, ns: bool = False) -> Text:
        """What a packet waited for, from its arrival to its end; without `story` the numbers behind its decisions, in nanoseconds.
        `Refused` where there is no such packet."""
        words = ["--packet", str(number), *(["--story"] if story else []), *(["--ns"] if ns else [])]
        return Text(self.told(words))

    def decisions(self) -> pandas.DataFrame:
        """A row for each decision, with the numbers of its class before it (docs/operators/WHY.md has the columns). Moments are
        nanoseconds, counts and totals units, of which a byte has 8,000,000,000; they are exact."""
        name = self.room.path("decisions.csv")
        self.told(["--csv", name])
        return tables.values(name)

    def told(self, words: list[str]) -> str:
        """What `altqwork why` says of this play."""
        from .workbench import why

        parser = argparse.ArgumentParser()
        why.add_arguments(parser)
        named = ["--program", self.program] if self.program else []
        args = parser.parse_args([*words, *named, "--interface", self.interface.name, "--seed", str(self.seed), "--arrivals", self.arrivals, self.fates_file, self.config])
        said = io.StringIO()
        with contextlib.redirect_stdout(said):
            why.run(args)
        return named_alone(said.getvalue().rstrip("\n"))

    def save(self, folder: str) -> None:
        """Copies configuration, arrivals, departures, fates and statistics into a folder."""
        os.makedirs(folder, exist_ok=True)
        names = {self.config: "altq.conf", self.arrivals: "arrivals.pcap", self.departures_file: LEFT[0], self.fates_file: LEFT[1], self.stats_file: LEFT[2]}
        for path, name in names.items():
            shutil.copyfile(path, os.path.join(folder, name))


def play(conf: Conf, packets: Packets, seed: int = 42, *, interface: Optional[str] = None, program: Optional[str] = None) -> Play:
    """Plays packets over a configuration.

    `conf` is the text of an altq.conf or its path (docs/reference/CONFIGURATION.md). `packets` is the path of a capture that the
    program reads, or a DataFrame (`altqplay.inputs.records_of` has its columns). `seed` decides the words that RED and RIO draw.
    `interface` is needed where the configuration has several. `Refused` says what of it the program does not take.

    >>> table = pandas.DataFrame({"time_ns": [0, 0, 10], "length": [1000, 1000, 500]})
    >>> played = play("interface if0 bandwidth 8M hfsc", table)
    >>> played.fates[["number", "fate", "start", "end"]].values.tolist()
    [[1, 'share', 0, 1000000], [2, 'share', 1000000, 2000000], [3, 'share', 2000000, 2500000]]
    """
    return by("play", conf, packets, seed, interface, program)[0]


def by(command: str, conf: Conf, packets: Packets, seed: int, interface: Optional[str], program: Optional[str]) -> tuple[Play, str]:
    """A play by a command of the program, and what it says."""
    room = Room()
    config = conf_file(conf, room.folder)
    name = interface_name(config, interface)
    arrivals = capture_file(packets, room.folder)
    made = Play(room, config, interface_of(config, name, program), arrivals, seed, program)
    said = run([command, *words_of(made)], program)[1]
    return made, said


def words_of(made: Play) -> list[str]:
    """The words that name the files of a play."""
    return ["--config", made.config, "--interface", made.interface.name, "--arrivals", made.arrivals, "--departures", made.departures_file,
            "--fates", made.fates_file, "--stats", made.stats_file, "--seed", str(made.seed)]


def make(count: int, conf: Conf, seed: int = 42, *, interface: Optional[str] = None, program: Optional[str] = None) -> Play:
    """Makes a capture of `count` packets, at most 1,000,000, that follow from the seed, and plays it (docs/reference/FORMATS.md, "The
    capture that make writes").

    >>> made = make(3, "interface if0 bandwidth 8M hfsc")
    >>> made.fates["arrival"].tolist()[0], int(made.fates["end"].max())
    (161783, 2485783)
    """
    room = Room()
    config = conf_file(conf, room.folder)
    made = Play(room, config, interface_of(config, interface_name(config, interface), program), room.path("arrivals.pcap"), seed, program)
    run(["make", "--count", str(count), *words_of(made)], program)
    return made


def shares(conf: Conf, packets: Packets, seed: int = 42, *, interface: Optional[str] = None, program: Optional[str] = None) -> pandas.DataFrame:
    """How far the shares of sibling classes of HFSC lay apart: a row for each pair, `gap` and `bound` in nanoseconds, `<NA>` where
    there is none (docs/teaching/FAIRNESS.md)."""
    rows: list[list[Any]] = []
    for line in by("shares", conf, packets, seed, interface, program)[1].splitlines():
        words = line.split()
        found = {words[at]: words[at + 1] for at in range(2, len(words) - 1, 2)}
        rows.append([*words[:2], *(int(found[what]) if found.get(what, "none") != "none" else None for what in ("gap", "bound"))])
    return pandas.DataFrame({"first": [row[0] for row in rows], "second": [row[1] for row in rows],
                             "gap": tables.numbers([row[2] for row in rows]), "bound": tables.numbers([row[3] for row in rows])})


def condition(conf: Conf, packets: Packets, *, interface: Optional[str] = None, program: Optional[str] = None) -> pandas.DataFrame:
    """The packets with the marks that the interface's conditioners give them, as `altqplay.capture` has them; `play` takes them with
    `[["time_ns", "length", "bytes"]]` (docs/reference/METERS.md)."""
    room = Room()
    config = conf_file(conf, room.folder)
    run(["condition", "--config", config, "--interface", interface_name(config, interface), "--arrivals", capture_file(packets, room.folder),
         "--marked", room.path("marked.pcap")], program)
    return tables.capture(room.path("marked.pcap"))


class Chain:
    """Two links in a row: `first` and `second` are their plays, and `path` has a row for each packet: number, arrival, outcome
    (dropped1, dropped2 or sent) and end, when it left the second link, `<NA>` for a drop."""

    def __init__(self, first: Play, second: Play, path: pandas.DataFrame) -> None:
        self.first, self.second, self.path = first, second, path

    def __repr__(self) -> str:
        return f"<altqplay.Chain of {len(self.path)} packets: {(self.path['outcome'] == 'sent').sum()} sent by both links>"


def chain(conf: Conf, packets: Packets, next: str, seed: int = 42, *, interface: str, program: Optional[str] = None) -> Chain:
    """Plays packets on the link of `interface`, and what leaves it on that of `next`, another interface of the configuration or the
    same."""
    room = Room()
    config = conf_file(conf, room.folder)
    first = Play(room, config, interface_of(config, interface, program), capture_file(packets, room.folder), seed, program)
    second = Play(room, config, interface_of(config, next, program), first.departures_file, seed, program, ["departures2.pcap", "fates2.csv", "stats2.csv"])
    run(["chain", *words_of(first), "--next", next, "--departures2", second.departures_file, "--fates2", second.fates_file,
         "--stats2", second.stats_file, "--path", room.path("path.csv")], program)
    return Chain(first, second, tables.values(room.path("path.csv")))

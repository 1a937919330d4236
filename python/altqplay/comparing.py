"""Two plays of the same arrivals beside each other, and the values of an option that keep what is asked for."""

from __future__ import annotations

import io
import os
from argparse import Namespace
from concurrent.futures import ThreadPoolExecutor
from dataclasses import dataclass
from typing import Iterable, Optional, Union

import pandas

from .workbench import find as finding
from .workbench import wants as asked
from .workbench.faults import Refused
from .workbench.foreign import float_of, number_text, tidied
from .workbench.rows import FATES_HEAD
from .workbench.texts import Times

from . import givens, tables
from .inputs import Conf, Packets, capture_file, conf_file
from .playing import Play, Room

Sided = Union[Play, pandas.DataFrame, str, "os.PathLike[str]"]


class Compared:
    """What two plays make of the same packets. It is true where they make the same.

    `packets` has a row for each packet that changed: number, arrival, length, class, fate and end of both, and `moved`, how many
    nanoseconds later it ends in the second. `classes` has a row for each class: packets, dropped and sent in the second alone, and how
    many end sooner and later. `first` is the packet whose decision is the first that differs, None where there is none.
    """

    def __init__(self, both: pandas.DataFrame) -> None:
        is_changed = (both["class"] != both["class_second"]) | (both["fate"] != both["fate_second"]) | (both["moved"].fillna(0) != 0)
        self.packets = both[is_changed].reset_index(drop=True)
        moment = pandas.concat([both["start"].fillna(both["arrival"]), both["start_second"].fillna(both["arrival"])], axis=1).min(axis=1)
        self.first: Optional[int] = int(both.loc[moment[is_changed].idxmin(), "number"]) if is_changed.any() else None
        was, now = both["end"].notna(), both["end_second"].notna()
        counts = pandas.DataFrame({"class": both["class"], "packets": 1, "dropped": was & ~now, "sent": ~was & now,
                                   "sooner": (both["moved"] < 0).fillna(False), "later": (both["moved"] > 0).fillna(False)})
        self.classes = counts.groupby("class", sort=False).sum().astype("int64").reset_index()

    def __bool__(self) -> bool:
        return self.first is None

    def __repr__(self) -> str:
        return f"<altqplay.Compared: {len(self.packets)} packets changed, the first is {self.first}>"


def compare(first: Sided, second: Sided, rules: bool = True, *, foreign: bool = False) -> Compared:
    """Compares two plays of the same arrivals, each a play, a table of fates or a file of fates; rows of another program may say `sent`
    and `dropped`, and stand in any order, and with `foreign` have quotes and floats such as `214000.0`. Without `rules` it does not
    matter by which rule a packet was sent or dropped. `Refused` where they are of other packets, arrivals or lengths.

    >>> import altqplay
    >>> packets = pandas.DataFrame({"time_ns": [0, 0], "length": [1000, 1000]})
    >>> slow, fast = (altqplay.play(f"interface if0 bandwidth {rate} hfsc", packets) for rate in ("8M", "16M"))
    >>> compare(slow, fast).packets[["number", "moved"]].values.tolist()
    [[1, -500000], [2, -1000000]]
    """
    sides = [fates_of(one, foreign) for one in (first, second)]
    if not rules:
        sides = [side.assign(fate=["sent" if is_sent else "dropped" for is_sent in side["end"].notna()]) for side in sides]
    odd = sorted(set(sides[0]["number"]) ^ set(sides[1]["number"]))
    if odd:
        raise Refused(f"packet {odd[0]} stands in one play alone: not the same arrivals, or a play that was cut off")
    both = sides[0].merge(sides[1], on="number", suffixes=("", "_second"), validate="one_to_one").sort_values("number").reset_index(drop=True)
    other = both[(both["arrival"] != both["arrival_second"]) | (both["length"] != both["length_second"])]
    if len(other):
        raise Refused(f"packet {other['number'].iloc[0]} has another arrival or length in the second play")
    both["moved"] = both["end_second"] - both["end"]
    return Compared(both.drop(columns=["arrival_second", "length_second"]))


def fates_of(side: Sided, foreign: bool = False) -> pandas.DataFrame:
    """The fates of a play, a table or a file, each number once and whole numbers as such."""
    if isinstance(side, Play):
        return side.fates
    data = None if isinstance(side, pandas.DataFrame) else givens.data_of(side)
    words = side if data is None else tables.values(io.BytesIO(tidied(data, False) if foreign else data))
    missing = [column for column in FATES_HEAD if column not in words]
    if missing:
        raise Refused(f"fates: the column {missing[0]} is missing")
    found = words[FATES_HEAD].copy()
    for column in ("number", "arrival", "length", "start", "end"):
        found[column] = whole(column, found[column].tolist())
    again = found["number"][found["number"].duplicated()]
    if len(again):
        raise Refused(f"packet {again.iloc[0]} has two fates")
    return found


def whole(column: str, values: Iterable[object]) -> object:
    """A column as whole numbers, `<NA>` where a field is empty. `Refused` where one is none, or a float that has lost digits."""
    words = [givens.word_of(column, value) for value in values]
    try:
        return tables.numbers([int(word) if word else None for word in words])
    except ValueError:
        wrong = next(word for word in words if word and not word.lstrip("-").isdigit())
        told = number_text(column, wrong) or f"{column} is no whole number"
        raise Refused(f"fates: {told}: {wrong}" + ("; foreign=True takes it" if float_of(wrong) is not None else "")) from None


@dataclass(frozen=True)
class Found:
    """The values of an option: `least` and `greatest` that keep what is asked for, None where none of those that were played does, and
    `fits`, the greatest with which the link keeps all real-time curves, None where that is not asked. `today` says whether the
    configuration as it is keeps it. `played` has a row for each value that was played: value, kept and what is said of it."""

    least: Optional[str]
    greatest: Optional[str]
    fits: Optional[str]
    today: bool
    played: pandas.DataFrame


def find(conf: Conf, packets: Packets, option: str, wants: Iterable[str], seed: int = 42, *, interface: Optional[str] = None, jobs: int = 2,
         program: Optional[str] = None) -> Found:
    """Finds the values of one option with which a play keeps what is asked for (`altqwork find --help`).

    `option` is one as `voip.rt=?` or `bandwidth=?`, with `?` for the number that is sought, also in a curve as `voip.rt=?/10/1500K`.
    `wants` are texts as `voip delay<10ms`, `voip drop=0` or `bulk rate>=2M`. So many plays as `jobs` run at a time.
    """
    path, _sign, form = option.rpartition("=") if "=" in option else (option, "", "?")
    of, _dot, word = path.rpartition(".")
    room = Room()
    args = Namespace(setting=f"{word}={form}", of=of or None, wants=[asked.want_of(one) for one in wants], config=conf_file(conf, room.folder), interface=interface,
                     program=program, arrivals=[capture_file(packets, room.folder)], seed=seed, jobs=jobs)
    finder, times = finding.Finder(args), Times()
    with ThreadPoolExecutor(jobs) as pool:
        search = finding.Search(len(finder.values), jobs, lambda places: list(pool.map(finding.played, [finder.probe(place) for place in places])))
        today = finding.played(finder.probe(None))
        if today.fault:
            raise Refused(today.fault)
        search.first()
        least, greatest = ((finder.told(search.edge(up)[0]).partition("=")[2] if search.kept() else None) for up in (False, True))
    fit = finder.fit() if finder.sought.option in ("rt", "sc") and finder.today.discipline == "hfsc" else None
    rows = [(finder.told(place).partition("=")[2], answer.is_kept, answer.told(times)) for place, answer in sorted(search.answers.items())]
    return Found(least, greatest, None if fit is None else finder.told(fit).partition("=")[2], today.is_kept, pandas.DataFrame(rows, columns=["value", "kept", "said"]))

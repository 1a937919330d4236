"""Reads fates that another program may have written, with a sentence for each way in which they are not as `altqplay` writes them."""

from __future__ import annotations

import os
import re
from collections import Counter
from dataclasses import dataclass, field
from typing import Any, NamedTuple, Optional, Union

import pandas

from .workbench.faults import Refused
from .workbench.foreign import MOST_OF_FLOAT, number_text, plain_head, plain_row
from .workbench.rows import DROPPED, FATES_HEAD, SENT

Fates = Union[str, "os.PathLike[str]", pandas.DataFrame]

HEAD = ",".join(FATES_HEAD)
DECIMAL = re.compile("0|[1-9][0-9]*")
BOUNDS = {"number": 2**64, "arrival": 2**64, "length": 2**32, "start": 2**64, "end": 2**64}
TEXT, READING = "text", "reading"


class Row(NamedTuple):
    """A row of fates: its place among the rows, from 1 on, and its fields; `start` and `end` are None where it was dropped."""

    row: int
    number: int
    arrival: int
    length: int
    name: str
    fate: str
    start: Optional[int]
    end: Optional[int]

    @property
    def is_sent(self) -> bool:
        """Whether the packet was sent."""
        return self.start is not None


class Failure(NamedTuple):
    """A failure of a test: the line of the file and the row (the head is line 1 and row 0), the packet or None, the test's number and
    name (docs/reference/MANUAL.md, "The tests of given files"), what was found and expected, and why."""

    line: int
    row: int
    packet: Optional[int]
    kind: int
    test: str
    found: Any
    expected: Any
    because: str


class Fault(Exception):
    """A row is none, for a reason that is said: what was found, what was expected, and why."""

    def __init__(self, found: Any, expected: Any, because: str) -> None:
        super().__init__(because)
        self.found, self.expected, self.because = found, expected, because


@dataclass
class Given:
    """Fates that were read: the rows, the failures of the text, and how often each sentence on foreign ways holds."""

    rows: list[Row] = field(default_factory=list)
    failures: list[Failure] = field(default_factory=list)
    ways: Counter = field(default_factory=Counter)

    def remarks(self) -> list[str]:
        """The sentences on foreign ways that were taken."""
        return [f"{count} {'row' if count == 1 else 'rows'}: {way}" for way, count in self.ways.items()]


def data_of(fates: Fates) -> bytes:
    """The bytes of fates: those of a file, or those that a table is written with, its floats as whole numbers. `Refused` where a float
    of the table has lost digits."""
    if not isinstance(fates, pandas.DataFrame):
        with open(fates, "rb") as file:
            return file.read()
    missing = [column for column in FATES_HEAD if column not in fates]
    if missing:
        raise Refused(f"fates: the column {missing[0]} is missing")
    columns = [[word_of(column, value) for value in fates[column].tolist()] for column in FATES_HEAD]
    return "".join(f"{line}\n" for line in [HEAD, *map(",".join, zip(*columns))]).encode("ascii", "replace")


def word_of(column: str, value: Any) -> str:
    """A value of a table as a field."""
    if value is None or value is pandas.NA or (isinstance(value, float) and value != value):
        return ""
    if isinstance(value, float) and value.is_integer():
        if abs(value) > MOST_OF_FLOAT:
            raise Refused(f"fates: {column} has floats above 2^53, which have lost digits: read it with altqplay.fates, or as Int64 from whole numbers")
        return str(int(value))
    return str(value)


def given_of(data: bytes, names: dict[str, str], foreign: bool) -> Given:
    """The rows of fates. `names` has the classes that hold packets, each with the word for `sent` that can occur on it. With `foreign`
    rows that say the same in another way are taken, and the ways are counted."""
    found = Given()
    lines = data.split(b"\n")
    head = lines[0].decode("latin-1")
    if head != HEAD and not (foreign and plain_head(head) == HEAD):
        found.failures.append(Failure(1, 0, None, 1, TEXT, head, HEAD, "the first line is not the head row" + (": it ends with CRLF" if head.endswith("\r") else "")))
    for row, line in enumerate(lines[1:], 1):
        is_last = row == len(lines) - 1
        if is_last and not line:
            break
        try:
            found.rows.append(row_of(row, line.decode("latin-1"), names, found.ways if foreign else None))
            if is_last and not foreign:
                raise Fault(line.decode("latin-1"), "a line feed", "the last line is cut: no line feed ends it")
        except Fault as fault:
            found.failures.append(Failure(row + 1, row, packet_of(line), 1, TEXT, fault.found, fault.expected, fault.because))
    return found


def packet_of(line: bytes) -> Optional[int]:
    """The packet that a faulty row names, if it names one."""
    word = line.split(b",")[0].decode("latin-1")
    return int(word) if DECIMAL.fullmatch(word) and len(word) < 20 else None


def row_of(row: int, line: str, names: dict[str, str], ways: Optional[Counter]) -> Row:
    """The row of a line. `Fault` says what it lacks; `ways` counts what is taken otherwise, and is None where nothing is."""
    words, foreign = plain_row(line)
    for way in foreign:
        taken(ways, "", way.text, way.found, way.expected)
    if len(words) != len(FATES_HEAD):
        raise Fault(line, HEAD, f"{len(words)} fields, and not {len(FATES_HEAD)}")
    name, fate = words[3], words[4]
    if name not in names:
        raise Fault(name, ", ".join(names), "no class of this name holds packets")
    if fate in ("sent", "dropped"):
        ours = names[name] if fate == "sent" else "full"
        fate = taken(ways, ours, f"`{fate}` tells no rule: it is taken as `{ours}`", fate, ours)
    if fate not in SENT + DROPPED:
        raise Fault(fate, ", ".join(SENT + DROPPED), "no fate of this name")
    if fate in DROPPED and words[5:] != ["", ""]:
        raise Fault(",".join(words[5:]), "two empty fields", "a packet that was dropped has no start and no end")
    values = {what: number_of(what, word) for what, word in zip(FATES_HEAD, words) if what in BOUNDS and (word or fate not in DROPPED)}
    return Row(row, values["number"], values["arrival"], values["length"], name, fate, values.get("start"), values.get("end"))


def taken(ways: Optional[Counter], ours: str, way: str, found: str, expected: str) -> str:
    """What a foreign way of saying is taken as. `Fault` where none is taken."""
    if ways is None:
        raise Fault(found, expected, f"{way}; foreign=True takes it")
    ways[way] += 1
    return ours


def number_of(what: str, word: str) -> int:
    """A number of a row."""
    if number_text(what, word):
        raise Fault(word, "a whole number", number_text(what, word))
    if not DECIMAL.fullmatch(word):
        raise Fault(word, "a whole number", f"{what} is no whole number in decimal digits without leading zeros")
    if int(word) >= BOUNDS[what]:
        raise Fault(word, f"below {BOUNDS[what]}", f"{what} is too great")
    return int(word)

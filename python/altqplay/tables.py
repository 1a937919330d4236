"""Files of the program as DataFrames whose numbers are exact.

`pandas.read_csv` reads a column of whole numbers in which a field is empty as float64, also where it is told Int64: `start` and `end`
of a play with a drop then lose up to 241 ns at moments of today. Here such a column is read as whole numbers, a nullable Int64 in
which a drop has `<NA>`; a column with numbers of 2^63 and more holds Python's own.
"""

from __future__ import annotations

import os
from typing import IO, Any, Optional, Sequence, Union

import numpy
import pandas

from .workbench.captures import records
from .workbench.columns import Fates
from .workbench.faults import Foreign
from .workbench.rows import read_fates
from .workbench.rules.frames import type_of_service

Name = Union[str, "os.PathLike[str]"]
MOST = 2**63


def nullable(values: numpy.ndarray, is_there: numpy.ndarray) -> Any:
    """A column of Int64 that has no value where none is there."""
    return pandas.arrays.IntegerArray(numpy.where(is_there, values, 0).astype(numpy.int64), ~is_there)


def numbers(words: Sequence[Optional[int]]) -> Any:
    """A column of whole numbers or None: Int64, or Python's own where 64 bits do not hold them."""
    is_there = numpy.array([word is not None for word in words], dtype=bool)
    if any(word is not None and not -MOST <= word < MOST for word in words):
        return numpy.array([pandas.NA if word is None else word for word in words], dtype=object)
    return nullable(numpy.array([word or 0 for word in words], dtype=numpy.int64), is_there)


def fates_of(fates: Fates) -> pandas.DataFrame:
    """Fates in columns as a table, a row for each packet in the order of decision: number, arrival, length in bytes, class, fate, start
    and end; moments in nanoseconds, exact, `<NA>` where the packet was dropped."""
    return pandas.DataFrame({
        "number": fates.number, "arrival": fates.arrival, "length": fates.length,
        "class": numpy.array(fates.classes, dtype=object)[fates.of_class] if len(fates) else numpy.array([], dtype=object),
        "fate": numpy.array(fates.fates, dtype=object)[fates.of_fate] if len(fates) else numpy.array([], dtype=object),
        "start": nullable(fates.start, fates.is_sent), "end": nullable(fates.end, fates.is_sent)})


def fates(name: Name, foreign: bool = False) -> pandas.DataFrame:
    """A file of fates as a table, exact (`fates_of`); with `foreign` rows of another program are taken that say the same in another way:
    `sent` and `dropped`, CRLF, quotes, and floats such as `214000.0`."""
    try:
        return fates_of(read_fates(os.fspath(name), foreign))
    except Foreign as fault:
        raise Foreign(f"{fault}; foreign=True takes it") from None


def values(name: Union[Name, IO[bytes]]) -> pandas.DataFrame:
    """A file of comma-separated values as a table; a column in which each field is a whole number or empty is exact."""
    table = pandas.read_csv(name, dtype=str, keep_default_na=False)
    for column in table.columns:
        words = table[column].tolist()
        if any(words) and all(not word or word.lstrip("-").isdigit() for word in words):
            table[column] = numbers([int(word) if word else None for word in words])
    return table


def capture(name: Name) -> pandas.DataFrame:
    """A capture as a table, a row for each record: number from 1 on, time_ns, length and bytes, its captured bytes, and `tos`, the
    type of service of IPv4 or IPv6, `<NA>` where there is none. `altqplay.play` takes its columns time_ns, length and bytes."""
    found = list(records(os.fspath(name)))
    return pandas.DataFrame({
        "number": range(1, len(found) + 1), "time_ns": numpy.array([one.at for one in found], dtype=numpy.int64),
        "length": numpy.array([max(one.length, len(one.data)) for one in found], dtype=numpy.int64),
        "tos": numbers([type_of_service(one.data) for one in found]), "bytes": [bytes(one.data) for one in found]})

"""Reads fates, statistics and paths, the CSV files that plays write (docs/reference/FORMATS.md). Moments and lengths are exact integers.

`fate_rows` and `path_rows` give row after row and need no library. `read_fates` gives columns, a million rows in a second.
"""

import io
import re
from collections import namedtuple

from .faults import Foreign, Refused
from .foreign import CRLF, QUOTES, RULES, float_of, number_text, plain_head, tidied

FATES_HEAD = ["number", "arrival", "length", "class", "fate", "start", "end"]
STATS_HEAD = ["class", "arrived", "arrivedbytes", "raised", "sent", "sentbytes", "full", "early", "forced"]
PATH_HEAD = ["number", "arrival", "outcome", "end"]
SENT = ("realtime", "share", "own", "borrow")
DROPPED = ("full", "early", "forced")
OUTCOMES = ("dropped1", "dropped2", "sent")
WHOLE, NAME = re.compile("0|[1-9][0-9]{0,18}"), re.compile(r"[A-Za-z0-9_.:/-]{1,64}")

# One packet's fate. Times are in nanoseconds, the length in bytes; start and end are None where it was dropped.
Fate = namedtuple("Fate", "number arrival length name fate start end")
# What became of one packet on two links; the end is that on the second, None where it was dropped.
Path = namedtuple("Path", "number arrival outcome end")


def place(line):
    """A line of a file, with the number that `altqplay verify` gives its row: the head is line 1 and row 0."""
    return f"line {line} (row {line - 1})"


def whole(name, line, what, word):
    """A whole number below 2^63 of a row."""
    told = number_text(what, word)
    if told:
        raise (Refused if float_of(word) is None else Foreign)(f"{name}: {place(line)}: {told}: {word!r}")
    if not WHOLE.fullmatch(word) or int(word) >= 2**63:
        raise Refused(f"{name}: {place(line)}: {what} is no whole number below 2^63: {word!r}")
    return int(word)


def fate_of(name, line, row):
    """The fate of a row."""
    if len(row) != len(FATES_HEAD):
        raise Refused(f"{name}: {place(line)}: {len(row)} words, and not {len(FATES_HEAD)}")
    numbers = [whole(name, line, what, word) for what, word in zip(FATES_HEAD[:3], row)]
    if not NAME.fullmatch(row[3]):
        raise Refused(f"{name}: {place(line)}: no name of a class: {row[3]!r}")
    if row[4] in RULES:
        raise Foreign(f"{name}: {place(line)}: `{row[4]}` tells no rule")
    if row[4] not in SENT + DROPPED:
        raise Refused(f"{name}: {place(line)}: no fate: {row[4]!r}")
    if row[4] in DROPPED and row[5:] != ["", ""]:
        raise Refused(f"{name}: {place(line)}: a packet that was dropped has a start or an end")
    start, end = [whole(name, line, what, word) for what, word in zip(FATES_HEAD[5:], row[5:])] if row[4] in SENT else (None, None)
    return Fate(numbers[0], numbers[1], numbers[2], row[3], row[4], start, end)


def path_of(name, line, row):
    """The path of a row."""
    if len(row) != len(PATH_HEAD):
        raise Refused(f"{name}: {place(line)}: {len(row)} words, and not {len(PATH_HEAD)}")
    number, arrival = [whole(name, line, what, word) for what, word in zip(PATH_HEAD, row[:2])]
    if row[2] not in OUTCOMES:
        raise Refused(f"{name}: {place(line)}: no outcome: {row[2]!r}")
    if row[2] != "sent" and row[3]:
        raise Refused(f"{name}: {place(line)}: a packet that was dropped has an end")
    return Path(number, arrival, row[2], whole(name, line, "end", row[3]) if row[2] == "sent" else None)


def opened(name, is_foreign=False, has_rules=True):
    """A file of rows as text; with `is_foreign` as `foreign.tidied` makes it."""
    if not is_foreign:
        return open(name, newline="\n", encoding="ascii", errors="replace")
    with open(name, "rb") as file:
        return io.StringIO(tidied(file.read(), has_rules).decode("ascii", "replace"), newline="\n")


def lines(name, head, is_foreign=False, has_rules=True):
    """The lines of a file behind its head, each as its number and its words. `Foreign` names a line that another program wrote."""
    with opened(name, is_foreign, has_rules) as file:
        first = file.readline()
        if first != ",".join(head) + "\n":
            if plain_head(first) == ",".join(head) and first.endswith("\n"):
                raise Foreign(f"{name}: {place(1)}: {CRLF if first.endswith(chr(13) + chr(10)) else 'quotes or blanks stand in the head row'}")
            raise Refused(f"{name}: its first row is not {','.join(head)}")
        for number, line in enumerate(file, 2):
            if not line.endswith("\n"):
                raise Refused(f"{name}: {place(number)} is cut: no line feed ends it")
            if "\r" in line or '"' in line:
                raise Foreign(f"{name}: {place(number)}: {QUOTES if chr(34) in line else CRLF}")
            yield number, line[:-1].split(",")


def fate_rows(name, is_foreign=False):
    """The fates of a file, in its order. `Refused` names the first row that is none; with `is_foreign` rows of another program are taken."""
    for number, words in lines(name, FATES_HEAD, is_foreign):
        yield fate_of(name, number, words)


def path_rows(name):
    """The paths of a file, in its order. `Refused` names the first row that is none."""
    for number, words in lines(name, PATH_HEAD):
        yield path_of(name, number, words)


def read_fates(name, is_foreign=False):
    """The fates of a file as `columns.Fates`; it needs numpy. `Refused` names the first row that is none; with `is_foreign` rows of
    another program are taken."""
    from .columns import read

    return read(name, is_foreign)


def read_stats(name):
    """The statistics of a file: the name of each class with its counts as a dict, in the file's order; `*` has the sums."""
    found = {}
    for number, words in lines(name, STATS_HEAD):
        if len(words) != len(STATS_HEAD):
            raise Refused(f"{name}: {place(number)}: {len(words)} words, and not {len(STATS_HEAD)}")
        found[words[0]] = {what: whole(name, number, what, word) for what, word in zip(STATS_HEAD[1:], words[1:])}
    return found

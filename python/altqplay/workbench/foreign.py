"""Fates as other programs write them: what is foreign in a row, in a sentence, and the row as `altqplay` writes it. It needs no library."""

from __future__ import annotations

import re
from argparse import ArgumentParser
from typing import NamedTuple, Optional

NUMBERS = {0: "number", 1: "arrival", 2: "length", 5: "start", 6: "end"}  # the columns of fates that are numbers
FLOAT = re.compile(r"([0-9]+)\.0*(?:[eE]\+?([0-9]+))?|([0-9]+)[eE]\+?([0-9]+)")
MOST_OF_FLOAT = 2**53
RULES = {"sent": "share", "dropped": "full"}  # a rule and a reason in place of words that tell none
CRLF = "the line ends with CRLF, as Windows and csv of Python write it"
QUOTES = "fields stand in quotes"
EACH_ROUNDED = "it is that of the packet alone, rounded, as ns-3 has it"


class Way(NamedTuple):
    """A way in which a row is foreign: a sentence, what was found, and what `altqplay` writes."""

    text: str
    found: str
    expected: str


def add_foreign(parser: ArgumentParser, has_ends: bool = False) -> None:
    """The words that have rows of other programs taken; `has_ends` where ends are tested."""
    parser.add_argument("--foreign", action="store_true", help="takes rows of another program: `sent` and `dropped`, CRLF, quotes, floats as 214000.0")
    if has_ends:
        parser.add_argument("--each-rounded", action="store_true", help="takes ends that are rounded packet by packet, as ns-3 has them")


def plain_head(head: str) -> str:
    """A head row without what other programs put there: quotes, blanks, CRLF, a mark of UTF-8."""
    return re.sub(r'["\s\ufeff\ufffd]|\xef\xbb\xbf', "", head)


def float_of(word: str) -> Optional[int]:
    """The whole number that a float is, as 214000.0 or 2.14e+05; None where it is none, or has lost digits.

    >>> float_of("214000.0"), float_of("2e5"), float_of("214000"), float_of("0.5")
    (214000, 200000, None, None)
    """
    match = FLOAT.fullmatch(word)
    if match is None or int(match[2] or match[4] or 0) > 20:
        return None
    value = int(match[1] or match[3]) * 10 ** int(match[2] or match[4] or 0)
    return value if value <= MOST_OF_FLOAT else None


def number_text(what: str, word: str) -> str:
    """Why a word is no number of a row, where it is a float; else an empty text."""
    if FLOAT.fullmatch(word) is None:
        return ""
    if float_of(word) is None:
        return f"{what} is a float above 2^53, which has lost digits, as pandas makes of a column with empty fields: write it as Int64"
    return f"{what} is a float, as pandas makes of a column with empty fields"


def plain_row(line: str) -> tuple[list[str], list[Way]]:
    """The fields of a row as `altqplay` writes them, and the ways in which it is foreign; floats that have lost digits stay as they are.

    >>> plain_row('1,0,60,"a",sent,5.0,9\\r')
    (['1', '0', '60', 'a', 'sent', '5', '9'], [Way(text='the line ends with CRLF, as Windows and csv of Python write it', found='CRLF', expected='a line feed alone'), \
Way(text='fields stand in quotes', found='1,0,60,"a",sent,5.0,9', expected='1,0,60,a,sent,5.0,9'), \
Way(text='start is a float, as pandas makes of a column with empty fields', found='5.0', expected='5')])
    """
    ways = []
    if line.endswith("\r"):
        line = line[:-1]
        ways.append(Way(CRLF, "CRLF", "a line feed alone"))
    if '"' in line:
        ways.append(Way(QUOTES, line, line.replace('"', "")))
        line = line.replace('"', "")
    words = line.split(",")
    for column, what in NUMBERS.items() if "." in line or "e" in line.lower() else ():
        value = float_of(words[column]) if column < len(words) else None
        if value is not None:
            ways.append(Way(number_text(what, words[column]), words[column], str(value)))
            words[column] = str(value)
    return words, ways


def tidied(data: bytes, has_rules: bool = True) -> bytes:
    """Fates as `altqplay` writes them, line by line; with `has_rules` `share` and `full` stand in place of `sent` and `dropped`.

    >>> tidied(b'number,arrival\\r\\n1,0,60,a,sent,5.0,9.0')
    b'number,arrival\\n1,0,60,a,share,5,9\\n'
    """
    head, *lines = data.decode("latin-1").split("\n")
    found = [plain_head(head)]
    for line in lines[:-1] if lines and not lines[-1] else lines:
        words = plain_row(line)[0]
        if has_rules and len(words) > 4:
            words[4] = RULES.get(words[4], words[4])
        found.append(",".join(words))
    return "".join(f"{line}\n" for line in found).encode("latin-1")

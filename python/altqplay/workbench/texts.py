"""What tables say: times in milliseconds with three digits, or exact in nanoseconds by --ns, and columns that stand below each other."""

from __future__ import annotations

import argparse
from typing import Optional, Sequence

THOUSANDTH = 1000  # nanoseconds of the last digit of milliseconds


def add_times(parser: argparse.ArgumentParser) -> None:
    """The word that makes times exact."""
    parser.add_argument("--ns", action="store_true", help="says times in nanoseconds, exact; else in milliseconds, rounded to three digits")


class Times:
    """How times are said: `unit` is `ms`, or `ns` where they are exact."""

    def __init__(self, exact: bool = False) -> None:
        self.exact, self.unit = exact, "ns" if exact else "ms"

    def number(self, ns: Optional[int]) -> str:
        """A time without its unit, half a digit rounded away from 0; a dash for none."""
        if ns is None:
            return "-"
        if self.exact:
            return str(ns)
        digits = (abs(ns) + THOUSANDTH // 2) // THOUSANDTH
        sign = "-" if ns < 0 and digits else ""
        return f"{sign}{digits // 1000}.{digits % 1000:03}"

    def text(self, ns: Optional[int]) -> str:
        """A time with its unit; a dash for none."""
        return "-" if ns is None else f"{self.number(ns)} {self.unit}"


def aligned(rows: Sequence[Sequence[str]], left: int = 1) -> list[str]:
    """Rows of words as lines: the first columns, `left` of them, begin below each other, and the others end so. A row of one word is a
    line of its own, however long."""
    wide = [row for row in rows if len(row) > 1]
    widths = [max((len(row[place]) for row in wide if place < len(row)), default=0) for place in range(max(map(len, rows), default=0))]
    lines = []
    for row in rows:
        words = [word.ljust(width) if place < left else word.rjust(width) for place, (word, width) in enumerate(zip(row, widths))]
        lines.append("  ".join(words).rstrip())
    return lines

"""The fates of a play and the paths of a chain in columns of numpy: a million rows in half a second. What a row is, `rows` says.

Eight bytes of a field are read at a time, as a word of 64 bits, of all rows at once; a number of 19 digits takes three such words.
"""

from __future__ import annotations

import numpy

from .faults import Refused
from .foreign import tidied
from .rows import DROPPED, FATES_HEAD, NAME, OUTCOMES, PATH_HEAD, SENT, fate_rows, path_rows

WORD = 8
LONGEST = 19  # digits of a number below 2^63
BLOCK = 2**15  # rows that are read at a time, which a processor's own memory holds
# By how many bytes of a word are of the field, its last ones: a mask of these, and the digit 0 in the others.
KEPT = numpy.array([2**64 - 2 ** (8 * (WORD - size)) for size in range(WORD + 1)], dtype=numpy.uint64)
ZEROS = numpy.array([0x3030303030303030 & (2 ** (8 * (WORD - size)) - 1) for size in range(WORD + 1)], dtype=numpy.uint64)
# By how many digits a number has the least that has so many; of one digit 0.
LEAST = numpy.array([0, 0] + [10**(size - 1) for size in range(2, LONGEST + 1)], dtype=numpy.uint64)
DIGIT, OVER, HIGH = (numpy.uint64(value * 0x0101010101010101) for value in (ord("0"), 0x80 - 10, 0x80))
# Neighbours of a word, digits and then pairs and fours of them, become one number: factor, shift, mask.
STEPS = [tuple(map(numpy.uint64, step)) for step in (
    (10 * 2**8 + 1, 8, 0x00FF00FF00FF00FF), (100 * 2**16 + 1, 16, 0x0000FFFF0000FFFF), (10**4 * 2**32 + 1, 32, 2**32 - 1))]


class Fields:
    """The fields of comma-separated values behind their head. `ValueError` where the lines are not of so many fields."""

    def __init__(self, data: bytes, head: list[str]) -> None:
        first = (",".join(head) + "\n").encode()
        if not data.startswith(first) or not data.endswith(b"\n") or b"\0" in data:
            raise ValueError
        text = numpy.frombuffer(data, dtype=numpy.uint8)
        marks = numpy.flatnonzero(text <= ord(","))[len(head) - 1:]  # the first is the end of the head
        self.count, odd = divmod(len(marks) - 1, len(head))
        if odd:
            raise ValueError
        self.data, self.text, self.ends = data, text, marks[1:].reshape(-1, len(head))
        self.marks = marks[:-1].reshape(-1, len(head))  # that before each field
        found = text[self.ends]
        if not (found[:, :-1] == ord(",")).all() or not (found[:, -1] == ord("\n")).all():
            raise ValueError
        self.words: numpy.ndarray = numpy.ndarray(len(data) - WORD + 1, dtype="<u8", buffer=data, strides=(1,))

    def sizes(self, column: int) -> numpy.ndarray:
        """How many bytes the fields of a column have."""
        return self.ends[:, column] - self.marks[:, column] - 1

    def word(self, ends: numpy.ndarray, place: int, sizes: numpy.ndarray) -> tuple[numpy.ndarray, numpy.ndarray]:
        """The word that stands so many before some ends of fields, 0 where it is not of the field, and how many bytes of it are."""
        is_one = int(sizes.min()) == int(sizes.max())  # as most stamps have
        held = numpy.clip(sizes[:1] if is_one else sizes, WORD * place, WORD * (place + 1)) - WORD * place
        return self.words[numpy.maximum(ends - WORD * (place + 1), 0)] & KEPT[held], held

    def number(self, ends: numpy.ndarray, sizes: numpy.ndarray) -> numpy.ndarray:
        """The numbers of some fields, of 64 bits, 0 for an empty one. `ValueError` where a byte is no digit, or the first of several is 0."""
        total = numpy.zeros(len(ends), dtype=numpy.uint64)
        for place in range(-(-int(sizes.max(initial=0)) // WORD)):
            word, held = self.word(ends, place, sizes)
            word |= ZEROS[held]
            word ^= DIGIT
            if ((word + OVER | word) & HIGH).any():
                raise ValueError
            for factor, shift, mask in STEPS:
                word *= factor
                word >>= shift
                word &= mask
            total += word * numpy.uint64(10 ** (WORD * place))
        if (total < LEAST[sizes]).any():
            raise ValueError
        return total

    def numbers(self, column: int, may_lack: bool = False) -> numpy.ndarray:
        """The numbers of a column; -1 for an empty field, where one may be. `ValueError` where a field is none below 2^63."""
        ends, sizes = self.ends[:, column], self.sizes(column)
        if sizes.max(initial=0) > LONGEST or not (may_lack or sizes.all()):
            raise ValueError
        blocks = [slice(begin, begin + BLOCK) for begin in range(0, self.count, BLOCK)]
        parts = [self.number(ends[block], sizes[block]) for block in blocks]
        total = numpy.concatenate(parts) if parts else numpy.zeros(0, dtype=numpy.uint64)
        if int(total.max(initial=0)) >= 2**63:
            raise ValueError
        found = total.view(numpy.int64)
        if not sizes.all():
            found[sizes == 0] = -1
        return found

    def names(self, column: int) -> tuple[list[str], numpy.ndarray]:
        """The words of a column in rising order, and the place of each field's. `ValueError` where one is empty."""
        sizes = self.sizes(column)
        if not sizes.all():
            raise ValueError
        codes = numpy.zeros(self.count, dtype=numpy.int64)
        for place in range(-(-int(sizes.max(initial=0)) // WORD)):
            kinds, own = distinct(self.word(self.ends[:, column], place, sizes)[0])
            codes = codes * len(kinds) + own if place else own
            codes = distinct(codes)[1] if place else codes
        first = numpy.zeros(int(codes.max(initial=-1)) + 1, dtype=numpy.int64)
        first[codes[::-1]] = numpy.arange(self.count)[::-1]
        words = [self.data[self.marks[row, column] + 1:self.ends[row, column]].decode("latin-1") for row in first.tolist()]
        order = sorted(range(len(words)), key=words.__getitem__)
        places = numpy.zeros(len(words), dtype=numpy.int64)
        places[order] = numpy.arange(len(words))
        return [words[place] for place in order], places[codes]


def distinct(values: numpy.ndarray) -> tuple[numpy.ndarray, numpy.ndarray]:
    """The values that some have, in rising order, and the place of each. Mostly a few are all."""
    found = numpy.unique(values[:1000])
    for _try in range(2):
        places = numpy.minimum(numpy.searchsorted(found, values), max(len(found) - 1, 0))
        if not len(values) or (found[places] == values).all():
            break
        found = numpy.unique(values)
    return found, places


class Fates:
    """The fates of a play in columns of numpy, in the file's order. `start` and `end` are -1 where `is_sent` is false."""

    def __init__(self, name: str, fields: Fields, sent: tuple[str, ...] = SENT, dropped: tuple[str, ...] = DROPPED) -> None:
        self.name = name
        self.number, self.arrival, self.length = (fields.numbers(column) for column in range(3))
        self.start, self.end = (fields.numbers(column, may_lack=True) for column in (5, 6))
        self.classes, self.of_class = fields.names(3)
        self.fates, self.of_fate = fields.names(4)
        is_drop = numpy.array([fate in dropped for fate in self.fates], dtype=bool)[self.of_fate]
        self.is_sent = ~is_drop
        if (not all(map(NAME.fullmatch, self.classes)) or not set(self.fates) <= {*sent, *dropped}
                or any(bool(((values >= 0) == is_drop).any()) for values in (self.start, self.end))):
            raise ValueError

    def __len__(self) -> int:
        return len(self.number)

    def class_is(self, name: str) -> numpy.ndarray:
        """Which rows are of a class."""
        return self.of_class == self.classes.index(name) if name in self.classes else self.of_class < -1

    def fate_is(self, fate: str) -> numpy.ndarray:
        """Which rows have a fate."""
        return self.of_fate == self.fates.index(fate) if fate in self.fates else self.of_fate < -1

    def delays(self) -> numpy.ndarray:
        """The end minus the arrival of each row; of no meaning where it was dropped."""
        return self.end - self.arrival


class Paths:
    """The paths of a chain in columns of numpy, in the file's order. `end` is -1 where a packet was dropped."""

    def __init__(self, name: str, fields: Fields) -> None:
        self.name = name
        self.number, self.arrival, self.end = fields.numbers(0), fields.numbers(1), fields.numbers(3, may_lack=True)
        self.outcomes, self.of_outcome = fields.names(2)
        if not set(self.outcomes) <= set(OUTCOMES) or ((self.end >= 0) != self.outcome_is("sent")).any():
            raise ValueError

    def __len__(self) -> int:
        return len(self.number)

    def outcome_is(self, outcome: str) -> numpy.ndarray:
        """Which rows have an outcome."""
        return self.of_outcome == self.outcomes.index(outcome) if outcome in self.outcomes else self.of_outcome < -1


def file_of(name: str) -> bytes:
    """The bytes of a file."""
    with open(name, "rb") as file:
        return file.read()


def read(name: str, is_foreign: bool = False) -> Fates:
    """The fates of a file as `Fates`. `Refused` names the first row that is none, or the packet that has two."""
    try:
        data = file_of(name)
        found = Fates(name, Fields(tidied(data) if is_foreign else data, FATES_HEAD))
    except ValueError:
        for _row in fate_rows(name, is_foreign):
            pass
        raise Refused(f"{name}: no fates") from None
    ranked = numpy.sort(found.number)
    again = ranked[1:][ranked[1:] == ranked[:-1]]
    if len(again):
        seen: set[int] = set()
        twice = next(number for number in found.number.tolist() if number in seen or seen.add(number))  # type: ignore[func-returns-value]
        raise Refused(f"{name}: packet {twice} has two fates")
    return found


def read_paths(name: str) -> Paths:
    """The paths of a file as `Paths`. `Refused` names the first row that is none."""
    try:
        return Paths(name, Fields(file_of(name), PATH_HEAD))
    except ValueError:
        for _row in path_rows(name):
            pass
        raise Refused(f"{name}: no paths") from None

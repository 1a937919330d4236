"""`why` of a few packets or moments of a long play: the decisions around them alone, each from the state before it (`why_state`)."""

from __future__ import annotations

from argparse import Namespace
from collections.abc import Iterator, Sequence
from dataclasses import dataclass, replace
from typing import Optional

from .columns import Fates, Fields, file_of
from .conf import Interface, read_conf
from .foreign import tidied
from .rows import FATES_HEAD, Fate
from .rules.classes import classes_of
from .rules.frames import is_capable, precedence
from .rules.play import Play
from .why_history import Columns, Point, Unordered
from .why_inputs import frames_of
from .why_state import known_point, play_at

NEAR = 2000  # decisions that are replayed sooner than a state is told anew
Services = Optional["tuple[list[int], list[bool]]"]


class FileRows(Sequence):
    """The rows of a file of fates, each with its line, made where they are asked for."""

    def __init__(self, columns: Columns) -> None:
        self.columns = columns

    def __len__(self) -> int:
        return len(self.columns.fates)

    def __getitem__(self, row):
        if not 0 <= row < len(self):
            raise IndexError(row)
        fates = self.columns.fates
        is_sent = bool(fates.is_sent[row])
        times = (int(fates.start[row]), int(fates.end[row])) if is_sent else (None, None)
        return row + 2, Fate(int(fates.number[row]), int(fates.arrival[row]), int(fates.length[row]), fates.classes[fates.of_class[row]],
                             fates.fates[fates.of_fate[row]], *times)

    def of(self, number: int) -> tuple[int, Fate]:
        """The row of a packet."""
        return self[int(self.columns.row_of[number - 1])]


@dataclass(frozen=True)
class Part:
    """A part of a play, from a point up to another, and which packets and moments are told of it."""

    begin: Point
    end: Point
    packets: tuple[int, ...] = ()
    moments: tuple[int, ...] = ()

    def joined(self, other: Part) -> Part:
        """The part over this one and another, which begins in it or at its end."""
        return Part(self.begin, max(self.end, other.end, key=order), self.packets + other.packets, self.moments + other.moments)


def order(point: Point) -> int:
    """The place of a point among those of a play."""
    return point.offers + point.sendings


class Window:
    """The question of a part: what a `Replay` asks of one, with the rows of the file from the part's on."""

    def __init__(self, columns: Columns, services: Services, seed: int, part: Part) -> None:
        self.interface: Interface = columns.interface
        self.rows, self.seed, self.columns, self.services, self.part = FileRows(columns), seed, columns, services, part
        self.first_row = columns.row(part.begin)
        offered = range(part.begin.offers, part.end.offers)
        self.dropped = {packet + 1: self.rows.of(packet + 1) for packet in offered if not columns.is_kept[packet]}

    def row_of(self, number: int) -> int | None:
        """The row of a packet."""
        return self.rows.of(number)[0]

    def play(self) -> Play:
        """The play by the rules at the part's begin."""
        return play_at(self.columns, self.part.begin, self.part.end.offers, self.seed, self.services)

    @property
    def origin(self) -> int:
        """The first arrival."""
        return int(self.columns.arrival[0]) if len(self.columns.arrival) else 0

    def asked(self, args: Namespace) -> Namespace:
        """The words that ask for what is told of the part."""
        return Namespace(packet=list(self.part.packets), at=list(self.part.moments), story=args.story, ns=args.ns)

    def count(self) -> int:
        """How many decisions are replayed."""
        return order(self.part.end) - order(self.part.begin)


def parts_of(columns: Columns, packets: Sequence[int], moments: Sequence[int], whole: bool = False) -> list[Part]:
    """The parts that are told, in their order: of a packet its offer and its sending, or with `whole` all between them too; of a moment
    what is decided at it. Parts that meet are one. With CBQ a part begins where all credits are known."""
    found = []
    for number in packets:
        offer, sending = columns.offered(number - 1), columns.sending_of(number - 1)
        behind = Point(offer.offers + 1, offer.sendings)
        if sending is not None:
            before = columns.sent(sending)
            after = Point(before.offers, before.sendings + 1)
            is_one = whole or order(after) - order(offer) <= NEAR
            found += [Part(offer, after, (number,))] if is_one else [Part(offer, behind, (number,)), Part(before, after, (number,))]
        else:
            found.append(Part(offer, behind, (number,)))
    found += [Part(columns.at(moment), columns.behind(moment), moments=(moment,)) for moment in moments]
    if columns.interface.discipline == "cbq":
        found = [replace(part, begin=known_point(columns, part.begin)) for part in found]
    return list(merged(sorted(found, key=lambda part: (order(part.begin), order(part.end)))))


def merged(parts: list[Part]) -> Iterator[Part]:
    """Parts in the order of their begins, those that meet or nearly do as one."""
    last: Optional[Part] = None
    for part in parts:
        if last is not None and order(part.begin) <= order(last.end) + NEAR:
            last = last.joined(part)
        else:
            if last is not None:
                yield last
            last = part
    if last is not None:
        yield last


@dataclass
class Windows:
    """A long play of which parts are asked for."""

    columns: Columns
    services: Services
    seed: int

    def windows(self, packets: Sequence[int], moments: Sequence[int], whole: bool = False) -> list[Window]:
        """The questions of what is asked for, in their order."""
        return [Window(self.columns, self.services, self.seed, part) for part in parts_of(self.columns, packets, moments, whole)]


def windows(args: Namespace) -> Windows:
    """The play that some words name. `Unordered` where the file has no whole play in the order of decisions, whose fault a replay finds."""
    interface = read_conf(args.config, args.interface, args.program)
    data = file_of(args.fates)
    try:
        fates = Fates(args.fates, Fields(tidied(data, False) if args.foreign else data, FATES_HEAD))
    except ValueError:
        raise Unordered from None
    columns = Columns(fates, interface)
    asks = args.arrivals or any(given.queue.rule in ("ecn", "rio") for given in classes_of(interface))
    frames = frames_of(args, interface, list(zip(columns.arrival.tolist(), columns.length.tolist()))) if asks else None
    services = None if frames is None else ([precedence(tos) for tos in frames], [is_capable(tos) for tos in frames])
    return Windows(columns, services, args.seed)

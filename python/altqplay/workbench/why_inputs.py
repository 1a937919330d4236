"""What `why` replays: the fates in their order, the packets that they tell of, and what a capture says of their frames."""

from __future__ import annotations

from argparse import Namespace
from dataclasses import dataclass

from .captures import ETHERNET, records
from .conf import Interface, read_conf
from .faults import Refused
from .journals import entry
from .meter import marked_services
from .rows import FATES_HEAD, Fate, lines, place
from .rules.classes import classes_of
from .rules.frames import is_capable, precedence, type_of_service
from .rules.packets import Packet
from .rules.play import Play


@dataclass
class Question:
    """A play that is replayed: its interface, the rows of its fates in their order, each with its number in the file, and the seed."""

    name: str
    interface: Interface
    rows: list[tuple[int, Fate]]
    packets: list[Packet]
    seed: int
    first_row = 0  # of those that are compared

    @property
    def dropped(self) -> dict[int, tuple[int, Fate]]:
        """The rows of the packets that are dropped, by number."""
        return {fate.number: (row, fate) for row, fate in self.rows if fate.start is None}

    @property
    def origin(self) -> int:
        """The first arrival."""
        return self.packets[0].arrival if self.packets else 0

    def row_of(self, number: int) -> int | None:
        """The row of a packet."""
        return next((row for row, fate in self.rows if fate.number == number), None)

    def play(self) -> Play:
        """The play by the rules, before its first decision."""
        return Play(self.interface, self.packets, self.seed)


def fates_of(name: str, is_foreign: bool = False) -> list[tuple[int, Fate]]:
    """The rows of a file of fates, each with its number in the file. `sent` and `dropped` stand for any rule, as another program writes them."""
    found = [(number, entry(name, number, words)) for number, words in lines(name, FATES_HEAD, is_foreign, False)]
    numbers = {fate.number for _row, fate in found}
    if len(numbers) < len(found):
        seen: set[int] = set()
        for _row, fate in found:
            if fate.number in seen:
                raise Refused(f"{name}: packet {fate.number} has two fates")
            seen.add(fate.number)
    missing = next((number for number in range(1, len(found) + 1) if number not in numbers), None)
    if missing is not None:
        raise Refused(f"{name}: packet {missing} has no fate: a play that was cut off cannot be replayed")
    return found


def places_of(interface: Interface) -> dict[str, int]:
    """The places of the classes that hold packets, by name."""
    classes = classes_of(interface)
    parents = {given.parent for given in classes}
    return {given.name: place for place, given in enumerate(classes) if interface.discipline == "cbq" or place not in parents}


def packets_of(name: str, rows: list[tuple[int, Fate]], interface: Interface, services: list[int | None] | None) -> list[Packet]:
    """The packets of some fates, in the order of the capture; `services` is None, or the type of service of each."""
    places = places_of(interface)
    found: list[Packet] = []
    for row, fate in sorted(rows, key=lambda pair: pair[1].number):
        if fate.name not in places:
            raise Refused(f"{name}: {place(row)}: {fate.name} is no class of {interface.name} that holds packets")
        if found and fate.arrival < found[-1].arrival:
            raise Refused(f"{name}: {place(row)}: packet {fate.number} arrives before packet {fate.number - 1}")
        if not fate.length:
            raise Refused(f"{name}: {place(row)}: packet {fate.number} has no length")
        tos = services[fate.number - 1] if services else None
        found.append(Packet(fate.number, fate.arrival, fate.length, places[fate.name], precedence(tos), is_capable(tos)))
    return found


def services_of(name: str, arrivals: list[tuple[int, int]]) -> list[int | None]:
    """The type of service of each record of a capture, which is refused where it is not that of packets with such arrivals and lengths."""
    latest, found, count = 0, [], len(arrivals)
    for number, record in enumerate(records(name), 1):
        latest = max(latest, record.at)
        if record.link != ETHERNET:
            raise Refused(f"{name}: record {number} is not of Ethernet; altqwork convert makes such a capture")
        length = max(record.length, len(record.data))
        if number <= count and arrivals[number - 1] != (latest, length):
            raise Refused(f"{name}: record {number} arrives at {latest} with {length} bytes, and the fates say otherwise")
        found.append(type_of_service(record.data))
    if len(found) < count:
        raise Refused(f"{name}: {len(found)} records, and packet {count} has a fate")
    return found


def frames_of(args: Namespace, interface: Interface, arrivals: list[tuple[int, int]]) -> list[int | None] | None:
    """The type of service of each frame of the capture that the words name, marked where classes have conditioners; None without one.
    `Refused` where a class looks at frames and there is none."""
    asks = [given for given in classes_of(interface) if given.queue.rule in ("ecn", "rio")]
    if asks and args.arrivals is None:
        raise Refused(f"{args.config}: class {asks[0].name} has {asks[0].queue.rule}, which looks at each frame: name the capture with --arrivals")
    services = services_of(args.arrivals, arrivals) if args.arrivals else None
    return marked_services(interface, args.arrivals, services, args.program) if services and interface.meters else services


def question(args: Namespace) -> Question:
    """The question of some words."""
    interface = read_conf(args.config, args.interface, args.program)
    rows = fates_of(args.fates, args.foreign)
    services = frames_of(args, interface, [(fate.arrival, fate.length) for _row, fate in sorted(rows, key=lambda pair: pair[1].number)])
    return Question(args.fates, interface, rows, packets_of(args.fates, rows, interface, services), args.seed)

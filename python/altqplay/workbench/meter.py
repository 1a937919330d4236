"""The colours that the conditioner of a class gives the packets of a capture, and what the buckets of its meter hold over time.

    altqwork meter --config altq.conf --class voice arrivals.pcap
    altqwork meter --config altq.conf --class voice --rows meter.csv --picture meter.svg arrivals.pcap

The packets of the class are those that the filters give it as they come, before any is marked: the capture is played without
conditioners, and the fates tell the classes (docs/reference/METERS.md). For each colour the packets and their bytes are counted. --rows
writes for each packet what the buckets hold when it comes, its colour, and what is left; amounts are bytes, exact. --picture draws the buckets over
time. The exit status is 0. It needs no library.
"""

import csv
import os
import tempfile
from collections import namedtuple

from .conf import read_conf
from .faults import Refused
from .meter_picture import picture
from .play import add_program, play
from .rows import fate_rows
from .rules.meters import GREEN, RED, YELLOW, Meter, mark
from .rules.units import BYTE
from .written import new_file

NAME = "meter"
HELP = "the colours that the conditioner of a class gives, and its buckets over time"

# A packet of the class: what the committed bucket and the other one hold when it comes, its colour, and what is left, in units.
Metered = namedtuple("Metered", "number moment length committed other colour committed_left other_left")


def add_arguments(parser):
    parser.add_argument("--config", required=True, metavar="FILE", help="the configuration")
    parser.add_argument("--class", required=True, dest="of_class", metavar="NAME", help="a class that has a conditioner")
    parser.add_argument("--rows", metavar="FILE", help="writes a row for each packet of the class")
    parser.add_argument("--picture", metavar="FILE", help="draws the buckets over time, as SVG")
    parser.add_argument("arrivals", help="the capture of the arrivals, as the program reads it")
    add_program(parser)


def unmarked_fates(interface, arrivals, program):
    """The fates of a play without conditioners, in the order of the packets."""
    with tempfile.TemporaryDirectory(prefix="altqwork-") as folder:
        config = os.path.join(folder, "unmarked.conf")
        with open(config, "w", encoding="ascii") as file:
            file.write(interface.unmarked)
        return sorted(fate_rows(play(config, interface.name, arrivals, folder, named=program).fates), key=lambda fate: fate.number)


def metered(rule, fates):
    """What a meter makes of some packets, in their order."""
    meter, found = Meter(rule), []
    for fate in fates:
        meter.fill(fate.arrival)
        before = meter.committed, meter.other
        colour = meter.colour(fate.arrival, fate.length)
        found.append(Metered(fate.number, fate.arrival, fate.length, *before, colour, meter.committed, meter.other))
    return found


def colours_of(interface, fates):
    """The meter and the colour of each packet that one is asked for, by its number; the fates are those without conditioners."""
    return {one.number: (rule, one.colour) for name, rule in interface.meters.items() for one in metered(rule, [fate for fate in fates if fate.name == name])}


def marked_services(interface, arrivals, services, program):
    """The type of service of each packet of a capture once the conditioners have marked it; None where a frame has none."""
    colours = colours_of(interface, unmarked_fates(interface, arrivals, program))
    found = [(colours.get(number), tos) for number, tos in enumerate(services, 1)]
    return [tos if coloured is None or tos is None else mark(coloured[0], coloured[1], tos) for coloured, tos in found]


def in_bytes(units):
    """An amount in bytes, exact."""
    whole, rest = divmod(units, BYTE)
    return f"{whole}.{rest * 125:012d}".rstrip("0") if rest else str(whole)


def table(rule, found):
    """A row for each packet, behind a head row."""
    head = ["number", "moment", "length", "committed", rule.other_bucket, "colour", "committedleft", rule.other_bucket + "left"]
    rows = [[str(one.number), str(one.moment), str(one.length), in_bytes(one.committed), in_bytes(one.other), one.colour,
             in_bytes(one.committed_left), in_bytes(one.other_left)] for one in found]
    return [head, *rows]


def packets_of(interface, config, name, arrivals, program):
    """The meter of a class, and what it makes of the packets of the class."""
    rule = interface.meters.get(name)
    if rule is None:
        raise Refused(f"{config}: {name} is no class with a conditioner")
    return rule, metered(rule, [fate for fate in unmarked_fates(interface, arrivals, program) if fate.name == name])


def rows_of(config, interface, name, arrivals, program):
    """What the meter of a class makes of a capture: a row for each packet of the class, behind a head row."""
    return table(*packets_of(read_conf(config, interface, program), config, name, arrivals, program))


def run(args):
    interface = read_conf(args.config, args.interface, args.program)
    rule, found = packets_of(interface, args.config, args.of_class, args.arrivals, args.program)
    print(f"{'':8}{'packets':>9}{'bytes':>13}")
    for colour in (GREEN, YELLOW, RED):
        own = [one.length for one in found if one.colour == colour]
        print(f"{colour:8}{len(own):>9}{sum(own):>13}")
    if args.rows:
        with new_file(args.rows, "w", newline="", encoding="ascii") as file:
            csv.writer(file, lineterminator="\n").writerows(table(rule, found))
    if args.picture:
        with new_file(args.picture, "w", encoding="ascii") as file:
            file.write(picture(args.of_class, rule, found))
    return 0

"""Plays a few bursts by NAME.conf and prints the fate of each packet.

    altqwork try voice 50x1000@0 1x200@10000000:5004
    altqwork try halves --leaves 'pshare 50' 'pshare 50' 3x1000@0:5004 5x600@0 --line number,class,start
    altqwork try meter --meter 'srtcm 8M 1500 1500' 3x1000@0

A burst COUNTxLENGTH@TIME[:WHAT[:TOS]] is COUNT frames of LENGTH bytes that all come TIME nanoseconds after 0. WHAT is the port of UDP
that they go to, 9000 without it, or tcp, icmp or arp; TOS is the type of service.

Beside NAME.conf stand then NAME.pcap, the arrivals, NAME.csv, the fates, NAME-out.pcap, the departures, and NAME-stats.csv, the
statistics. --leaves writes NAME.conf first: a link of 8 Mbit/s, a leaf `a` for UDP port 5004 and a leaf `b` for all else, each with the
options given. --meter writes one leaf `a` with this conditioner, and what is printed of each packet is then what its meter holds, its
colour, and what is left. The exit status is 0. It needs no library.
"""

from __future__ import annotations

import csv
import sys
from argparse import ArgumentParser, Namespace

from .bursts import capture
from .conf import interface_named
from .faults import Refused
from .meter import rows_of
from .play import add_program, answer
from .rows import FATES_HEAD, fate_rows
from .written import new_file

NAME = "try"
HELP = "plays a few bursts by a configuration, and prints the fate of each packet"
COLUMNS = "number, arrival, length, class, fate, start and end"


def add_arguments(parser: ArgumentParser) -> None:
    parser.add_argument("name", metavar="NAME", help="the play: its configuration is NAME.conf")
    parser.add_argument("bursts", metavar="BURST", nargs="+", help="COUNTxLENGTH@TIME[:PORT|:tcp|:icmp|:arp[:TOS]]")
    parser.add_argument("--leaves", nargs=2, metavar=("A", "B"), help="writes NAME.conf: two leaves of HFSC with these options")
    parser.add_argument("--meter", metavar="RULE", help="writes NAME.conf: one leaf with this conditioner, as 'srtcm CIR CBS EBS'")
    parser.add_argument("--bandwidth", metavar="RATE", default="8M", help="the link of --leaves and --meter, 8M without it")
    parser.add_argument("--seed", metavar="N", default="42", help="the seed of the play, 42 without it")
    parser.add_argument("--shares", action="store_true", help="plays by `altqplay shares`, and prints how far the shares of siblings lay apart")
    parser.add_argument("--drops", action="store_true", help="prints the packets that were dropped alone")
    parser.add_argument("--line", metavar="COLUMNS", help=f"prints in one line these columns, of {COLUMNS}")
    parser.add_argument("--quiet", action="store_true", help="prints nothing")
    add_program(parser)


def configuration(args: Namespace) -> list[str]:
    """The lines of the configuration that --leaves or --meter asks for."""
    head = [f"interface if0 bandwidth {args.bandwidth} hfsc", "class hfsc if0 root NULL pshare 100"]
    if args.meter is not None:
        return [*head, "class hfsc if0 a root pshare 100 default", f"conditioner if0 a {args.meter} 1"]
    first, second = args.leaves
    return [*head, f"class hfsc if0 a root {first}", f"class hfsc if0 b root {second} default", "filter if0 a 0 5004 0 0 udp"]


def shown(args: Namespace, fates: str) -> list[list[str]]:
    """The rows that are printed, the head row first."""
    if args.meter is not None:
        return rows_of(f"{args.name}.conf", args.interface, "a", f"{args.name}.pcap", args.program)
    rows = [["" if word is None else str(word) for word in fate] for fate in fate_rows(fates) if not args.drops or fate.end is None]
    return [FATES_HEAD, *rows]


def chosen(rows: list[list[str]], columns: str) -> list[list[str]]:
    """Some columns of rows, by the names in the head row."""
    names = columns.split(",")
    unknown = [name for name in names if name not in rows[0]]
    if unknown:
        raise Refused(f"no column {unknown[0]}: {', '.join(rows[0])}")
    return [[row[rows[0].index(name)] for name in names] for row in rows]


def run(args: Namespace) -> int:
    arrivals = capture(args.bursts)
    config, fates = f"{args.name}.conf", f"{args.name}.csv"
    if args.leaves is not None or args.meter is not None:
        with new_file(config, "w", encoding="ascii") as file:
            file.writelines(line + "\n" for line in configuration(args))
    interface = interface_named(config, args.interface)
    with new_file(f"{args.name}.pcap", "wb") as capture_file:
        capture_file.write(arrivals)
    said = answer(args.program, ["shares" if args.shares else "play", "--config", config, "--interface", interface, "--seed", args.seed,
                                 "--arrivals", f"{args.name}.pcap", "--departures", f"{args.name}-out.pcap", "--fates", fates,
                                 "--stats", f"{args.name}-stats.csv"])
    if args.shares:
        print(said, end="")
    elif args.line is not None:
        print(" ".join(",".join(row) for row in chosen(shown(args, fates), args.line)))
    elif not args.quiet:
        csv.writer(sys.stdout, lineterminator="\n").writerows(shown(args, fates))
    return 0

"""Compares two plays of the same arrivals, or another program's journal with ours: which packets changed fate, how the delays
moved, and where the first difference is.

    altqwork compare before.csv after.csv
    altqwork compare --first --ignore-rule ours.csv theirs.csv
    altqwork compare --foreign --config altq.conf --arrivals arrivals.pcap ours.csv theirs.csv

--foreign tests the second file before it is compared: by `altqplay verify` where the program has it and a configuration and the
arrivals are named, else by plain tests, which prove nothing: order within each class, starts, a link that carries one packet at
a time, and with --config or --bandwidth the ends. The delay of a packet that was sent is its end minus its arrival; a median is
the lower of two middle values. The exit status is 0 where nothing differs, 1 where something does or a test fails, and 2 where
the files are no fates of the same arrivals. Without --by-class it needs no library.
"""

import os
import re
import subprocess
import tempfile
from collections import Counter

from . import play
from .captures import records, write_ethernet
from .conf import read_conf
from .faults import Refused
from .journals import by_moment, delay, faults, read_journal, row_text, same_arrivals, without_rule
from .rows import FATES_HEAD, place
from .texts import Times, add_times, aligned

NAME = "compare"
HELP = "two plays packet by packet, or another program's journal with ours"
SHOWN = 10
REFUSED_WORDS = 2
RULES = {"sent": "share", "dropped": "full"}


def add_arguments(parser):
    parser.add_argument("--first", action="store_true", help="shows the first decision that differs, and what waited then")
    parser.add_argument("--ignore-rule", action="store_true", help="looks only at whether a packet was sent, not by which rule")
    parser.add_argument("--by-class", action="store_true", help="also says the delays of each class, as altqwork delays does")
    parser.add_argument("--late", type=int, metavar="N", help="also says which packets take more than N nanoseconds in the second alone")
    parser.add_argument("--length", type=int, metavar="N", help="looks only at packets of N bytes")
    parser.add_argument("--class", dest="name", metavar="NAME", help="looks only at packets that are of this class in both")
    parser.add_argument("--foreign", action="store_true", help="takes rows of another program, as CRLF and floats, and tests the second file first")
    parser.add_argument("--each-rounded", action="store_true", help="takes ends that are rounded packet by packet, as ns-3 has them, in the test of --foreign")
    parser.add_argument("--config", metavar="FILE", help="the configuration of the plays, for --foreign")
    parser.add_argument("--arrivals", metavar="FILE", help="the capture of the arrivals, for --foreign")
    parser.add_argument("--bandwidth", type=int, metavar="BITS", help="bits per second of the link, for --foreign without --config")
    play.add_program(parser)
    add_times(parser)
    parser.add_argument("first_file", metavar="first", help="fates")
    parser.add_argument("second_file", metavar="second", help="fates of the same arrivals")


def listed(numbers):
    """The first few of some numbers."""
    text = " ".join(str(number) for number in numbers[:SHOWN])
    return text + (f" and {len(numbers) - SHOWN} more" if len(numbers) > SHOWN else "")


def changed_fates(first, second):
    """The lines on packets that changed fate, and how many did."""
    changed: dict[tuple[str, str], list[int]] = {}
    moved = [n for n in sorted(first) if first[n].name != second[n].name]
    for number in sorted(first):
        pair = first[number].fate, second[number].fate
        if pair[0] != pair[1]:
            changed.setdefault(pair, []).append(number)
    count = sum(len(numbers) for numbers in changed.values())
    lines = [f"changed fate: {count} of {len(first)} packets"]
    lines += [f"  {before} -> {after}: {len(numbers)} ({listed(numbers)})" for (before, after), numbers in sorted(changed.items())]
    lines += [f"of another class: {len(moved)} ({listed(moved)})"] if moved else []
    return lines, count + len(moved)


def spread(label, values, times):
    """Count, least, median and greatest of some times, as a row of a table."""
    ranked = sorted(values)
    return [f"  {label}", str(len(ranked)), *(times.number(ranked[at]) for at in (0, (len(ranked) - 1) // 2, -1) if ranked)]


def moved_delays(first, second, times):
    """The lines on how the delays moved, and how many did."""
    moves = [second[n].end - first[n].end for n in first if first[n].end is not None and second[n].end is not None]
    rows = [[f"delays in {times.unit}", "packets", "least", "median", "greatest"]]
    for label, side in (("sent in the first", first), ("sent in the second", second)):
        rows.append(spread(label, [delay(fate) for fate in side.values() if fate.end is not None], times))
    rows.append(spread("sent in both: moved by", moves, times))
    counts = f"  of those sent in both: {sum(m < 0 for m in moves)} earlier, {moves.count(0)} the same, {sum(m > 0 for m in moves)} later"
    return [*aligned(rows), counts], len(moves) - moves.count(0)


def is_late(fate, most):
    return fate.end is not None and delay(fate) > most


def late(first, second, most):
    """The lines on packets that became late."""
    counts = [sum(1 for fate in side.values() if is_late(fate, most)) for side in (first, second)]
    became = [n for n in sorted(first) if is_late(second[n], most) and not is_late(first[n], most)]
    return [f"later than {most} ns: {counts[0]} in the first, {counts[1]} in the second",
            f"  became late: {len(became)}" + (f" ({listed(became)})" if became else "")]


def waiting(journal, at):
    """What waits by a journal at a moment, before the choice: by class the numbers of its packets."""
    found: dict[str, list[int]] = {}
    for number in sorted(journal):
        fate = journal[number]
        if fate.start is not None and fate.arrival <= at <= fate.start:
            found.setdefault(fate.name, []).append(number)
    return found


def first_difference(first, second):
    """The lines on the first decision that differs."""
    for count, (ours, theirs) in enumerate(zip(by_moment(first), by_moment(second)), 1):
        if ours == theirs:
            continue
        at = min(fate.arrival if fate.start is None else fate.start for fate in (ours, theirs))
        lines = [f"first difference: decision {count}, at {at}", f"  first  {row_text(ours)}", f"  second {row_text(theirs)}"]
        return lines + [f"  waits in {name}: {listed(numbers)}" for name, numbers in waiting(first, at).items()]
    return ["first difference: none"]


def verified(args, journal):
    """What `altqplay verify` says of the second file, with its status; None where the program has no such command.

    The departures it is given are the frames as they came, stamped with the ends, so a class that changes frames is not verified.
    Its fates are the rows of the file, with `share` for `sent` and `full` for `dropped`.
    """
    rows, frames = list(journal.values()), list(records(args.arrivals))
    if any(not 1 <= fate.number <= len(frames) for fate in rows):
        raise Refused(f"{args.arrivals}: {len(frames)} records, and another number has a fate")
    with tempfile.TemporaryDirectory(prefix="altqwork-") as folder:
        departures, fates = os.path.join(folder, "departures.pcap"), os.path.join(folder, "fates.csv")
        write_ethernet(departures, [frames[fate.number - 1]._replace(at=fate.end) for fate in by_moment(journal) if fate.end is not None])
        with open(fates, "w", encoding="ascii") as file:
            named = [fate._replace(fate=RULES.get(fate.fate, fate.fate)) for fate in rows]
            file.write("".join(f"{line}\n" for line in [",".join(FATES_HEAD), *map(row_text, named)]))
        words = ["verify", "--config", args.config, "--interface", read_conf(args.config, args.interface, args.program).name,
                 "--arrivals", args.arrivals, "--departures", departures, "--fates", fates]
        done = subprocess.run([play.program(args.program), *words], stdout=subprocess.PIPE, stdin=subprocess.DEVNULL, check=False)
    return None if done.returncode == REFUSED_WORDS else (done.stdout.decode("ascii", "replace").splitlines(), done.returncode)


def with_line(text):
    """What `altqplay verify` says of a row of the fates, with the file's line too; the rows of kind 8 are records of departures."""
    return re.sub(r"\brow (\d+) kind (?!8\b)", lambda found: f"{place(int(found[1]) + 1)} kind ", text)


def tested(args, second):
    """The lines on whether the second file can be what a link did, and how many tests fail. The program takes no ends that are rounded
    packet by packet, so the plain tests stand for it where these are taken."""
    answer = verified(args, second) if args.config and args.arrivals and not args.each_rounded else None
    if answer is not None:
        return [f"altqplay verify: {with_line(line)}" for line in answer[0]], int(answer[1] != 0)
    bandwidth = args.bandwidth
    if args.config:
        bandwidth = read_conf(args.config, args.interface, args.program).bandwidth
    found = faults(second, bandwidth, args.each_rounded)
    ends = "ends" if bandwidth else "not ends, since no --config or --bandwidth tells them"
    lines = [f"plain tests of the second (order, starts, one packet at a time, {ends}): {len(found) or 'none'} fail; this is no proof"]
    return lines + [f"  packet {fate.number} {text}" for fate, text in found[:SHOWN]], len(found)


def selected(first, second, args):
    """The packets that are looked at."""
    own = [n for n in first if args.length in (None, first[n].length) and (args.name is None or first[n].name == second[n].name == args.name)]
    return {n: first[n] for n in own}, {n: second[n] for n in own}


def by_class(first, second, times):
    """The table of the delays by class."""
    from .delays import class_rows
    from .numbered import Numbered, classes_of

    one, other = (Numbered.of_rows(side.values()) for side in (first, second))
    return aligned(class_rows(one, other, classes_of(one, other), times)[0])


def run(args):
    first, second = (read_journal(name, args.foreign) for name in (args.first_file, args.second_file))
    same_arrivals(first, second)
    lines, failed = tested(args, second) if args.foreign else ([], 0)
    if args.ignore_rule:
        first, second = ({n: without_rule(fate) for n, fate in side.items()} for side in (first, second))
    first, second = selected(first, second, args)
    for label, name, side in (("first", args.first_file, first), ("second", args.second_file, second)):
        counts = Counter(fate.fate for fate in side.values())
        lines.append(f"{label + ':':<8}{name}: " + ", ".join(f"{n} {fate}" for fate, n in sorted(counts.items())))
    times, (told, changed) = Times(args.ns), changed_fates(first, second)
    more, moved = moved_delays(first, second, times)
    lines += told + more
    lines += by_class(first, second, times) if args.by_class else []
    lines += late(first, second, args.late) if args.late is not None else []
    lines += first_difference(first, second) if args.first else []
    print("\n".join(lines))
    return 1 if changed + moved + failed else 0

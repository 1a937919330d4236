"""Says which packets miss their due moments, by how much, how long all take, and which are dropped: by class and by flow, for one
play or before and after a change.

    altqwork late --before today.conf --after new.conf arrivals.pcap
    altqwork late --config today.conf --want 'voice delay<10ms' --want 'voice drop=0' arrivals.pcap

A packet of a leaf with a real-time curve is due when the curve has given what was sent up to and with it, from each of the
leaf's openings on (docs/reference/HFSC.md, "Due moments"). `missed` counts the packets that end after their due moments, `late` those
that do so by more than --allow, by default the time of one longest packet, which check's `fits` promises; `worst` is the
greatest end less due moment. A class without a real-time curve promises nothing: its packets have no due moment, and none of
them is late, however long it takes. Where a change takes a curve away, it is said how many packets lost their due moments.

The exit status is 0 where the play, or the one after the change, has no late packet, the change took no packet's due moment away,
and each --want is kept; else 1. --rows and --capture write files whose numbers are exact.
"""

import csv

import numpy

from . import plays, wants
from .delays import ranks
from .faults import Refused
from .flows import Flows
from .texts import Times, add_times, aligned
from .written import new_file

NAME = "late"
HELP = "each packet's due moment, by how much it was missed, delays, and what was dropped"
SHOWN = 10
DELAYS = ["median", "99 in 100", "greatest"]
LATENESS = ["due", "missed", "late", "worst"]
TIMES = {*DELAYS, "least", "worst"}  # the columns that are times


def add_arguments(parser):
    plays.add_arguments(parser)
    parser.add_argument("--flows", type=int, default=SHOWN, metavar="N", help=f"how many flows to tell, {SHOWN} by default")
    parser.add_argument("--rows", metavar="FILE", help="writes a row for each packet: number, class, arrival, end, due moment, missed by")
    parser.add_argument("--capture", metavar="FILE", help="writes a capture of the packets that are late or dropped (after the change)")
    wants.add_wants(parser)
    add_times(parser)


def lateness(side, own):
    """Of the packets at some places of a play: how many have a due moment, end after it, are late, and the worst. None for what
    nothing is known of."""
    missed = side.missed[own[side.has_due[own]]]
    if not len(missed):
        return [0, None, None, None]
    return [len(missed), int((missed > 0).sum()), int(side.is_late[own].sum()), int(missed.max())]


def delays(side, own):
    """The least delay of the packets sent at some places of a play, those by rank, and the greatest; None each where none is sent."""
    sent = own[side.is_sent[own]]
    return ranks(side.end[sent] - side.arrival[sent])


def counts(side, own):
    """The numbers of the packets at some places of a play, in the order of the table's head."""
    return [len(own), int((~side.is_sent[own]).sum()), *delays(side, own)[1:], *lateness(side, own)]


def has_due(sides):
    """Whether any packet of some plays has a due moment."""
    return any(side.has_due.any() for side in sides)


def head(sides):
    """The head of the table's numbers: without due moments where no packet has one."""
    return ["packets", "dropped", *DELAYS, *(LATENESS if has_due(sides) else [])]


def line(label, names, numbers, times):
    """A row of a table."""
    return [f"  {label}", *(times.number(number) if name in TIMES else "-" if number is None else str(number) for name, number in zip(names, numbers))]


def listed(numbers):
    """The first few of some numbers."""
    if not len(numbers):
        return "0"
    text = " ".join(str(n) for n in numbers[:SHOWN].tolist())
    return f"{len(numbers)} ({text}" + (f" and {len(numbers) - SHOWN} more)" if len(numbers) > SHOWN else ")")


def without_due(first, second, own):
    """The packets at some places that are sent in both plays and lost their due moments by the change."""
    return own[first.has_due[own] & second.is_sent[own] & ~second.has_due[own]]


def counted(number, one, more):
    """So many of something."""
    return f"{number} {one if number == 1 else more}"


def changed(first, second, own):
    """What a change did to the packets at some places: which lost their due moments, became late or are dropped now, and how many are
    late or dropped no more."""
    was_late, is_late, was_sent, is_sent = first.is_late[own], second.is_late[own], first.is_sent[own], second.is_sent[own]
    lost, told = len(without_due(first, second, own)), []
    if lost:
        told.append(f"{lost:,} {'packet has' if lost == 1 else 'packets have'} no due moment any more")
    if was_late.any() or second.has_due[own].any():
        mended = int((was_late & ~is_late & second.has_due[own]).sum())
        told.append(f"became late: {listed(first.number[own[is_late & ~was_late]])}, late no more: {mended}")
    dropped = first.number[own[was_sent & ~is_sent]]
    return [*told, f"dropped now: {listed(dropped)}, sent now: {int((~was_sent & is_sent).sum())}"]


def class_table(sides, times):
    """The rows of the table by class."""
    names = head(sides)
    rows = [[f"times in {times.unit}", *names]]
    for name in plays.class_names(sides):
        rows.append([name])
        rows += [line(side.label, names, counts(side, side.class_is(name)), times) for side in sides]
        if len(sides) == 2:
            rows += [["  " + told] for told in changed(sides[0], sides[1], plays.of_either(sides, name))]
    return rows


def losses(side):
    """Which packets of a play are late or dropped."""
    return side.is_late | ~side.is_sent


def losing_flows(sides, flows, most):
    """The flows that lose most in the last play, each with the places of its packets in each play."""
    ofs = [flows.of[side.number - 1] for side in sides]
    lost = numpy.bincount(ofs[-1][losses(sides[-1])], minlength=len(flows.names))
    for flow in numpy.argsort(-lost, kind="stable")[:most].tolist():
        if lost[flow]:
            yield flow, [numpy.flatnonzero(of == flow) for of in ofs]


def flow_table(sides, flows, most, times):
    """The rows of the flows that lose most in the last play, with their numbers in each."""
    names, rows = head(sides), []
    for flow, owns in losing_flows(sides, flows, most):
        rows.append([flows.names[flow]])
        rows += [line(side.label, names, counts(side, own), times) for side, own in zip(sides, owns)]
    return [["flows that lose most:"], *rows] if rows else []


def write_rows(name, sides):
    """Writes a row for each packet of each play, times in nanoseconds."""
    with new_file(name, "w", newline="", encoding="ascii") as file:
        rows = csv.writer(file, lineterminator="\n")
        rows.writerow(["play", "number", "class", "arrival", "end", "due", "missed"])
        for side in sides:
            names = [side.class_names[code] for code in side.of_class.tolist()]
            columns = (side.number, side.arrival, side.end, side.due, side.missed, side.is_sent, side.has_due)
            for of, number, arrival, end, due, missed, is_sent, is_due in zip(names, *(values.tolist() for values in columns)):
                rows.writerow([side.label, number, of, arrival, end if is_sent else "", due if is_due else "", missed if is_due else ""])


def heading(side, times):
    """What counts as late in a play, and what check says of it."""
    if not side.has_due.any():
        return f"{side.label}: {side.interface.fit}; no packet has a due moment"
    return (f"{side.label}: {side.interface.fit}; late is what ends more than {times.text(side.allowed)} after its due moment"
            f" (longest packet sent: {side.longest} bytes)")


def is_well(sides, verdicts):
    """Whether the last play has no late packet, no packet lost its due moment by the change, and each want is kept."""
    has_lost = len(sides) == 2 and len(without_due(sides[0], sides[1], plays.every(sides[0])))
    return not (sides[-1].is_late.any() or has_lost) and wants.all_kept(verdicts)


def run(args):
    if args.capture and not plays.captures_of(args):
        raise Refused("--capture needs the capture of the arrivals")
    times = Times(args.ns)
    with plays.Question(args) as question:
        sides = question.sides
        verdicts = wants.of_sides(args.wants, sides)
        print("\n".join(question.told + question.missing + [heading(side, times) for side in sides]))
        flows = flow_table(sides, Flows(question.frames), args.flows, times) if question.frames else []
        print("\n".join(aligned(class_table(sides, times) + flows) + wants.lines([side.label for side in sides], verdicts, times)))
        if args.rows:
            write_rows(args.rows, sides)
        if args.capture:
            question.frames.write(args.capture, sides[-1].number[losses(sides[-1])].tolist())
        return 0 if is_well(sides, verdicts) else 1

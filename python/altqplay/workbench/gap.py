"""How the sibling classes of HFSC shared the link, and how far their shares lay apart over time, from the fates of a play:
`altqplay shares`, seen while it happens.

    altqwork gap --config altq.conf --fates fates.csv
    altqwork gap --config altq.conf --fates fates.csv --pair a b --rows gap.csv --picture gap.svg

For each pair of siblings with linear link-sharing curves it says which part of what the two were sent while both waited each got, and
which part is its share. A stretch is a part of the play in which packets of both siblings, or below them, wait after each event. With
the rates r1 and r2 of the two and U1 and U2, what they were sent in a stretch, the gap is the greatest time |U1/r1 - U2/r2| over all
stretches (docs/teaching/FAIRNESS.md). It is told with its bound, and with the moments after the first arrival at which the stretch begins and
ends that has it. --rows writes, for each event of a stretch, the greatest gap of the stretches that end with it, in nanoseconds, and
--picture draws these over time, with the bound as a line. The exit status is 0. It needs no library.
"""

import csv
from collections import Counter, namedtuple

from .conf import read_conf
from .faults import Refused
from .foreign import add_foreign
from .gap_picture import picture
from .play import add_program
from .rows import fate_rows, place
from .texts import Times, add_times
from .written import new_file

NAME = "gap"
HELP = "how sibling classes shared the link, and how far their shares lay apart over time"
BYTE = 8 * 10**9  # units, of which a rate of r bits per second gives r in a nanosecond

# The greatest gap of a pair in nanoseconds, and the moments between which it came about; None where no stretch has one.
Greatest = namedtuple("Greatest", "gap first last")


def add_arguments(parser):
    parser.add_argument("--config", required=True, metavar="FILE", help="the configuration of the play")
    parser.add_argument("--fates", required=True, metavar="FILE", help="the fates of the play")
    parser.add_argument("--pair", nargs=2, metavar="NAME", help="the siblings of --rows and --picture; else the first with linear curves")
    parser.add_argument("--rows", metavar="FILE", help="writes the gap over time: a row for each event of a stretch")
    parser.add_argument("--picture", metavar="FILE", help="draws the gap over time, as SVG")
    parser.add_argument("--bound", type=int, metavar="N", help="the line of the picture, where the pair has no bound")
    add_program(parser)
    add_foreign(parser)
    add_times(parser)


def fates_of(name, interface, is_foreign=False):
    """The fates of a file, in its order. `Refused` where one is of a class that the interface does not have."""
    found, known = [], interface.classes or ("default",)
    for row, fate in enumerate(fate_rows(name, is_foreign), 2):
        if fate.name not in known:
            raise Refused(f"{name}: {place(row)}: {fate.name} is no class of {interface.name}")
        found.append(fate)
    return found


def path(interface, name):
    """A class and those above it."""
    while name is not None:
        yield name
        name = interface.classes[name].parent


def pairs(interface):
    """The pairs of siblings, in the order of the file; CBQ has none."""
    if interface.discipline == "cbq":
        return []
    classes = [found for found in interface.classes.values() if found.parent is not None]
    return [(one.name, other.name) for i, one in enumerate(classes) for other in classes[i + 1:] if one.parent == other.parent]


def rate(interface, name):
    """The rate of a class whose link-sharing curve is a line, else None."""
    curve = interface.classes[name].share
    return curve.m2 if curve.d == 0 or curve.m1 == curve.m2 else None


def bound(interface, name, longest):
    """The bound of a pair of which this class is one, or None; `longest` is the greatest length that was sent."""
    if any(found.limit or interface.promised(found.name) for found in interface.classes.values()):
        return None
    parent = interface.classes[name].parent
    curves = [found.share for found in interface.classes.values() if found.parent == parent]
    return 2 * max(-(-longest * BYTE // curve.m2) + (curve.d if curve.m1 < curve.m2 else 0) for curve in curves) + 2


def events(fates):
    """What happens in a play, in order: a kept packet comes, or one starts. What comes as another starts comes first."""
    sent = [fate for fate in fates if fate.start is not None]
    come = [(fate.arrival, 0, fate.number, fate) for fate in sent]
    found = come + [(fate.start, 1, at, fate) for at, fate in enumerate(sent)]
    return [(at, is_start == 1, fate) for at, is_start, _order, fate in sorted(found, key=lambda event: event[:3])]


def stretches(interface, fates, pair):
    """The longest stretches of a pair, each with a moment and what U1*r2 - U2*r1 is, in bytes times bits per second, after each event."""
    waiting: Counter[str] = Counter()
    value, stretch, found = 0, None, []
    weights = {pair[0]: rate(interface, pair[1]), pair[1]: -rate(interface, pair[0])}
    for at, is_start, fate in events(fates):
        for name in path(interface, fate.name):
            waiting[name] += -1 if is_start else 1
            value += weights.get(name, 0) * fate.length if is_start else 0
        if not all(waiting[name] for name in pair):
            stretch = None
        elif stretch is None:
            value, stretch = 0, [(at, 0)]
            found.append(stretch)
        else:
            stretch.append((at, value))
    return found


def gaps(interface, stretch, pair):
    """For each event of a stretch its moment, the greatest gap of those that end with it, and the moment at which that one begins."""
    product = rate(interface, pair[0]) * rate(interface, pair[1])
    least = most = stretch[0]
    for at, value in stretch:
        least, most = min(least, (at, value), key=lambda point: point[1]), max(most, (at, value), key=lambda point: point[1])
        other = max(least, most, key=lambda point: abs(value - point[1]))
        yield at, -(-abs(value - other[1]) * BYTE // product), other[0]


def greatest(interface, fates, pair):
    """The greatest gap of a pair with linear curves."""
    found = Greatest(0, None, None)
    for stretch in stretches(interface, fates, pair):
        for at, gap, first in gaps(interface, stretch, pair):
            if gap > found.gap:
                found = Greatest(gap, first, at)
    return found


def longest_of(fates):
    """The greatest length that was sent, or 0."""
    return max((fate.length for fate in fates if fate.start is not None), default=0)


def line(interface, fates, pair, longest):
    """What `altqplay shares` says of a pair, and the moments of its gap, or None."""
    if None in (rate(interface, pair[0]), rate(interface, pair[1])):
        return f"{pair[0]} {pair[1]} bound none", None
    most, limit = greatest(interface, fates, pair), bound(interface, pair[0], longest)
    return f"{pair[0]} {pair[1]} gap {most.gap} bound {'none' if limit is None else limit}", most if most.gap else None


def sent_while_both_wait(interface, fates, pair):
    """The bytes of each of a pair that were sent while packets of both waited, with the packet that is sent."""
    waiting: Counter[str] = Counter()
    found = [0, 0]
    for _at, is_start, fate in events(fates):
        above = list(path(interface, fate.name))
        if is_start and all(waiting[name] for name in pair):
            for number, name in enumerate(pair):
                found[number] += fate.length if name in above else 0
        for name in above:
            waiting[name] += -1 if is_start else 1
    return found


def percent(part, whole):
    """A part as a whole number of hundredths, half a one rounded up."""
    return f"{(200 * part + whole) // (2 * whole)} %"


def sentence(interface, fates, pair):
    """How a pair shared the link, in a sentence."""
    sent, rates = sent_while_both_wait(interface, fates, pair), [rate(interface, name) for name in pair]
    if not sum(sent):
        return "they never waited at one time"
    told_of = f"while both waited, {pair[0]} got {percent(sent[0], sum(sent))} of what the two were sent"
    return told_of + ("; one of their curves is bent, so neither has one share" if None in rates else f"; its share is {percent(rates[0], sum(rates))}")


def why_unbound(interface):
    """Why there is no bound on the gaps of an interface."""
    has_real = any(interface.promised(name) for name in interface.classes)
    return "no bound, since " + ("real time goes before shares" if has_real else "an upper limit may hold a class back")


def told(interface, fates, pair, longest, times):
    """The lines on a pair."""
    lines = [f"{pair[0]} and {pair[1]}: {sentence(interface, fates, pair)}"]
    if None in (rate(interface, pair[0]), rate(interface, pair[1])):
        return lines
    most, limit, first = greatest(interface, fates, pair), bound(interface, pair[0], longest), min((fate.arrival for fate in fates), default=0)
    text = f"  gap {times.text(most.gap)}, " + (why_unbound(interface) if limit is None else f"bound {times.text(limit)}")
    return lines + [text + (f", from {times.number(most.first - first)} to {times.text(most.last - first)}" if most.gap else "")]


def write_rows(name, interface, found, pair):
    """Writes the gap over time."""
    with new_file(name, "w", newline="", encoding="ascii") as file:
        rows = csv.writer(file, lineterminator="\n")
        rows.writerow(["first", "second", "stretch", "moment", "gap"])
        for number, stretch in enumerate(found, 1):
            rows.writerows([*pair, number, at, gap] for at, gap, _first in gaps(interface, stretch, pair))


def pair_of(args, interface):
    """The pair that is to be drawn. `Refused` where there is none."""
    found = [pair for pair in pairs(interface) if None not in (rate(interface, pair[0]), rate(interface, pair[1]))]
    asked = tuple(args.pair) if args.pair else found[0] if found else None
    if asked not in found:
        raise Refused(f"{args.config}: no siblings with linear curves" + (f": {' '.join(asked)}" if asked else ""))
    return asked


def run(args):
    interface = read_conf(args.config, args.interface, args.program)
    fates, times = fates_of(args.fates, interface, args.foreign), Times(args.ns)
    longest = longest_of(fates)
    if not pairs(interface):
        print(f"{interface.name}: no two classes of HFSC have one parent")
    for pair in pairs(interface):
        print("\n".join(told(interface, fates, pair, longest, times)))
    if args.rows or args.picture:
        pair = pair_of(args, interface)
        found = stretches(interface, fates, pair)
        if args.rows:
            write_rows(args.rows, interface, found, pair)
        if args.picture:
            drawn = [[(at, gap) for at, gap, _first in gaps(interface, stretch, pair)] for stretch in found]
            own = bound(interface, pair[0], longest)
            with new_file(args.picture, "w", encoding="ascii") as file:
                file.write(picture(f"{pair[0]} and {pair[1]}", drawn, own or args.bound, own is not None))
    return 0

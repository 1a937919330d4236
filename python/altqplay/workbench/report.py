"""Writes one page that stands alone, HTML with nothing to load: a play by class, or before and after a change.

    altqwork report --config pf.conf --arrivals lan.pcap page.html
    altqwork report --before today.conf --after new.conf --want 'voice delay<10ms' --arrivals lan.pcap page.html
    altqwork report --config today.conf --fates fates.csv page.html

A configuration is an altq.conf, a pf.conf or lines of tc, which is imported; a capture may be of any kind, and is converted.

On top a line a class says how long its slowest packet takes, whether that is worse, what is dropped, and whether each --want is
kept. Below it a picture a class shows the greatest delays and the drops over time, in 300 steps, before and after on one axis;
--from and --to draw a part in finer steps. What is folded below has all numbers, of the whole play: the delays by rank, the
lateness (as `late` says it), the packets that wait, the rates, the flows that lose most, the packets that became late or are
dropped now. What a change made another number is bold. --picture also writes what the page shows as PNG, by Chromium.

The exit status is that of `late`: 0 where the play, or the one after the change, has no late packet, the change took no packet's due
moment away, and each --want is kept; else 1, and what is not so is said.
"""

import decimal

from . import browser, late, page, plays, summary, wants
from .faults import Refused
from .flows import Flows
from .texts import Times, add_times
from .written import new_file

NAME = "report"
HELP = "one page that stands alone: a play by class, or before and after a change"


def milliseconds(text):
    """Milliseconds after the first arrival, as nanoseconds."""
    try:
        value = decimal.Decimal(text) * 10**6
    except decimal.InvalidOperation:
        raise ValueError(text) from None
    if value != value.to_integral_value() or value < 0:
        raise ValueError(text)
    return int(value)


def add_arguments(parser):
    plays.add_arguments(parser)
    parser.add_argument("--from", dest="begin", type=milliseconds, metavar="MS", help="draws from here on, milliseconds after the first arrival")
    parser.add_argument("--to", dest="end", type=milliseconds, metavar="MS", help="draws up to here")
    parser.add_argument("--flows", type=int, default=10, metavar="N", help="how many flows to tell, 10 by default")
    parser.add_argument("--picture", metavar="FILE", help="also writes what the page shows as PNG; it needs Chromium")
    wants.add_wants(parser)
    add_times(parser)
    parser.add_argument("page", help="the page to write, HTML")


def span(side, begin, end):
    """The part that is drawn: moments of its begin and its end."""
    first = int(side.arrival.min()) if len(side) else 0
    last = max(int(side.arrival.max()), int(side.end.max())) if len(side) else 1
    begin = first if begin is None else first + begin
    end = last + 1 if end is None else first + end
    if begin >= end:
        raise Refused("nothing lies between --from and --to")
    return begin, end


def told(args, question, verdicts, times):
    """What the command says: how much was played, what was not understood, and what is not well."""
    sides = question.sides
    lines = [f"{len(sides[0])} packets in {args.page}; {summary.share_text(sides)}", *question.missing]
    for line in summary.lines(sides, verdicts):
        lines += [f"{line.of}: {flag}" for flag in line.flags]
    return lines + wants.lines([side.label for side in sides], verdicts, times)


def run(args):
    if not args.page.endswith((".html", ".htm")):
        raise Refused(f"{args.page}: the last word is the page to write, whose name ends in .html")
    times = Times(args.ns)
    with plays.Question(args) as question:
        sides = question.sides
        verdicts = wants.of_sides(args.wants, sides)
        whole = [span(side, args.begin, args.end) for side in sides]
        part = (min(begin for begin, _end in whole), max(end for _begin, end in whole))
        flows = page.flow_table(sides, Flows(question.frames), args.flows, times) if question.frames else None
        text = page.html(question, verdicts, times, flows, part)
    with new_file(args.page, "w", encoding="utf-8") as file:
        file.write(text)
    print("\n".join(told(args, question, verdicts, times)))
    if args.picture:
        browser.picture(args.page, args.picture)
    return 0 if late.is_well(sides, verdicts) else 1

"""Journals: fates that another program may have written, by plain Python, and what every journal of one link keeps.

A journal is a file of fates (docs/reference/FORMATS.md). That of another program may say `sent` and `dropped` where it knows no rule, and
its rows may stand in any order. The tests here are plain sums: that they pass is no proof of anything.
"""

import csv

from .faults import Refused
from .foreign import EACH_ROUNDED
from .rows import DROPPED, FATES_HEAD, SENT, Fate, opened, place, whole

BYTE = 8 * 10**9
SENT_WORDS, DROPPED_WORDS = (*SENT, "sent"), (*DROPPED, "dropped")


def entry(name, line, row):
    """The fate of a row."""
    if len(row) != len(FATES_HEAD):
        raise Refused(f"{name}: {place(line)}: {len(row)} words, and not {len(FATES_HEAD)}")
    if row[4] not in SENT_WORDS + DROPPED_WORDS:
        raise Refused(f"{name}: {place(line)}: no fate: {row[4]!r}; write sent or dropped where there is no rule")
    is_sent = row[4] in SENT_WORDS
    if not is_sent and row[5:] != ["", ""]:
        raise Refused(f"{name}: {place(line)}: a packet that was dropped has a start or an end")
    numbers = [whole(name, line, what, word) for what, word in zip(FATES_HEAD[:3], row)]
    start, end = [whole(name, line, what, word) for what, word in zip(FATES_HEAD[5:], row[5:])] if is_sent else (None, None)
    return Fate(numbers[0], numbers[1], numbers[2], row[3], row[4], start, end)


def read_journal(name, is_foreign=False):
    """The fates of a journal by number. `Refused` names the first row that is none, or the packet that has two; with `is_foreign` floats
    of another program are taken."""
    with opened(name, is_foreign, False) as file:
        rows, found = csv.reader(file), {}
        if next(rows, None) != FATES_HEAD:
            raise Refused(f"{name}: its first row is not that of fates")
        for row in rows:
            fate = entry(name, rows.line_num, row)
            if fate.number in found:
                raise Refused(f"{name}: {place(rows.line_num)}: packet {fate.number} has two fates")
            found[fate.number] = fate
    return found


def same_arrivals(first, second):
    """Refuses two journals that are not of the same arrivals."""
    if first.keys() != second.keys():
        odd = min(first.keys() ^ second.keys())
        raise Refused(f"packet {odd} stands in one file alone: not the same arrivals, or a play that was cut off")
    for number in sorted(first):
        if first[number][:3] != second[number][:3]:
            raise Refused(f"packet {number} has another arrival or length in the second file")


def delay(fate):
    """The end of a packet that was sent minus its arrival."""
    return fate.end - fate.arrival


def moment(fate):
    """When a fate was decided: a drop at its arrival, before a sending at its start."""
    return (fate.arrival, 0, fate.number) if fate.start is None else (fate.start, 1, fate.number)


def by_moment(journal):
    """The fates in the order of decision."""
    return sorted(journal.values(), key=moment)


def row_text(fate):
    """A fate as its row."""
    return ",".join("" if value is None else str(value) for value in fate)


def without_rule(fate):
    """A fate that says only whether the packet was sent."""
    return fate._replace(fate="dropped" if fate.start is None else "sent")


def order_faults(sent):
    """The sendings that overtake a packet of their class, or start before they arrive."""
    last: dict[str, int] = {}
    for fate in sent:
        if fate.start < fate.arrival:
            yield fate, f"starts before it arrives at {fate.arrival}"
        if last.get(fate.name, 0) > fate.number:
            yield fate, f"comes after packet {last[fate.name]} of its class, which arrived later"
        last[fate.name] = max(fate.number, last.get(fate.name, 0))


def is_each_rounded(start, end, length, bandwidth):
    """Whether an end is that of its packet alone, rounded up or down."""
    return end - start in (BYTE * length // bandwidth, -(-BYTE * length // bandwidth))


def link_faults(sent, bandwidth, each_rounded=False):
    """The sendings that the link could not carry so: they overlap, or do not end as the run's bytes tell, rounded up once; with
    `each_rounded` an end may be that of its packet alone."""
    free, run, length = -1, 0, 0
    for fate in sent:
        if fate.start < free:
            yield fate, f"starts before the link is free at {free}"
        run, length = (run, length + fate.length) if fate.start == free else (fate.start, fate.length)
        end = None if bandwidth is None else run + -(-BYTE * length // bandwidth)
        if end is not None and fate.end != end:
            is_alone = is_each_rounded(fate.start, fate.end, fate.length, bandwidth)
            if not (each_rounded and is_alone):
                yield fate, f"ends otherwise than at {end}, as the bytes of its run since {run} tell" + (f"; {EACH_ROUNDED}: --each-rounded takes it" if is_alone else "")
        free = fate.end


def faults(journal, bandwidth, each_rounded=False):
    """What of a journal no link with first-in-first-out classes can do, in the order of decision; ends by a bandwidth, or None."""
    sent = [fate for fate in by_moment(journal) if fate.start is not None]
    found = list(order_faults(sent)) + list(link_faults(sent, bandwidth, each_rounded))
    return sorted(found, key=lambda pair: moment(pair[0]))

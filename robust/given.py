"""What `altqplay verify` is to say of given files, read from docs/reference/MANUAL.md a second time: slowly, test by test, by plain Python.

It knows the class of each packet from a play of the program, since filters are not reckoned again, and takes curves over their
openings from the workbench's model of the rules.
"""

import re
import struct
from collections import defaultdict, namedtuple

from altqplay.workbench.rules.curves import Openings, is_zero
from altqplay.workbench.rules.frames import IPV4, TAGS, is_capable, type_of_service, word
from judge import read_capture
from program import DEPARTURES_HEAD, FATES_HEAD

BYTE, MILLISECOND, LATEST = 8 * 10**9, 10**6, 2**32 * 10**9
DECIMAL = "(0|[1-9][0-9]*)"
ROW = re.compile(f"{DECIMAL},{DECIMAL},{DECIMAL},([A-Za-z0-9_.:/-]+),(?:(realtime|share|own|borrow),{DECIMAL},{DECIMAL}|(full|early|forced),,)")
BOUNDS = (2**64, 2**64, 2**32)

Curve = namedtuple("Curve", "m1 d m2")
# A class that holds packets: its curve of real time or None, whether it drops early, may mark, clears code points, and borrows.
Queue = namedtuple("Queue", "name real is_early is_ecn is_clearing is_borrowing")
# `queues` by name in the order of the file; `fits` as `check` says it.
Link = namedtuple("Link", "rate kind queues has_limits fits")
Row = namedtuple("Row", "number at length name fate start end")


def curve_of(words, option):
    """The curve behind an option of a canonical line, or None."""
    if option not in words[5:]:
        return None
    at = words.index(option, 5)
    m1, d, m2 = map(int, words[at + 1:at + 4])
    return Curve(m1, d * MILLISECOND, m2)


def queue_of(words):
    """The queue of a canonical line."""
    real = curve_of(words, "rt") if words[1] == "hfsc" else None
    is_early = any(rule in words[5:] for rule in ("red", "ecn", "rio"))
    return Queue(words[3], None if real is None or is_zero(real) else real, is_early, "ecn" in words[5:], "cleardscp" in words[5:], "borrow" in words[5:])


def link_of(checked, name="if0"):
    """The link of an interface, from what `check` says."""
    lines = [line.split() for line in checked.splitlines()]
    own = next(words for words in lines if words[:2] == ["interface", name])
    classes = [words for words in lines if words[0] == "class" and words[2] == name]
    parents = {words[4] for words in classes}
    queues = [queue_of(words) for words in classes if own[4] == "cbq" or words[3] not in parents]
    queues = queues or [Queue("default", None, False, False, False, False)]
    return Link(int(own[3]), own[4], {queue.name: queue for queue in queues}, any("ul" in words[5:] for words in classes), lines[-1] == ["fits"])


def rows_of(text, names):
    """The rows of the fates, or the number of the first that is none."""
    if not text.startswith(FATES_HEAD):
        return 0
    lines, rows = text[len(FATES_HEAD):].split(b"\n"), []
    for place, line in enumerate(lines, 1):
        match = ROW.fullmatch(line.decode("latin-1"))
        if match is None or place == len(lines):
            return rows if place == len(lines) and not line else place
        number, at, length, name, rule, start, end, reason = match.groups()
        numbers = [int(digits) for digits in (number, at, length)]
        times = [int(start), int(end)] if rule else [None, None]
        if name not in names or any(n >= most for n, most in zip(numbers, BOUNDS)) or (rule and max(times) >= 2**64):
            return place
        rows.append(Row(*numbers, name, rule or reason, *times))
    return rows


def can_occur(link, queue, fate):
    """Whether a rule or a reason can occur on a class."""
    if fate in ("early", "forced"):
        return queue.is_early
    rules = {"realtime": queue.real is not None, "share": True} if link.kind == "hfsc" else {"own": True, "borrow": queue.is_borrowing}
    return fate == "full" or rules.get(fate, False)


def of_arrivals(link, rows, arrivals, classes):
    """Kind 2: the first row that is not that of its packet."""
    for place, row in enumerate(rows, 1):
        if not 1 <= row.number <= len(arrivals):
            return place
        came = arrivals[row.number - 1]
        if (row.at, row.length, row.name) != (came.at, came.length, classes[row.number]) or not can_occur(link, link.queues[row.name], row.fate):
            return place
    return None


def of_numbers(rows, arrivals):
    """Kind 3: the first number that stands twice, or is missing behind the last row."""
    seen = set()
    for place, row in enumerate(rows, 1):
        if row.number in seen:
            return place
        seen.add(row.number)
    return None if len(seen) == len(arrivals) else len(rows) + 1


def agrees(early, late):
    """Whether a row may stand before another."""
    if early.start is None and late.start is None:
        return early.number < late.number
    if early.start is None:
        return early.at <= late.start
    if late.start is None:
        return early.start < late.at
    return early.start <= late.start and (early.name != late.name or early.number < late.number)


def of_order(rows):
    """Kind 4: the first row that may not stand behind one before it."""
    return next((place for place, row in enumerate(rows, 1) if not all(agrees(early, row) for early in rows[:place - 1])), None)


def of_link(link, rows):
    """Kinds 5 and 6: the first start before its arrival or the end before, and the first end that is not the run's."""
    early, other, free, run, count = None, None, None, 0, 0
    for place, row in enumerate(rows, 1):
        if row.start is None:
            continue
        if early is None and row.start < max(row.at, free or 0):
            early = place
        run, count = (run, count + row.length) if row.start == free else (row.start, row.length)
        if other is None and row.end != run - (-BYTE * count // link.rate):
            other = place
        free = row.end
    return early, other


def of_rest(link, rows):
    """Kind 7: the first sending before which the link rests while a packet waits."""
    if link.kind == "cbq" or link.has_limits:
        return None
    sent, free = [(place, row) for place, row in enumerate(rows, 1) if row.start is not None], 0
    for i, (place, row) in enumerate(sent):
        if row.start != max(free, min(later.at for _place, later in sent[i:])):
            return place
        free = row.end
    return None


def retagged(frame, new):
    """A frame with another type of service; one that has none stays."""
    tos = type_of_service(frame)
    if tos is None:
        return frame
    at = 12
    for _tag in range(2):
        at += 4 if word(frame, at) in TAGS else 0
    frame, head = bytearray(frame), at + 2
    if word(frame, at) != IPV4:
        frame[head] = frame[head] & 0xF0 | new >> 4
        frame[head + 1] = (new & 15) << 4 | frame[head + 1] & 15
    elif new != tos:
        before, frame[head + 1] = word(frame, head), new
        total = (~word(frame, head + 10) & 65535) + (~before & 65535) + word(frame, head)
        while total > 65535:
            total = (total & 65535) + (total >> 16)
        frame[head + 10:head + 12] = struct.pack(">H", ~total & 65535)
    return bytes(frame)


def dressed(frame, is_cleared, is_marked):
    """The bytes with which a frame leaves."""
    tos = type_of_service(frame)
    return frame if tos is None else retagged(frame, (tos & 3 if is_cleared else tos) | (3 if is_marked else 0))


def of_departures(link, rows, arrivals, departures):
    """Kind 8: the first row whose record is another one."""
    if not departures.startswith(DEPARTURES_HEAD):
        return 0
    rest = departures[len(DEPARTURES_HEAD):]
    for place, row in enumerate(rows, 1):
        if row.start is None:
            continue
        frame, queue = arrivals[row.number - 1].data, link.queues[row.name]
        may_mark = queue.is_ecn and is_capable(type_of_service(frame))
        forms = [dressed(frame, queue.is_clearing, is_marked) for is_marked in ([False, True] if may_mark else [False])]
        if row.end >= LATEST or rest[:16] != struct.pack("<IIII", *divmod(row.end, 10**9), len(frame), row.length) or rest[16:16 + len(frame)] not in forms:
            return place
        rest = rest[16 + len(frame):]
    return len(rows) + 1 if rest else None


def lateness(link, rows):
    """By place of its row, how much later than its due moment each packet ends that has one."""
    openings = {name: Openings(queue.real) for name, queue in link.queues.items() if queue.real}
    found, total, last = {}, defaultdict(int), {}
    for place, row in enumerate(rows, 1):
        if row.start is None or row.name not in openings:
            continue
        if row.name not in last or row.at > last[row.name]:
            openings[row.name].begin(row.at, total[row.name])
        last[row.name] = row.start
        total[row.name] += row.length * BYTE
        due = openings[row.name].reaches(total[row.name])
        if due is not None:
            found[place] = row.end - due
    return found


def of_due(link, rows):
    """Kind 9: the first packet that is later than the time of the longest one, where the curves fit."""
    bound = -(-max((row.length for row in rows if row.start is not None), default=0) * BYTE // link.rate)
    return next((place for place, late in lateness(link, rows).items() if link.fits and late > bound), None)


def tests(link, rows, arrivals, classes, departures):
    """Each kind from 2 on with the first row that fails it, or None; each is asked where those before it hold."""
    yield 2, of_arrivals(link, rows, arrivals, classes)
    yield 3, of_numbers(rows, arrivals)
    yield 4, of_order(rows)
    yield 5, of_link(link, rows)[0]
    yield 6, of_link(link, rows)[1]
    yield 7, of_rest(link, rows)
    yield 8, of_departures(link, rows, arrivals, departures)
    yield 9, of_due(link, rows)


def verdict(link, capture, classes, departures, fates):
    """The status of `verify` and what it says. `classes` has the class of each number."""
    rows, arrivals = rows_of(fates, link.queues), read_capture(capture).arrivals
    refuted = (1, rows) if isinstance(rows, int) else None
    if refuted is None:
        refuted = next(((kind, place) for kind, place in tests(link, rows, arrivals, classes, departures) if place is not None), None)
    if refuted is not None:
        return 10, f"altqplay: not verified, row {refuted[1]} kind {refuted[0]}\n".encode()
    late = lateness(link, rows)
    worst = {name: max((late[place] for place in late if rows[place - 1].name == name), default="none") for name, queue in link.queues.items() if queue.real}
    return 0, "".join([*(f"{name} worst {value}\n" for name, value in worst.items()), "verified\n"]).encode()

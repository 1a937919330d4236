"""Says what is wrong with how a run of the program ended, as far as that can be told without playing.

It reads the capture by itself, and looks whether status, message, departures, fates and statistics agree with it and with
one another as docs/reference/MANUAL.md and docs/reference/FORMATS.md say. Which class sends when, and what a queue drops, it does not know.
"""

import re
import struct
from collections import Counter, namedtuple

import pcapng
from program import CAPTURE_FAULTS, DEPARTURES_HEAD, FATES_HEAD, OUTPUTS, is_help, is_stated

BILLION = 10**9
LONGEST, MOST_RECORDS, MOST_BYTES = 262_144, 4_000_000, 2**30
MAGICS = {b"\xa1\xb2\xc3\xd4": (">", 1000), b"\xd4\xc3\xb2\xa1": ("<", 1000), b"\xa1\xb2\x3c\x4d": (">", 1), b"\x4d\x3c\xb2\xa1": ("<", 1)}
ROW = re.compile(rb"(\d+),(\d+),(\d+),([\w.:/-]+),(?:(realtime|share|own|borrow),(\d+),(\d+)|(full|early|forced),,)\n")
STATS_HEAD = b"class,arrived,arrivedbytes,raised,sent,sentbytes,full,early,forced"

# A complete record: when it arrives, its length, its captured bytes, and whether its own stamp is less than its arrival.
Arrival = namedtuple("Arrival", "at length data is_raised")

# A capture: its complete records, and how it ends: None, ("limit", 1), or the name and the place of its damage.
Capture = namedtuple("Capture", "arrivals end")

# A row of the fates; `start` and `end` are None for a drop.
Row = namedtuple("Row", "number at length name fate start end")


def read_head(data):
    """The order of the bytes of a capture and the nanoseconds of its unit, or its damage."""
    if len(data) < 24:
        return None, ("ShortHead", len(data))
    if data[:4] not in MAGICS:
        return None, ("BadMagic", 0)
    order, unit = MAGICS[data[:4]]
    if struct.unpack(order + "HH", data[4:8]) != (2, 4):
        return None, ("BadVersion", 4)
    if struct.unpack(order + "I", data[20:24])[0] % 2**16 != 1:
        return None, ("BadLink", 20)
    return (order, unit), None


def record_end(data, place, count, order):
    """What ends a capture at the record of this place, or None where the record is complete."""
    if count == MOST_RECORDS:
        return "limit", 1
    if len(data) - place < 16:
        return "ShortRecord", place
    captured, original = struct.unpack(order + "II", data[place + 8:place + 16])
    if max(captured, original) > LONGEST:
        return "LongRecord", place
    if captured == original == 0:
        return "EmptyRecord", place
    if place + 16 + captured > MOST_BYTES:
        return "limit", 1
    return None if len(data) - place - 16 >= captured else ("ShortRecord", place)


def read_capture(data):
    """The complete records of a capture, classic or pcapng, and how it ends."""
    if is_pcapng(data):
        return read_pcapng(data)
    form, end = read_head(data)
    arrivals, place, latest = [], 24, 0
    while end is None and place < len(data):
        end = record_end(data, place, len(arrivals), form[0])
        if end is None:
            seconds, fraction, captured, original = struct.unpack(form[0] + "IIII", data[place:place + 16])
            stamp = seconds * BILLION + fraction * form[1]
            latest = max(latest, stamp)
            arrivals.append(Arrival(latest, max(captured, original), data[place + 16:place + 16 + captured], stamp < latest))
            place += 16 + captured
    return Capture(arrivals, end)


def is_pcapng(data):
    """Whether these are the bytes of a pcapng capture."""
    return data[:4] == pcapng.BEGIN


def read_pcapng(data):
    """The same of a pcapng capture."""
    packets, end = pcapng.read(data)
    arrivals, latest = [], 0
    for stamp, length, captured in packets:
        latest = max(latest, stamp)
        arrivals.append(Arrival(latest, length, captured, stamp < latest))
    return Capture(arrivals, end)


def read_fates(text):
    """The rows of the fates, or None where they are not a head and whole rows."""
    if not text.startswith(FATES_HEAD):
        return None
    rows, place = [], len(FATES_HEAD)
    while place < len(text):
        match = ROW.match(text, place)
        if match is None:
            return None
        number, at, length, name, rule, start, end, reason = match.groups()
        times = (int(start), int(end)) if rule else (None, None)
        rows.append(Row(int(number), int(at), int(length), name, (rule or reason).decode(), *times))
        place = match.end()
    return rows


def wrong_rows(rows, arrivals):
    """What is wrong with rows of fates, whichever class sends."""
    last, seen, latest, last_drop = 0, set(), {}, 0
    for row in rows:
        if row.number in seen or not 1 <= row.number <= len(arrivals):
            return f"packet {row.number} has two rows or none in the capture"
        seen.add(row.number)
        arrival = arrivals[row.number - 1]
        if (row.at, row.length) != (arrival.at, arrival.length):
            return f"arrival or length of packet {row.number}"
        if row.start is None:
            if row.number < last_drop:
                return f"the drop of packet {row.number} stands behind one of a later packet"
            last_drop = row.number
        elif row.start < max(row.at, last) or row.end < row.start or row.number < latest.get(row.name, 0):
            return f"the sending of packet {row.number} starts too early, or overtakes one of its class"
        else:
            last, latest[row.name] = row.end, row.number
    return None


def differs(one, other):
    """Whether captured bytes differ in more than a code point and a checksum."""
    return len(one) != len(other) or sum(a != b for a, b in zip(one, other)) > 4


def wrong_departures(data, rows, arrivals):
    """What is wrong with the departures, where these are the fates."""
    sent = [row for row in rows if row.start is not None]
    place = len(DEPARTURES_HEAD)
    if not data.startswith(DEPARTURES_HEAD):
        return "their head"
    for row in sent:
        arrived = arrivals[row.number - 1].data
        head = struct.pack("<IIII", *divmod(row.end, BILLION), len(arrived), row.length)
        captured = data[place + 16:place + 16 + len(arrived)]
        if data[place:place + 16] != head or differs(captured, arrived):
            return f"the record of packet {row.number}"
        place += 16 + len(arrived)
    return None if place == len(data) else "bytes behind the last packet that was sent"


def counts(rows, arrivals):
    """The numbers of one row of the statistics."""
    def of(fates):
        return [row for row in rows if row.fate in fates]

    sent = of({"realtime", "share", "own", "borrow"})
    return [len(rows), sum(row.length for row in rows), sum(arrivals[row.number - 1].is_raised for row in rows), len(sent),
            sum(row.length for row in sent), *(len(of({reason})) for reason in ("full", "early", "forced"))]


def wrong_stats(text, rows, arrivals):
    """What is wrong with the statistics of a play that is done."""
    lines = text.split(b"\n")
    if lines[0] != STATS_HEAD or lines[-1] != b"" or len(lines) < 4:
        return "their form"
    by_name, told = {}, Counter()
    for row in rows:
        by_name.setdefault(row.name, []).append(row)
    for line in lines[1:-1]:
        name, *numbers = line.split(b",")
        told[name] += 1
        if [int(number) for number in numbers] != counts(rows if name == b"*" else by_name.get(name, []), arrivals):
            return f"the row of {name.decode()}"
    return None if set(told) >= {*by_name, b"*"} and set(told.values()) == {1} else "a class that is missing or stands twice"


def wrong_play(status, said, capture, files):
    """What is wrong after a play that began: status 0, 4, or 7 of kind 1 or 2. `files` are the outputs by their kind."""
    rows = read_fates(files["fates"])
    if rows is None:
        return "fates: no head with whole rows"
    fault = wrong_rows(rows, capture.arrivals)
    if fault is None and status == 0 and (len(rows) < len(capture.arrivals) or capture.end is not None):
        fault = "status 0, but not every packet has a row, or the capture is damaged"
    if fault is None and capture.end is not None and said != b"altqplay: limit 2 reached\n":
        latest = capture.arrivals[-1].at if capture.arrivals else 0
        if any(row.start is not None and row.start >= latest for row in rows):
            fault = "a sending that starts at the last complete record's arrival, or later"
    if fault is not None:
        return f"fates: {fault}"
    fault = wrong_departures(files["departures"], rows, capture.arrivals)
    if fault is not None:
        return f"departures: {fault}"
    if status != 0:
        return "statistics: not empty" if files["stats"] else None
    fault = wrong_stats(files["stats"], rows, capture.arrivals)
    return fault and f"statistics: {fault}"


def expected_end(status, said, capture):
    """What is wrong with a status 4 or 7, given how the capture ends."""
    if status == 7 and said == b"altqplay: limit 1 reached\n" and capture.end != ("limit", 1):
        return "a limit that the capture does not reach"
    if status == 4:
        if capture.end is None or capture.end[0] not in CAPTURE_FAULTS:
            return "a damage that the capture does not have"
        if said != f"altqplay: capture byte {capture.end[1]}: {capture.end[0]}\n".encode():
            return f"another damage than {capture.end[0]} at byte {capture.end[1]}"
    return None


def values(words):
    """The values of the options of words that were accepted."""
    found, rest = {}, list(words[1:])
    while rest:
        name, is_joined, value = rest.pop(0).partition(b"=")
        if name != b"--":
            found[name[2:].decode()] = value if is_joined else rest.pop(0)
    return found


def wrong_untouched(before, after, allowed=()):
    """What is wrong where these names alone may have changed."""
    changed = sorted(name for name in {*before, *after} if before.get(name) != after.get(name) and name not in allowed)
    return f"{changed[0].decode(errors='replace')} has changed" if changed else None


def wrong_refusal(said, names, before, after, made):
    """What is wrong after a status 6: what was created before holds its head at most, the rest what it held. `made` are the names
    that `make` writes before them: none, or that of the arrivals."""
    place = ["arrivals", "departures", "fates", "statistics"].index(re.search(rb"writing (\w+)", said)[1].decode())
    created = [names[name] for name in OUTPUTS[:max(place - 1, 0)]]
    fault = next((f"{name.decode()} is not empty" for name in created if after.get(name) != b""), None)
    return fault or wrong_untouched(before, after, created + (made if place > 0 else []))


def wrong_made(said, count, capture, files):
    """What is wrong with the capture that `make` wrote, and with the line that it said of its play."""
    if capture.end is not None or len(capture.arrivals) != count:
        return "arrivals: damaged, or not as many as were to be made"
    rows = read_fates(files["fates"]) or []
    sent = [row for row in rows if row.start is not None]
    last = max((row.end for row in sent), default=0)
    line = f"packets {count} sent {len(sent)} dropped {len(rows) - len(sent)} end {last}\n"
    return None if said == line.encode() else "another line than its files tell"


def wrong(words, before, after, run, is_text=True):
    """What is wrong with a run, or None. `before` and `after` are the files of its folder, by their names."""
    command = words[0] if words else b""
    if not is_help(run):
        return "what stands on standard error is not one to three printable lines or the eight of the usage, or the run is done"
    if not is_text:
        return wrong_untouched(before, after) if (run.status, run.said) == (2, b"") else "a word that is no UTF-8 was not refused, or something was said"
    if not is_stated(run.status, run.said, command):
        return "a status or a message that the manual does not have"
    if run.status == 8:
        return "memory was wanting"
    if run.status in (2, 3, 5) or run.said == b"altqplay: limit 3 reached\n" or command == b"check":
        return wrong_untouched(before, after)
    names = values(words)
    if command == b"verify":
        return wrong_untouched(before, after) or expected_end(run.status, run.said, read_capture(before[names["arrivals"]]))
    made = [names["arrivals"]] if command == b"make" else []
    if run.status == 6:
        return wrong_refusal(run.said, names, before, after, made)
    arrivals = (after if made else before)[names["arrivals"]]
    capture = read_capture(arrivals)
    if is_pcapng(arrivals) and capture.end is not None:
        if run.status == 0:
            return "a pcapng capture was played that cannot be"
        return expected_end(run.status, run.said, capture) or wrong_untouched(before, after)
    outputs = {name: after[names[name]] for name in OUTPUTS}
    return (expected_end(run.status, run.said, capture)
            or wrong_untouched(before, after, [names[name] for name in OUTPUTS] + made)
            or made and wrong_made(run.said, int(names["count"]), capture, outputs)
            or wrong_play(run.status, run.said, capture, outputs))

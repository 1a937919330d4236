#!/usr/bin/env python3
"""Plays random configurations, changes the files that come out, and holds what `altqplay verify` says of them to a second reading.

    verify_changes.py [SEED [PLAYS]] [--changes COUNT] [--quick] [--first NUMBER] [--only NUMBER] [--keep FOLDER] [--program PROGRAM] [--reference PROGRAM]

The plays follow from SEED and their numbers: PLAYS of them (300 without the word) from 0 or from --first on, of SEED 1 where none is said, each
with COUNT changes (10): a field, a byte, two rows exchanged, a row left out or twice, a class renamed, sendings in another order or later with
departures that go with it, and some of these together. Of each the status and what is said must be those of given.py, a reading of
docs/reference/MANUAL.md by plain Python, and with --reference those of another program of the same command line, too. The files of a play itself must be
verified. --quick is 40 plays of a fixed seed, which the gate runs. --keep leaves the files of the play of --only in a folder. It ends with how
many files were verified, and refuted by which kind. The exit status is 0 where nothing differs, 1 where something does, 2 for other words.
"""

import argparse
import os
import random
import shutil
import struct
import sys
import tempfile
from collections import Counter

sys.dont_write_bytecode = True
sys.path.insert(0, os.path.join(os.path.dirname(os.path.dirname(os.path.abspath(__file__))), "python"))

from agreed import arrivals, interface  # noqa: E402
from given import BYTE, link_of, rows_of, verdict  # noqa: E402
from program import FATES_HEAD, PROGRAM, content, prepare, run, store, words_of  # noqa: E402
from transcript import Case  # noqa: E402

QUICK = ("7", 40)
NAMES = {"config": "c.conf", "arrivals": "a.pcap", "departures": "d.pcap", "fates": "f.csv", "stats": "s.csv"}
GIVEN = ["--config", "c.conf", "--interface", "if0", "--arrivals", "a.pcap", "--departures", "d.pcap", "--fates", "f.csv"]
FATES = ("realtime", "share", "own", "borrow", "full", "early", "forced")


def line_of(row):
    return ",".join("" if value is None else str(value) for value in row).encode()


def text_of(lines):
    return FATES_HEAD + b"".join(line + b"\n" for line in lines)


def records_of(departures):
    """The records of departures, each as its bytes; the last may be cut short."""
    found, place = [], 24
    while place < len(departures):
        size = 16 + int.from_bytes(departures[place + 8:place + 12], "little")
        found.append(departures[place:place + size])
        place += size
    return found


class Files:
    """The fates and departures of a play, and what may be done to them. `link` is the play's."""

    def __init__(self, link, fates, departures):
        self.link, self.fates, self.departures = link, fates, departures
        self.rows = rows_of(fates, link.queues)

    def lines(self):
        return self.fates[len(FATES_HEAD):].splitlines()

    def field(self, rng):
        """Changes a field of a row."""
        lines = self.lines()
        place = rng.randrange(len(lines))
        words = lines[place].split(b",")
        at = rng.randrange(len(words))
        old = words[at].decode("latin-1")
        near = [str(max(0, int(old) + step)) for step in (-1, 1, rng.randrange(-2000, 2000))] if old.isdigit() else []
        names = [*self.link.queues, *FATES, "other"] if at in (3, 4) else ["", "0", "0" + old, str(2**64 - 1), str(2**64), str(2**32)]
        other = rng.choice(lines).split(b",")
        words[at] = rng.choice(near + near + names + [other[min(at, len(other) - 1)].decode("latin-1")]).encode("latin-1")
        lines[place] = b",".join(words)
        self.fates = text_of(lines)

    def byte(self, rng):
        """Changes, adds or takes out a byte of the fates or of the departures."""
        name = rng.choice(["fates", "departures"])
        data = bytearray(getattr(self, name))
        at = rng.randrange(len(data))
        data[at:at + rng.choice([0, 1])] = rng.choice([b"", bytes([rng.randrange(256)]), rng.choice([b"0", b",", b"\n", b"9", data[at:at + 1]])])
        setattr(self, name, bytes(data))

    def exchange(self, rng):
        """Exchanges two rows, often neighbours, and maybe their records."""
        lines, records = self.lines(), records_of(self.departures)
        one = rng.randrange(len(lines))
        other = rng.choice([min(one + 1, len(lines) - 1), rng.randrange(len(lines))])
        lines[one], lines[other] = lines[other], lines[one]
        if rng.random() < 0.3 and len(records) > 1:
            at = rng.randrange(len(records) - 1)
            records[at:at + 2] = records[at + 1], records[at]
            self.departures = self.departures[:24] + b"".join(records)
        self.fates = text_of(lines)

    def leave_out(self, rng):
        """Leaves a row out, or writes one twice."""
        lines = self.lines()
        place = rng.choice([0, len(lines) - 1, rng.randrange(len(lines))])
        lines[place:place + 1] = rng.choice([[], [], [lines[place]] * 2])
        self.fates = text_of(lines)

    def rename(self, rng):
        """Gives a class another name, in all rows or from one on."""
        old, new = rng.choice([*self.link.queues]), rng.choice([*self.link.queues, "other"])
        lines = self.lines()
        first = rng.choice([0, rng.randrange(len(lines))])
        self.fates = text_of([line.replace(f",{old},".encode(), f",{new},".encode()) if place >= first else line for place, line in enumerate(lines)])

    def replay(self, rng):
        """Has the link send what was sent in another order, or later, with drops and departures that go with it."""
        sent = [row for row in self.rows if row.start is not None]
        frames = dict(zip((row.number for row in sent), (record[16:] for record in records_of(self.departures))))
        late = rng.choice([0, 0, 0, 1, rng.randrange(5_000_000)])
        order = rng.choice([in_turn, by_arrival, dealt])(rng, sent)
        rows, free, run_start, count = [row for row in self.rows if row.start is None], 0, 0, 0
        pause = rng.randrange(len(order)) if order else 0
        for place, row in enumerate(order):
            start = max(free, row.at) + (late if place == pause else 0)
            run_start, count = (run_start, count + row.length) if start == free else (start, row.length)
            free = run_start - (-BYTE * count // self.link.rate)
            rows.append(row._replace(start=start, end=free))
        rows.sort(key=lambda row: (row.at, 0, row.number) if row.start is None else (row.start, 1, 0))
        if free >= 2**32 * 10**9:
            return
        heads = ((row, frames[row.number]) for row in rows if row.start is not None)
        self.fates = text_of(map(line_of, rows))
        self.departures = self.departures[:24] + b"".join(struct.pack("<IIII", *divmod(row.end, 10**9), len(frame), row.length) + frame for row, frame in heads)


def by_arrival(_rng, sent):
    """A plain queue."""
    return sorted(sent, key=lambda row: row.number)


def in_turn(rng, sent):
    """The same order with a few neighbours of two classes exchanged."""
    order = list(sent)
    for _ in range(rng.choice([0, 1, 3])):
        at = rng.randrange(max(1, len(order) - 1))
        if at + 1 < len(order) and order[at].name != order[at + 1].name:
            order[at], order[at + 1] = order[at + 1], order[at]
    return order


def dealt(rng, sent):
    """What waits of a class that is drawn each time: its head, of those that have come when the link is free."""
    left, order, free = sorted(sent, key=lambda row: row.number), [], 0
    while left:
        free = max(free, min(row.at for row in left))
        heads = {}
        for row in left:
            if row.at <= free:
                heads.setdefault(row.name, row)
        row = heads[rng.choice(sorted(heads))]
        left.remove(row)
        order.append(row)
        free += row.end - row.start
    return order


CHANGES = (Files.field, Files.byte, Files.exchange, Files.leave_out, Files.rename)


def changed(rng, link, fates, departures):
    """The files of a play after a change, or some."""
    files = Files(link, fates, departures)
    for turn in range(rng.choice([1, 1, 1, 2])):
        if files.lines():
            rng.choice((*CHANGES, *[Files.replay] * 3) if turn == 0 else CHANGES)(files, rng)
    return files.fates, files.departures


def draw(rng, number, folder):
    """Writes a configuration and a capture."""
    case = Case("-")
    for line in [*("    " + line for line in interface(rng, ("hfsc", "hfsc", "cbq")[number % 3])), *arrivals(rng, rng.randrange(3, 12))]:
        case.follow(line)
    store(os.path.join(folder, NAMES["config"]), case.config.encode())
    store(os.path.join(folder, NAMES["arrivals"]), bytes(case.capture))


def asked(program, folder):
    """What `verify` of a program says of the files of a folder."""
    done = run([program, "verify", *GIVEN], folder)
    return done.status, done.said


def judged(options, folder, link, classes):
    """What is wrong with the answer on the files of a folder, or None, and the answer."""
    found = asked(options.program, folder)
    due = verdict(link, content(os.path.join(folder, "a.pcap")), classes, content(os.path.join(folder, "d.pcap")), content(os.path.join(folder, "f.csv")))
    if found != due:
        return f"{found}, and by the second reading {due}", found
    other = asked(options.reference, folder) if options.reference else found
    return (None if other == found else f"{found}, and by the reference {other}"), found


def tried(options, number, folder):
    """Plays a case and tries its changes: the kind of each answer, and how many differ."""
    rng = random.Random(f"{options.seed} {number}")
    draw(rng, number, folder)
    played = run([options.program, *words_of(NAMES, str(number))], folder)
    checked = run([options.program, "check", *GIVEN[:4]], folder)
    if played.status or checked.status:
        return [f"no play: status {played.status}"], 0
    link, kept = link_of(checked.said.decode()), [content(os.path.join(folder, name)) for name in ("f.csv", "d.pcap")]
    classes = {row.number: row.name for row in rows_of(kept[0], link.queues)}
    answers, differing = [], 0
    for change in range(options.changes + 1):
        fates, departures = kept if change == 0 else changed(rng, link, *kept)
        store(os.path.join(folder, "f.csv"), fates)
        store(os.path.join(folder, "d.pcap"), departures)
        fault, answer = judged(options, folder, link, classes)
        if fault is None and change == 0 and answer[0]:
            fault = f"the play itself: {answer}"
        answers.append("verified" if answer[0] == 0 else "refuted by " + answer[1].decode("latin-1").strip()[-6:])
        if fault is not None:
            differing += 1
            print(f"play {number} change {change}: {fault}", flush=True)
            if options.keep:
                shutil.copytree(folder, os.path.join(options.keep, f"{number}-{change}"), dirs_exist_ok=True)
    return answers, differing


def options_of(words):
    """The options of the words of this script."""
    parser = argparse.ArgumentParser(description="Changes the files of random plays, and compares what verify says of them.")
    parser.add_argument("seed", nargs="?", default="1")
    parser.add_argument("plays", nargs="?", type=int, default=300)
    parser.add_argument("--changes", type=int, default=10, metavar="COUNT")
    parser.add_argument("--quick", action="store_true")
    parser.add_argument("--first", type=int, default=0, metavar="NUMBER")
    parser.add_argument("--only", type=int, metavar="NUMBER")
    parser.add_argument("--keep", type=os.path.abspath, metavar="FOLDER")
    parser.add_argument("--program", type=os.path.abspath, default=PROGRAM)
    parser.add_argument("--reference", type=os.path.abspath, metavar="PROGRAM")
    options = parser.parse_args(words)
    if options.quick:
        options.seed, options.plays = QUICK
    return options


def main(words):
    options = options_of(words)
    if not os.access(options.program, os.X_OK):
        print(f"verify_changes.py: no program {options.program}", file=sys.stderr)
        return 1
    prepare()
    numbers = range(options.first, options.first + options.plays) if options.only is None else [options.only]
    counts, differing = Counter(), 0
    for number in numbers:
        with tempfile.TemporaryDirectory(prefix="altqplay-verify-") as top:
            folder = os.path.join(top, "case")
            os.mkdir(folder)
            answers, bad = tried(options, number, folder)
        counts.update(answers)
        differing += bad
    for what, count in sorted(counts.items()):
        print(f"{count:>8}  {what}")
    print(f"{len(numbers)} plays of seed {options.seed}, {sum(counts.values())} files, {differing} differ")
    return 1 if differing else 0


if __name__ == "__main__":
    sys.exit(main(sys.argv[1:]))

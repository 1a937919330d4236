#!/usr/bin/env python3
"""Runs the built program on real files as a stranger may have them, and compares with the rows of real_files.txt.

    real_files.py [--quick] [--program PROGRAM]

With --quick, as the gate runs it, it leaves out what needs root or a disk of its own, and is silent where all is well. It
takes a second or two. It tries full disks, names that are not there or may not be written, folders, pipes, devices, a
capture that is cut while it is read, descriptors that are closed or run out, and one file under two names. For each it
compares status, standard output and the form of standard error, and what each output holds, in one word:

    as before   what it held when the program began, also that it was not there, or that it is the capture or the configuration
    empty       nothing, though it was created
    head        its head alone
    front       a front of its whole text, longer than the head and shorter than the whole
    whole       its whole text
    nothing     it is no file, as a device
    other       anything else

Two words with `or` between them are both right: which comes, the clock decides. Each line of QUICK and DEMANDING is one such
try, and names the row of the manual's table that says so; the rows are looked for there. What needs root, a mount, or a device
that is not there is left out with a line. The exit status is 0 where all that was tried came out as stated, else 1, and 2 for
other words.
"""

import contextlib
import os
import shutil
import signal
import subprocess
import sys
import tempfile
import threading
from collections import namedtuple

sys.dont_write_bytecode = True
sys.path.insert(0, os.path.join(os.path.dirname(os.path.dirname(os.path.abspath(__file__))), "example"))

import pcapng  # noqa: E402
from generate import capture_head, captured_bytes, record  # noqa: E402
from program import DEPARTURES_HEAD, FATES_HEAD, OUTPUTS, PROGRAM, ROOT, Late, content, is_help, prepare, run, store, words_of  # noqa: E402

# A row of the manual's table, a function that plays in a room, its further arguments, and what should come out: the
# status, what is said, and what departures, fates and statistics hold.
Try = namedtuple("Try", "row play given status said holds")

# How a run ended, and what each output holds, by its name; None where it does not exist.
Ending = namedtuple("Ending", "run outputs")

NAMES = {"config": "altq.conf", "arrivals": "arrivals.pcap", "departures": "d.pcap", "fates": "f.csv", "stats": "s.csv"}
FILES = {"config": "configuration", "arrivals": "arrivals", "departures": "departures", "fates": "fates", "stats": "statistics"}
CONFIG = b"interface if0 bandwidth 100M hfsc\n"
BEFORE = b"what stood here before\n"
PACKETS = 4000
NOBODY = 65534
HEADS = {"departures": DEPARTURES_HEAD, "fates": FATES_HEAD, "stats": b""}


class Skipped(Exception):
    """This machine has not what a try needs."""


class Room:
    """A folder in which the program is tried, with a copy of it that everyone may run, and what a whole run writes."""

    def __init__(self, top, program):
        self.top, self.folder, self.program = top, os.path.join(top, "room"), os.path.join(top, "altqplay")
        os.chmod(top, 0o755)
        shutil.copyfile(program, self.program)
        os.chmod(self.program, 0o755)
        self.capture = capture()
        self.whole = {}
        self.whole = played(self).outputs

    def path(self, name):
        """Where a name of the room stands."""
        return os.path.join(self.folder, name)

    def lay(self):
        """Empties the room, and puts configuration, arrivals and older outputs there."""
        shutil.rmtree(self.folder, ignore_errors=True)
        os.mkdir(self.folder)
        os.chmod(self.folder, 0o777)
        store(self.path(NAMES["config"]), CONFIG)
        store(self.path(NAMES["arrivals"]), self.capture)
        for name in OUTPUTS:
            store(self.path(NAMES[name]), BEFORE)
            os.chmod(self.path(NAMES[name]), 0o666)


def packets():
    """The packets of all tries: frames of 1,000 bytes that come each 100 microseconds and are all sent; stamp, length and bytes."""
    return [(10**9 + 100_000 * number, 1000, captured_bytes(number + 1, 1000, 9000, 0)) for number in range(PACKETS)]


def capture():
    """The arrivals of all tries."""
    return capture_head() + b"".join(record(stamp, frame, length) for stamp, length, frame in packets())


def as_pcapng(room, cut):
    """A play of the same packets in pcapng, cut by some bytes."""
    room.lay()
    data = b"".join(pcapng.whole_blocks(packets()))
    store(room.path(NAMES["arrivals"]), data[: len(data) - cut])
    return finished(room, NAMES)


def outputs_in(room, names):
    """What stands under the names of the outputs; nothing of a name that is no file."""
    places = {name: room.path(names[name]) for name in OUTPUTS}
    return {name: content(place) if os.path.isfile(place) else None for name, place in places.items()}


def finished(room, names, prefix=(), suffix=""):
    """Runs a play with these names where the room stands, behind the words of `prefix`, or by a shell with `suffix`."""
    words = [*prefix, room.program, *words_of(names)]
    if suffix:
        words = ["/bin/sh", "-c", f'"$@" {suffix}', "sh", *words]
    return Ending(run(words, room.folder), outputs_in(room, names))


def played(room, **others):
    """A play in a new room, with other names for some files."""
    room.lay()
    return finished(room, {**NAMES, **others})


def made(room, suffix):
    """A `make` whose descriptors are what a shell makes of `suffix`: what each output holds is told as of a play, if it is
    what a `make` with open descriptors writes, to the arrivals too."""
    found = []
    for ending in ("", suffix):
        room.lay()
        words = ["/bin/sh", "-c", f'"$@" {ending}', "sh", room.program, "make", "--count", "3", *words_of(NAMES)[1:]]
        ran = run(words, room.folder)
        found.append((ran, outputs_in(room, NAMES), content(room.path(NAMES["arrivals"]))))
    (_, whole, capture), (ran, outputs, arrivals) = found
    as_whole = {name: room.whole[name] if outputs[name] == whole[name] and arrivals == capture else b"other" for name in OUTPUTS}
    return Ending(ran, as_whole)


def checked(room, suffix):
    """A `check`, whose standard output is what a shell makes of `suffix`."""
    room.lay()
    words = ["/bin/sh", "-c", f'"$@" {suffix}', "sh", room.program, "check", "--config", NAMES["config"], "--interface", "if0"]
    return Ending(run(words, room.folder), outputs_in(room, NAMES))


def verified(room, which=None, name=None, suffix="", zeros=0):
    """A `verify` of the files of a whole play, with another name for one of them, or by a shell with `suffix`; beside them is a file of zeros."""
    room.lay()
    os.mkdir(room.path("folder"))
    store(room.path("zeros"), b"")
    os.truncate(room.path("zeros"), zeros)
    for output in OUTPUTS:
        store(room.path(NAMES[output]), room.whole[output])
    names = {**NAMES, which: name}
    words = [room.program, "verify", "--interface", "if0", *(word for option in ("config", "arrivals", "departures", "fates") for word in ("--" + option, names[option]))]
    if suffix:
        words = ["/bin/sh", "-c", f'"$@" {suffix}', "sh", *words]
    return Ending(run(words, room.folder), outputs_in(room, NAMES))


def checked_into_pipe(room):
    """A `check`, whose standard output is a pipe that nobody reads any more."""
    room.lay()
    os.mkfifo(room.path("pipe"))
    words = ["/bin/sh", "-c", 'exec 3<>pipe 4>pipe 3<&-; "$@" >&4', "sh", room.program, "check", "--config", NAMES["config"], "--interface", "if0"]
    return Ending(run(words, room.folder), outputs_in(room, NAMES))


def redirected(room, suffix, damage=0):
    """A play whose descriptors are what a shell makes of `suffix`, over a capture that is cut by some bytes."""
    room.lay()
    store(room.path(NAMES["arrivals"]), room.capture[: len(room.capture) - damage])
    return finished(room, NAMES, suffix=suffix)


def device(room, which, name):
    """A play with a device, or another file of the system, in place of one of its files."""
    if not os.path.exists(name):
        raise Skipped(f"{name} is not there")
    return played(room, **{which: name})


def in_folder(room, which):
    """A play where one name is that of a folder."""
    room.lay()
    os.mkdir(room.path("folder"))
    return finished(room, {**NAMES, which: "folder"})


def loop(room, which):
    """A play where one name is a link to itself."""
    room.lay()
    os.symlink("loop", room.path("loop"))
    return finished(room, {**NAMES, which: "loop"})


def as_nobody(room, which, how):
    """A play by a user who may not read a file, or may not write into a folder, of which one name is."""
    prefix = ()
    if os.geteuid() == 0:
        setpriv = shutil.which("setpriv")
        if setpriv is None:
            raise Skipped("root may read and write everything, and setpriv was not found")
        prefix = (setpriv, f"--reuid={NOBODY}", f"--regid={NOBODY}", "--clear-groups")
    room.lay()
    name = NAMES[which]
    if how == "unreadable":
        os.chmod(room.path(name), 0)
    else:
        os.mkdir(room.path("closed"), 0o555)
        name = "closed/new"
    return finished(room, {**NAMES, which: name}, prefix)


def piped(room, which, work):
    """A play in a room that is laid, one of whose files is a named pipe, at whose other end `work` is done meanwhile."""
    os.mkfifo(room.path("pipe"))
    other_end = threading.Thread(target=work, daemon=True)
    other_end.start()
    found = finished(room, {**NAMES, which: "pipe"})
    other_end.join(60)
    return found


def from_pipe(room, which):
    """A play that reads one file from a named pipe, into which all of it is written."""
    room.lay()
    data = content(room.path(NAMES[which]))
    return piped(room, which, lambda: store(room.path("pipe"), data))


def into_pipe(room, which, most=None):
    """A play that writes one file into a named pipe, from which all is read, or `most` bytes before it is closed."""
    room.lay()
    got = bytearray()

    def read():
        with open(room.path("pipe"), "rb", buffering=0) as file:
            got.extend(file.read(most) if most else file.readall())

    found = piped(room, which, read)
    return Ending(found.run, {**found.outputs, which: bytes(got)})


def cut_while_read(room):
    """A play whose arrivals are cut inside of a record once the program has begun to read them.

    Its departures go into a named pipe: it waits there when the pipe is full, and is let go after the cut.
    """
    room.lay()
    got = bytearray()

    def read():
        with open(room.path("pipe"), "rb", buffering=0) as file:
            got.extend(file.read(len(DEPARTURES_HEAD)) + file.read(1))
            os.truncate(room.path(NAMES["arrivals"]), len(room.capture) - 100)
            got.extend(file.readall())

    found = piped(room, "departures", read)
    return Ending(found.run, {**found.outputs, "departures": bytes(got)})


def interrupted(room):
    """A play that gets SIGINT while its departures, which go into a named pipe, are written."""
    room.lay()
    got = bytearray()

    def read():
        with open(room.path("pipe"), "rb", buffering=0) as file:
            got.extend(file.read(len(DEPARTURES_HEAD)) + file.read(1))
            for name in filter(str.isdigit, os.listdir("/proc")):
                with contextlib.suppress(OSError):
                    if os.path.samefile(f"/proc/{name}/exe", room.program):
                        os.kill(int(name), signal.SIGINT)
            got.extend(file.readall())

    found = piped(room, "departures", read)
    return Ending(found.run, {**found.outputs, "departures": bytes(got)})


@contextlib.contextmanager
def disk(room, size):
    """A disk of so many bytes in the folder `disk` of a new room."""
    room.lay()
    os.mkdir(room.path("disk"))
    done = subprocess.run(["mount", "-t", "tmpfs", "-o", f"size={size}", "tmpfs", room.path("disk")], stderr=subprocess.DEVNULL, check=False)
    if done.returncode:
        raise Skipped("a disk could not be mounted, which takes root")
    try:
        os.chmod(room.path("disk"), 0o777)
        yield
    finally:
        subprocess.run(["umount", room.path("disk")], check=True)


def on_small_disk(room, which, size, filled=0):
    """A play that writes some of its outputs on a small disk, on which so many bytes stand before."""
    if shutil.which("mount") is None:
        raise Skipped("mount was not found")
    with disk(room, size):
        store(room.path("disk/filled"), bytes(filled))
        return finished(room, {**NAMES, **{name: f"disk/{name}" for name in which}})


def with_few_descriptors(room, count):
    """A play that may have so many files open, the three standard ones with them."""
    room.lay()
    return finished(room, NAMES, ("/bin/sh", "-c", f'ulimit -n {count}; exec "$@"', "sh"))


def with_short_files(room):
    """A play none of whose files may grow past 64 blocks of 512 bytes."""
    room.lay()
    return finished(room, NAMES, ("/bin/sh", "-c", 'ulimit -f 64; exec "$@"', "sh"))


def by_another_name(room, which, how):
    """A play whose output `which` is one file with its arrivals: by `./`, a link, or a symbolic link."""
    room.lay()
    name = {"name": "./" + NAMES["arrivals"], "link": "other", "symbolic link": "other"}[how]
    if how == "link":
        os.link(room.path(NAMES["arrivals"]), room.path("other"))
    elif how == "symbolic link":
        os.symlink(NAMES["arrivals"], room.path("other"))
    return finished(room, {**NAMES, which: name})


def over(room, which, other):
    """A play whose output `which` is one file with another of its files."""
    return played(room, **{which: "./" + NAMES[other]})


def on_device(room):
    """A play all of whose outputs are one device, by three names."""
    return played(room, departures="/dev/null", fates="/dev/./null", stats="/dev/.//null")


def long_name(room, which):
    """A play where one name has 256 bytes, more than the system takes."""
    return played(room, **{which: "x" * 256})


def reading(which):
    """What is said where a file cannot be read."""
    return f"altqplay: reading {FILES[which]} failed\n"


def writing(which):
    """What is said where a file cannot be written."""
    return f"altqplay: writing {FILES[which]} failed\n"


UNTOUCHED = ("as before",) * 3
HEADED = ("head", "head", "empty")
WHOLE = ("whole",) * 3


def after_creation(which):
    """What the outputs hold where `which` cannot be created: those before it are empty."""
    place = OUTPUTS.index(which)
    return tuple("empty" if number < place else "as before" for number in range(3))


def uncreated(row, play, *given):
    """The tries of a row, one for each output that cannot be created."""
    return [Try(row, play, (which, *given), 6, writing(which), after_creation(which)) for which in OUTPUTS]


def unread(row, play, *given):
    """The tries of a row, one for each file that cannot be read."""
    return [Try(row, play, ("config", *given), 5, reading("config"), UNTOUCHED),
            Try(row, play, ("arrivals", *given), 5, reading("arrivals"), UNTOUCHED)]


def played_with(room, which, name):
    """A play with another name for one file."""
    return played(room, **{which: name})


# Where the last packet of the pcapng capture begins.
LAST_BLOCK = sum(map(len, pcapng.whole_blocks(packets())[:-1]))

QUICK = [
    *unread("a file to read in a folder that is not there", played_with, "absent/file"),
    *unread("a name of 256 bytes, or a link to itself, to read", long_name),
    *unread("a name of 256 bytes, or a link to itself, to read", loop),
    *unread("a folder to read", in_folder),
    *unread("a file whose reading fails (`/proc/self/mem`)", device, "/proc/self/mem"),
    Try("the configuration from a named pipe", from_pipe, ("config",), 0, "", WHOLE),
    Try("the arrivals from a named pipe", from_pipe, ("arrivals",), 0, "", WHOLE),
    Try("`/dev/null` as configuration", device, ("config", "/dev/null"), 3, "altqplay: configuration line 0 word 0: NoInterface\n", UNTOUCHED),
    Try("`/dev/zero` as configuration", device, ("config", "/dev/zero"), 7, "altqplay: limit 3 reached\n", UNTOUCHED),
    Try("`/dev/null` as arrivals", device, ("arrivals", "/dev/null"), 4, "altqplay: capture byte 0: ShortHead\n", HEADED),
    Try("`/dev/zero` as arrivals", device, ("arrivals", "/dev/zero"), 4, "altqplay: capture byte 0: BadMagic\n", HEADED),
    Try("the same packets as a pcapng capture", as_pcapng, (0,), 0, "", WHOLE),
    Try("a pcapng capture that is cut by its last byte", as_pcapng, (1,), 4, f"altqplay: capture byte {LAST_BLOCK}: ShortBlock\n", UNTOUCHED),
    Try("arrivals that are cut inside of a record while they are read", cut_while_read, (), 4, f"altqplay: capture byte {24 + 76 * (PACKETS - 2)}: ShortRecord\n", ("front", "front", "empty")),
    *uncreated("an output in a folder that is not there", played_with, "absent/file"),
    *uncreated("a name of 256 bytes, or a link to itself, for an output", long_name),
    *uncreated("a name of 256 bytes, or a link to itself, for an output", loop),
    *uncreated("a folder for an output", in_folder),
    Try("departures on a full device (`/dev/full`)", device, ("departures", "/dev/full"), 6, writing("departures"), ("nothing", "empty", "empty")),
    Try("fates on a full device", device, ("fates", "/dev/full"), 6, writing("fates"), ("head", "nothing", "empty")),
    Try("statistics on a full device", device, ("stats", "/dev/full"), 6, writing("stats"), ("whole", "whole", "nothing")),
    *[Try("an output into a named pipe that is read to its end", into_pipe, (which,), 0, "", WHOLE) for which in OUTPUTS],
    Try("departures into a named pipe whose reader goes away", into_pipe, ("departures", 24), 6, writing("departures"), ("head", "head or front", "empty")),
    Try("a play that SIGINT ends while it writes", interrupted, (), -2, "", ("front", "head or front", "empty")),
    Try("4 open files at most, one of them the configuration", with_few_descriptors, (4,), 5, reading("arrivals"), UNTOUCHED),
    Try("5, 6 or 7 open files at most", with_few_descriptors, (5,), 6, writing("departures"), after_creation("departures")),
    Try("5, 6 or 7 open files at most", with_few_descriptors, (6,), 6, writing("fates"), after_creation("fates")),
    Try("5, 6 or 7 open files at most", with_few_descriptors, (7,), 6, writing("stats"), after_creation("stats")),
    Try("8 open files at most", with_few_descriptors, (8,), 0, "", WHOLE),
    Try("files that may not grow (`ulimit -f`)", with_short_files, (), -25, "", ("front", "head", "empty")),
    *[Try("`check` with standard output closed, or full", checked, (suffix,), 6, "", UNTOUCHED) for suffix in (">&-", ">/dev/full")],
    Try("`check` with standard output into a pipe that nobody reads", checked_into_pipe, (), 6, "", UNTOUCHED),
    *[Try("a play that is done, with standard output closed, or full", redirected, (suffix,), 0, "", WHOLE) for suffix in (">&-", ">/dev/full")],
    Try("a play that is done, with all three standard descriptors closed", redirected, ("<&- >&- 2>&-",), 0, "", WHOLE),
    Try("a capture that is cut, with standard output closed, or full", redirected, (">&-", 1), 4, "", ("front", "front", "empty")),
    Try("a capture that is cut, with standard output closed, or full", redirected, (">/dev/full", 1), 4, "", ("front", "front", "empty")),
    Try("a capture that is cut, with all three standard descriptors closed", redirected, ("<&- >&- 2>&-", 1), 4, "", ("front", "front", "empty")),
    *[Try("departures that are the arrivals by another name, a link or a symbolic link", by_another_name, ("departures", how), 6, writing("departures"), UNTOUCHED) for how in ("name", "link", "symbolic link")],
    Try("fates that are the arrivals by another name", by_another_name, ("fates", "name"), 6, writing("fates"), after_creation("fates")),
    Try("statistics that are the arrivals by another name", by_another_name, ("stats", "name"), 6, writing("stats"), after_creation("stats")),
    Try("departures that are the configuration by another name", over, ("departures", "config"), 6, writing("departures"), UNTOUCHED),
    Try("fates that are the departures by another name", over, ("fates", "departures"), 6, writing("fates"), ("empty", "empty", "as before")),
    Try("all outputs on `/dev/null`, by three names as `/dev/./null` (twice the same name is refused: 2 kind 3)", on_device, (), 0, "", ("nothing",) * 3),
    Try("`play` and `make` with standard input and output closed: `play`", redirected, ("<&- >&-",), 0, "", WHOLE),
    Try("`play` and `make` with standard input and output closed: `make`", made, ("<&- >&-",), 6, "", WHOLE),
    Try("`make` with all three standard descriptors closed", made, ("<&- >&- 2>&-",), 6, "", WHOLE),
    Try("`verify` of the files of a play", verified, (), 0, "verified\n", WHOLE),
    *[Try("`verify` of departures or fates that are not there", verified, (which, "none"), 5, reading(which), WHOLE) for which in OUTPUTS[:2]],
    *[Try("`verify` of a folder in place of departures or fates", verified, (which, "folder"), 5, reading(which), WHOLE) for which in OUTPUTS[:2]],
    Try("`verify` of `/dev/null` as departures", verified, ("departures", "/dev/null"), 10, "altqplay: not verified, row 0 kind 8\n", WHOLE),
    Try("`verify` of `/dev/null` as fates", verified, ("fates", "/dev/null"), 10, "altqplay: not verified, row 0 kind 1\n", WHOLE),
    Try("`verify` of `/dev/zero` as fates", verified, ("fates", "/dev/zero"), 7, "altqplay: limit 4 reached\n", WHOLE),
    Try("`verify` of `/dev/zero` as departures", verified, ("departures", "/dev/zero"), 7, "altqplay: limit 5 reached\n", WHOLE),
    Try("`verify` of 2^30 zeros as fates", verified, ("fates", "zeros", "", 1 << 30), 10, "altqplay: not verified, row 0 kind 1\n", WHOLE),
    Try("`verify` of 2^30 + 1 zeros as fates", verified, ("fates", "zeros", "", (1 << 30) + 1), 7, "altqplay: limit 4 reached\n", WHOLE),
    *[Try("`verify` with standard output closed, or full", verified, (None, None, suffix), 6, "", WHOLE) for suffix in (">&-", ">/dev/full")],
]

DEMANDING = [
    *unread("a file that its user may not read", as_nobody, "unreadable"),
    *uncreated("an output in a folder into which its user may not write", as_nobody, "closed"),
    Try("all outputs on one disk that fills half-way", on_small_disk, (OUTPUTS, 256 * 1024), 6, writing("departures"), ("front", "front", "empty")),
    Try("the fates on a disk that fills half-way", on_small_disk, (("fates",), 128 * 1024), 6, writing("fates"), ("front", "front", "empty")),
    Try("the statistics on a full disk", on_small_disk, (("stats",), 64 * 1024, 64 * 1024), 6, writing("stats"), ("whole", "whole", "empty")),
]


def holding(name, data, whole, capture):
    """In one word what an output holds."""
    if data is None:
        return "nothing"
    before = [("as before", text) for text in (BEFORE, capture, CONFIG)]
    for word, text in (*before, ("whole", whole), ("empty", b""), ("head", HEADS[name])):
        if data == text:
            return word
    return "front" if whole.startswith(data) else "other"


def differences(room, one, found):
    """What came out otherwise than a try says, as texts."""
    told = []
    if found.run.status != one.status:
        told.append(f"status {found.run.status} for {one.status}")
    if found.run.said != one.said.encode():
        told.append(f"{found.run.said!r} was said")
    if not is_help(found.run):
        told.append(f"{found.run.complaint!r} stands on standard error")
    for name, word in zip(OUTPUTS, one.holds):
        held = holding(name, found.outputs[name], room.whole[name], room.capture)
        if held not in word.split(" or ") and (held, word) != ("nothing", "as before"):
            told.append(f"{name}: {held} for {word}")
    return told


def is_as_stated(room, one, stated):
    """Tries one line, says what came out otherwise, and returns whether all was as stated."""
    label = f"{one.row} ({', '.join(map(str, one.given))})"
    try:
        told = differences(room, one, one.play(room, *one.given))
    except Skipped as reason:
        print(f"{label}: left out, since {reason}")
        return True
    except Late:
        told = ["it did not end"]
    if f"| {one.row} | {one.status if one.status >= 0 else 'signal'}" not in stated:
        told.append("robust/real_files.txt has no such row")
    if told:
        print(f"{label}: {'; '.join(told)}")
    return not told


def main(words):
    is_quick = words[:1] == ["--quick"]
    words = words[is_quick:]
    if words and (len(words) != 2 or words[0] != "--program"):
        print("usage: real_files.py [--quick] [--program PROGRAM]", file=sys.stderr)
        return 2
    program = os.path.abspath(words[1]) if words else PROGRAM
    if not os.access(program, os.X_OK):
        print(f"real_files.py: nothing was tried, since there is no program {program}", file=sys.stderr)
        return 0 if is_quick else 1
    prepare()
    stated = content(os.path.join(ROOT, "robust", "real_files.txt")).decode()
    tries = QUICK if is_quick else QUICK + DEMANDING
    with tempfile.TemporaryDirectory(prefix="altqplay-real-") as top:
        room = Room(top, program)
        done = [is_as_stated(room, one, stated) for one in tries]
    if not (is_quick and all(done)):
        print(f"{sum(done)} of {len(done)} as stated")
    return 0 if all(done) else 1


if __name__ == "__main__":
    sys.exit(main(sys.argv[1:]))

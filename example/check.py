#!/usr/bin/env python3
"""Plays a capture once more, in plain Python, and compares what the program wrote, byte for byte.

Takes four words: CONFIG ARRIVALS DEPARTURES FATES, the configuration and the capture that the program read,
and the two files that it wrote. Without arguments they are those of the example, beside this script. It writes
no file. Its exit status is 0 where both files are as they should be, 1 where one is not, and 2 where it
cannot judge: the arguments, the configuration or the capture are not of the kind below.

It shares no code with the program, and no arithmetic but whole numbers. What it plays:

  - The configuration is one line, `interface NAME bandwidth RATE hfsc`, with RATE in bits per second, or in
    K, M or G for 10^3, 10^6, 10^9.
  - The capture is of the classic form, of either order of bytes, with stamps in nanoseconds or microseconds.
    A packet arrives at the greatest stamp up to its own record. Its length is the greater of its captured
    and its original length. It is numbered by its place in the capture, from 1.
  - There is one queue. A packet that arrives while 50 wait is dropped; another one waits at the end.
  - The link sends one packet at a time, the first that waits, as soon as the one before it has ended. The
    packet that is being sent waits no more. A packet that arrives at the very moment at which a sending may
    start is offered to the queue before that sending takes its packet.
  - Sendings that follow each other without a pause are a run. The end of a sending is the start of its run
    and the time of all the run's bytes so far on the link, rounded up to a nanosecond once: fractions of a
    nanosecond are not lost within a run. A pause, however short, begins a new run.
  - Fates and departures come in the order of what happened: a drop at its arrival, a sending at its start.

Then it has the departures read by tcpdump, capinfos and tshark, those that this machine has, and compares
what they say: tcpdump is to write what it read, of which the stamps, the lengths and the captured bytes are
compared; tshark is asked for the stamp and both lengths of each packet, capinfos for the count of packets and
the sum of their lengths. None of them may give a warning.
"""

import io
import os
import re
import shutil
import struct
import subprocess
import sys
from collections import deque, namedtuple

LIMIT = 50
BILLION = 10**9
LATEST = 2**32 * BILLION  # a capture cannot stamp this moment: the program stops before a sending that ends then
MOST_RECORDS = 4_000_000
MOST_BYTES = 2**30
LONGEST = 262_144
FATES_HEAD = b"number,arrival,length,class,fate,start,end\n"
DEPARTURES_HEAD = struct.pack("<IHHiIII", 0xA1B23C4D, 2, 4, 0, 0, 262144, 1)


# What a record of the departures should tell: the end in nanoseconds, the length, and how many bytes were captured.
Sent = namedtuple("Sent", "end length captured")


class CannotJudge(Exception):
    """The input is not of the kind that this script plays."""


def rate_of(config):
    """The rate of the one line of a configuration, in bits per second."""
    with open(config, "rb") as file:
        text = file.read(4098)
    found = re.fullmatch(rb"interface [\w.:/-]{1,64} bandwidth ([0-9]+)([KkMmGg]?) hfsc\n?", text, re.ASCII)
    if not found:
        raise CannotJudge(f"{config}: not the one line 'interface NAME bandwidth RATE hfsc'")
    scale = {b"": 1, b"k": 10**3, b"m": 10**6, b"g": 10**9}[found[2].lower()]
    rate = int(found[1]) * scale
    if not 1000 <= rate <= 10**12:
        raise CannotJudge(f"{config}: {rate} bits per second is not between 1,000 and 10^12")
    return rate


def arrivals(file, name):
    """The packets of a capture in its order, each (number, arrival, length, captured bytes)."""
    magics = {b"\xa1\xb2\xc3\xd4": (">", 1000), b"\xd4\xc3\xb2\xa1": ("<", 1000),
              b"\xa1\xb2\x3c\x4d": (">", 1), b"\x4d\x3c\xb2\xa1": ("<", 1)}
    head = file.read(24)
    if len(head) < 24 or head[:4] not in magics:
        raise CannotJudge(f"{name}: not a capture of the classic form")
    order, unit = magics[head[:4]]
    version, link = struct.unpack(order + "HH", head[4:8]), struct.unpack(order + "I", head[20:])[0]
    if version != (2, 4) or link % 2**16 != 1:
        raise CannotJudge(f"{name}: not version 2.4, or not of Ethernet")
    number, latest, place = 0, 0, 24
    while prefix := file.read(16):
        if len(prefix) < 16:
            raise CannotJudge(f"{name}: damaged at byte {place}")
        seconds, fraction, captured, original = struct.unpack(order + "IIII", prefix)
        data = file.read(captured) if captured <= LONGEST else b""
        if len(data) < captured or original > LONGEST or captured == original == 0:
            raise CannotJudge(f"{name}: damaged at byte {place}")
        number, place = number + 1, place + 16 + captured
        if number > MOST_RECORDS or place > MOST_BYTES:
            raise CannotJudge(f"{name}: past the limits of a capture")
        latest = max(latest, seconds * BILLION + fraction * unit)
        yield number, latest, max(original, captured), data


def play(rate, packets):
    """What happens, in its order: (packet, None, None) for a drop, (packet, start, end) for a sending."""
    waiting = deque()
    free = run_start = run_bytes = 0

    def send():
        nonlocal free, run_start, run_bytes
        packet = waiting.popleft()
        start = max(free, packet[1])
        if start > free:
            run_start, run_bytes = start, 0
        run_bytes += packet[2]
        free = run_start + -(-8 * BILLION * run_bytes // rate)
        if free >= LATEST:
            raise CannotJudge(f"packet {packet[0]} would be sent past the last moment that a capture can stamp")
        return packet, start, free

    for packet in packets:
        # what could start before this arrival has started
        while waiting and max(free, waiting[0][1]) < packet[1]:
            yield send()
        if len(waiting) == LIMIT:
            yield packet, None, None
        else:
            waiting.append(packet)
    while waiting:
        yield send()


def shown(piece):
    """Some bytes for a reader: as text where they are, and else in hexadecimal."""
    return piece.decode("ascii").rstrip("\n") if piece.isascii() and piece.replace(b"\n", b"").decode("ascii").isprintable() else piece[:32].hex(" ", 4)


class Written:
    """A file of the program, compared with what should stand in it, piece by piece."""

    def __init__(self, name):
        self.name, self.file, self.place, self.fault = name, open(name, "rb"), 0, None

    def expect(self, piece, what):
        if self.fault is None:
            found = self.file.read(len(piece))
            if found != piece and piece.startswith(found):
                self.fault = f"ends at byte {self.place + len(found)}, in {what}"
            elif found != piece:
                self.fault = f"differs in {what}, at or after byte {self.place}\n    should be  {shown(piece)}\n    is         {shown(found)}"
            self.place += len(piece)

    def finish(self):
        if self.fault is None and self.file.read(1):
            self.fault = f"goes on after byte {self.place}, where it should end"
        self.file.close()
        if self.fault is None:
            print(f"ok    {self.name}: all {self.place} bytes are the same")
        else:
            print(f"WRONG {self.name}: {self.fault}")
        return self.fault is None


def compare(rate, arrivals_name, departures_name, fates_name):
    """Whether both files are right, and what was sent."""
    departures, fates = Written(departures_name), Written(fates_name)
    departures.expect(DEPARTURES_HEAD, "its head")
    fates.expect(FATES_HEAD, "its head")
    sent, dropped = [], 0
    with open(arrivals_name, "rb") as file:
        for (number, at, length, data), start, end in play(rate, arrivals(file, arrivals_name)):
            if start is None:
                dropped += 1
                fates.expect(f"{number},{at},{length},default,full,,\n".encode(), f"the row of packet {number}")
                continue
            sent.append(Sent(end, length, len(data)))
            fates.expect(f"{number},{at},{length},default,share,{start},{end}\n".encode(), f"the row of packet {number}")
            head = struct.pack("<IIII", end // BILLION, end % BILLION, len(data), length)
            departures.expect(head + data, f"the record of packet {number}")
    print(f"played {len(sent) + dropped} packets at {rate} bits per second: {len(sent)} sent, {dropped} dropped")
    right = [fates.finish(), departures.finish()]
    return all(right), sent


# What tools may say on standard error without meaning a fault.
HARMLESS = ("reading from file", "dropped privs", "Running as user")


def ask(words, name):
    """What a tool prints of a capture on its standard input, and its complaint, if it has one."""
    with open(name, "rb") as file:
        done = subprocess.run(words, stdin=file, capture_output=True, check=False)
    said = [line for line in done.stderr.decode(errors="replace").splitlines() if line.strip() and not any(h in line for h in HARMLESS)]
    complaint = said[0] if said else f"status {done.returncode}"
    return done.stdout, complaint if said or done.returncode else None


def first_fault(read, sent):
    """What is wrong with the packets that a tool read, where they are not those that were sent."""
    if len(read) != len(sent):
        return f"it reads {len(read)} packets, not {len(sent)}"
    return next((f"it reads {one} as packet {n}, where the fates tell {wanted}" for n, (one, wanted) in enumerate(zip(read, sent), 1) if one != wanted), None)


def tcpdump_fault(name, sent):
    written, complaint = ask(["tcpdump", "--nano", "-r", "-", "-w", "-"], name)
    if complaint:
        return complaint
    try:
        return first_fault([Sent(at, length, len(data)) for _n, at, length, data in arrivals(io.BytesIO(written), "what it writes")], sent)
    except CannotJudge as fault:
        return str(fault)


def capinfos_fault(name, sent):
    printed, complaint = ask(["capinfos", "-M", "-c", "-d", name], name)
    told = dict(re.findall(r"^(Number of packets|Data size): +(\d+)", printed.decode(errors="replace"), re.MULTILINE))
    wanted = {"Number of packets": str(len(sent)), "Data size": str(sum(one.length for one in sent))}
    return complaint or (None if told == wanted else f"it counts {told}, not {wanted}")


def tshark_fault(name, sent):
    fields = ["frame.time_epoch", "frame.len", "frame.cap_len"]
    printed, complaint = ask(["tshark", "-n", "-r", "-", "-T", "fields"] + [word for f in fields for word in ("-e", f)], name)
    if complaint:
        return complaint
    told = [re.fullmatch(r"(\d+)\.(\d{9})\t(\d+)\t(\d+)", line) for line in printed.decode(errors="replace").splitlines()]
    return first_fault([m and Sent(int(m[1] + m[2]), int(m[3]), int(m[4])) for m in told], sent)


# Each tool, what it is asked, and what its answer shows where that is right.
TOOLS = [("tcpdump", tcpdump_fault, "the stamps and lengths are those of the fates"),
         ("capinfos", capinfos_fault, "the sum of their lengths is that of the fates"),
         ("tshark", tshark_fault, "the stamps and lengths are those of the fates")]


def ask_tools(name, sent):
    """Whether each tool that is installed reads the departures without a complaint, and as they should be read."""
    right = True
    for tool, fault_of, shows in TOOLS:
        if shutil.which(tool) is None:
            print(f"--    {tool} was not found on this machine: not asked")
            continue
        fault = fault_of(name, sent)
        print(f"ok    {tool} reads {len(sent)} packets without a warning; {shows}" if fault is None else f"WRONG {tool}: {fault}")
        right = right and fault is None
    return right


def main(words):
    here = os.path.dirname(os.path.abspath(__file__))
    if not words:
        out = os.path.join(here, "out")
        words = [os.path.join(here, "altq.conf")] + [os.path.join(out, n) for n in ("arrivals.pcap", "departures.pcap", "fates.csv")]
        words = [min(name, os.path.relpath(name), key=len) for name in words]
    if len(words) != 4 or words[0].startswith("-"):
        print("usage: check.py [CONFIG ARRIVALS DEPARTURES FATES]", file=sys.stderr)
        return 2
    config, arrivals_name, departures_name, fates_name = words
    try:
        right, sent = compare(rate_of(config), arrivals_name, departures_name, fates_name)
    except (CannotJudge, OSError) as fault:
        print(f"check.py: cannot judge: {fault}", file=sys.stderr)
        return 2
    right = ask_tools(departures_name, sent) and right
    print("Both files are as the definition says." if right else "Something is not as the definition says.")
    return 0 if right else 1


if __name__ == "__main__":
    sys.exit(main(sys.argv[1:]))

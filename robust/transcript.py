#!/usr/bin/env python3
"""Answers a transcript of worked plays by a program with the command line of altqplay, so that two programs can be compared.

    robust/transcript.py PROGRAM < crates/worked_plays/stdin | diff crates/worked_plays/stdin -

The form is that of crates/transcript/README.md. What only the crate can answer, single calls and calls that are made to fail, is
printed with the answer that stands there. No part of any test.
"""

import ipaddress
import os
import re
import struct
import subprocess
import sys
import tempfile

from program import CAPTURE_FAULTS, CONFIGURATION_FAULTS

PROTOCOLS = {"icmp": 1, "tcp": 6, "udp": 17, "icmp6": 58}
LINK = bytes.fromhex("020000000002020000000001")
CONFIGURATION = "--config conf --interface if0"
GIVEN = "--arrivals in --departures out --fates fates"
OTHERS = GIVEN + " --stats stats --seed 42"
NEXT = "--next if1 --departures2 out2 --fates2 fates2 --stats2 stats2 --path path"
USUAL = {"check": CONFIGURATION, "bound": CONFIGURATION, "verify": f"{CONFIGURATION} {GIVEN}", "chain": f"{CONFIGURATION} {OTHERS} {NEXT}",
         "condition": f"{CONFIGURATION} --arrivals in --marked marked"}
NAMES = ("conf", "in", "out", "fates", "stats", "out2", "fates2", "stats2", "path", "marked")
EDITS = ("bytes", "cut", "put")
READ, WRITTEN = ("configuration", "arrivals", "departures", "fates"), {
    "departures": 1, "fates": 2, "statistics": 3, "arrivals": 4, "marked arrivals": 5, "second departures": 6, "second fates": 7,
    "second statistics": 8, "path": 9, "result": 10}


def number(text):
    """A decimal number, or a hexadecimal one behind 0x."""
    return int(text, 16) if text.startswith("0x") else int(text)


def end_of(text):
    """The address and the port, or None, of one end of a flow."""
    try:
        return ipaddress.ip_address(text).packed, None
    except ValueError:
        host, port = text.rsplit(":", 1)
        return ipaddress.ip_address(host.strip("[]")).packed, int(port)


def _edit(data, how, words):
    # Adds bytes, cuts them to a number, or overwrites some from a place on.
    if how == "bytes":
        data += bytes.fromhex(words[0])
    elif how == "cut":
        del data[number(words[0]):]
    else:
        piece = bytes.fromhex(words[1])
        data[number(words[0]):number(words[0]) + len(piece)] = piece


class Packet:
    """A packet, from the words of a line behind its arrival."""

    def __init__(self, words):
        self.length, self.times, self.captured, self.vlan, self.tos, self.sum = number(words[0]), 1, None, None, 0, 0
        self.kind, self.given = None, b""
        words = words[1:]
        while words:
            words = words[self.take(words):]

    def take(self, words):
        """Takes what the first words say; how many they are."""
        if words[0] in ("times", "captured", "vlan", "tos", "sum"):
            setattr(self, words[0], number(words[1]))
        elif words[0] == "hex":
            self.kind, self.given = "hex", bytes.fromhex(words[1])
        elif words[0] == "arp":
            self.kind = "arp"
            return 1
        else:
            self.kind, self.flow = "flow", (PROTOCOLS.get(words[0]) or number(words[0]), end_of(words[1]), end_of(words[3]))
            return 4
        return 2

    def frame(self):
        """The captured bytes."""
        tag = b"" if self.vlan is None else b"\x81\0" + struct.pack(">H", self.vlan)
        frame = {None: b"", "hex": self.given, "arp": LINK + tag + b"\x08\x06"}.get(self.kind)
        if frame is None:
            frame = LINK + tag + self.heads(max(0, self.length - 14 - len(tag)))
        captured = self.captured if self.captured is not None else len(frame) if self.kind == "hex" else 60
        return frame[:captured].ljust(captured, b"\0")

    def heads(self, total):
        """The heads of IPv4 or IPv6 behind that of Ethernet's addresses."""
        protocol, (source, source_port), (target, target_port) = self.flow
        if len(source) == 4:
            behind = total - 20
            heads = b"\x08\0\x45" + struct.pack(">BHHHBBH", self.tos, total & 65535, 0, 0, 64, protocol, self.sum)
        else:
            behind = total - 40
            heads = b"\x86\xdd" + struct.pack(">IHBB", 6 << 28 | self.tos << 20, max(0, behind) & 65535, protocol, 64)
        heads += source + target
        if source_port is not None:
            heads += struct.pack(">HH", source_port, target_port)
        return heads + (struct.pack(">H", max(0, behind) & 65535) if protocol == 17 else b"")


def kind_of(said, code):
    """The kind that the last line of what is said tells."""
    last = said.rsplit("\n", 2)[-2] if said else ""
    if code == 0:
        return int(last.startswith("exceeds"))
    if code == 6 and not last.startswith("altqplay"):
        return 10
    if code == 6:
        return WRITTEN[last.removeprefix("altqplay: writing ").removesuffix(" failed")]
    word = re.split(r"[ :]", last.removesuffix(" failed").removesuffix(" reached"))[-1]
    tables = {3: CONFIGURATION_FAULTS, 4: CAPTURE_FAULTS, 5: READ}
    if code in tables:
        return tables[code].index(word) + 1
    return 0 if code == 8 else int(word)


class Case:
    """What was said since a case began, and the folder of its runs."""

    def __init__(self, program):
        self.program, self.config, self.can = os.path.abspath(program), "", True
        self.folder = tempfile.TemporaryDirectory()
        self.begin("little", "nano")

    def begin(self, order, unit):
        """Begins the capture anew."""
        self.order, self.unit = (">" if order == "big" else "<"), (1000 if unit == "micro" else 1)
        magic = 0xA1B2C3D4 if unit == "micro" else 0xA1B23C4D
        self.capture = bytearray(struct.pack(self.order + "IHHIIII", magic, 2, 4, 0, 0, 262144, 1))

    def arrive(self, words):
        """Adds the records of a packet."""
        second, rest = divmod(number(words[0]), 10**9)
        packet = Packet(words[1:])
        frame = packet.frame()
        record = struct.pack(self.order + "IIII", second, rest // self.unit, len(frame), packet.length) + frame
        self.capture += record * packet.times

    def run(self, words):
        """Runs a command: its message and how it ended."""
        usual = USUAL.get(words[0], f"{CONFIGURATION} {OTHERS}")
        words = " ".join(words).replace("..", usual).split()
        self.put("conf", self.config.encode())
        self.put("in", bytes(self.capture))
        run = subprocess.run([self.program, *words], cwd=self.folder.name, stdout=subprocess.PIPE, stderr=subprocess.DEVNULL, check=False)
        said = run.stdout.decode()
        status = f"status {run.returncode} kind {kind_of(said, run.returncode)}"
        # Of a chain the link is that of the play that had begun: no message tells it.
        if words[0] == "chain" and run.returncode in (4, 7) and not status.startswith("status 7 kind 3"):
            status += " link " + ("1" if self.get("out2") is None else "2")
        return [*said.splitlines(), status]

    def put(self, name, data):
        with open(os.path.join(self.folder.name, name), "wb") as file:
            file.write(data)

    def get(self, name):
        path = os.path.join(self.folder.name, name)
        if not os.path.exists(path):
            return None
        with open(path, "rb") as file:
            return file.read()

    def change(self, words):
        """Changes the bytes of a file as the words say, or a line of its text."""
        data = bytearray(self.get(words[1]) or b"")
        if words[0] == "row":
            lines, place = data.decode().splitlines(), number(words[2]) - 1
            lines[place:place + 1] = [" ".join(words[3:])] if words[3:] else []
            data = "".join(line + "\n" for line in lines).encode()
        else:
            _edit(data, words[0], words[2:])
        self.put(words[1], bytes(data))

    def text(self, name):
        """The lines of a file."""
        data = self.get(name)
        return ["absent"] if data is None else data.decode(errors="replace").splitlines()

    def packets(self, name, most=1 << 60):
        """The records of a capture in the words of an arrival."""
        data = self.get(name)
        if data is None:
            return ["absent"]
        lines, rest, before = ["bytes " + data[:24].hex()], data[24:], b""
        while len(rest) >= 16 and len(lines) <= int(most):
            second, nanosecond, captured, length = struct.unpack("<IIII", rest[:16])
            frame, rest = rest[16:16 + captured], rest[16 + captured:]
            lines.append(f"{second * 10**9 + nanosecond} {length} hex {'same' if frame == before else frame.hex()}")
            before = frame
        return [*lines, *([f"{len(rest)} bytes more"] if rest else [])]

    def with_line(self, text):
        """The last line of what a check says of the configuration with one more line."""
        before, self.config = self.config, self.config + text
        said = self.run(["check", ".."])
        self.config = before
        return said[-2:-1]

    def cuts(self, words):
        """How a command ends over each length of the capture: those that end otherwise than the one before."""
        whole, files, lines, before = bytes(self.capture), self.folder, [], None
        self.folder = tempfile.TemporaryDirectory()
        for length in range(len(whole) + 1):
            self.capture = whole[:length]
            *said, ending = self.run(words)
            place = re.search(r"byte (\d+)", said[-1]) if said else None
            if place:
                ending += " at the cut" if int(place[1]) == length else f" at {place[1]}"
            ending += f", out {len(self.get('out') or b'')}"
            if ending != before:
                lines.append(f"from {length}: {ending}")
            before = ending
        self.capture, self.folder = bytearray(whole), files
        return lines

    def follow(self, line):
        """Does what a line says: what is to stand below it, or None where this cannot tell."""
        words = line.split()
        if line.startswith("    "):
            self.config += line[4:] + "\n"
        elif not words or line.startswith(("==", "#")):
            pass
        elif words[0] == "repeat":
            for i in range(1, int(words[1]) + 1):
                self.config += " ".join(words[2:]).replace("%", str(i)) + "\n"
        elif words[0] in ("anew", "pieces"):
            self.folder, self.can = tempfile.TemporaryDirectory(), True
        elif words[0] == "fail":
            self.can = False
        elif words[0] == "$":
            return self.answer(line, words[1:])
        elif words[0] == "head":
            self.begin(*words[1:])
        elif words[0] == "row" or (words[0] in EDITS and words[1] in NAMES):
            self.change(words)
        elif words[0] in EDITS:
            _edit(self.capture, words[0], words[1:])
        else:
            self.arrive(words)
        return []

    def answer(self, line, words):
        """What is asked behind `$`."""
        if not self.can or words[0] in ("flow", "curve", "average", "next") or words[0] == "each" and words[2] == "fails":
            return None
        if words[0] == "each":
            return self.cuts(words[2:])
        if words[0] == "steady":
            return self.run(words[1:])
        if words[0] == "line":
            return self.with_line(line.removeprefix("$ line "))
        if words[0] == "cat":
            return self.text(words[1])
        if words[0] == "lines":
            return self.text(words[1])[int(words[2]) - 1:int(words[3])]
        return self.packets(*words[1:]) if words[0] == "packets" else self.run(words)


def answered(program, lines):
    """The transcript with this program's answers."""
    case, asked = None, []
    for i, line in enumerate(lines):
        if line.startswith(">"):
            continue
        if line.startswith("==") or case is None:
            case = Case(program)
        yield line
        asked = case.follow(line)
        if asked is None:
            asked = [stated[2:] for stated in _stated(lines, i + 1)]
        for told in asked:
            yield "> " + told


def _stated(lines, i):
    # The answers that stand from a line on.
    while i < len(lines) and lines[i].startswith(">"):
        yield lines[i]
        i += 1


if __name__ == "__main__":
    for told in answered(sys.argv[1], sys.stdin.read().splitlines()):
        print(told)

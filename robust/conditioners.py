#!/usr/bin/env python3
"""Plays random configurations with conditioners, and holds what comes out to plays of captures that are marked by a second reading.

    conditioners.py [SEED [PLAYS]] [--quick] [--first NUMBER] [--only NUMBER] [--keep FOLDER] [--program PROGRAM] [--reference PROGRAM]

The cases follow from SEED and their numbers, PLAYS of them (500 without the word) from 0 or from --first on, of SEED 1 where none is said. Each
is an interface of HFSC or CBQ with conditioners and filters, some of which look at the type of service, and a capture of tagged and untagged
frames of IPv4, IPv6 and ARP, of either order of bytes and either unit, or pcapng; some are damaged. `play`, `shares` and `verify` over it must
end as without conditioners over the capture that the workbench's meters mark: the same status, the same said, the same files. `verify` is asked
of the files of the play, and of departures with one byte changed. `condition` must write that marked capture, of a damaged one its head and
complete records. `make` must write the capture that it writes without conditioners, and leave what `play` leaves of it; `check` must say text
that is read as the same. With --reference all of this must be what another program of the same command line does, too. --quick is 60 plays of a
fixed seed, which the gate runs. --keep leaves the files of the play of --only in a folder. An interrupt ends the script with the counts of what
was played so far. The exit status is 0 where nothing differs, 1 where something does, 2 for other words.
"""

import argparse
import contextlib
import os
import random
import shutil
import struct
import sys
import tempfile
from collections import Counter

sys.dont_write_bytecode = True
sys.path.insert(0, os.path.join(os.path.dirname(os.path.dirname(os.path.abspath(__file__))), "python"))

from altqplay.workbench.conf import read_conf  # noqa: E402
from altqplay.workbench.faults import Refused  # noqa: E402
from altqplay.workbench.meter import colours_of, unmarked_fates  # noqa: E402
from altqplay.workbench.rules.frames import type_of_service  # noqa: E402
from altqplay.workbench.rules.meters import mark  # noqa: E402
import pcapng  # noqa: E402
from given import retagged  # noqa: E402
from judge import is_pcapng, read_capture, read_head  # noqa: E402
from program import DEPARTURES_HEAD, PROGRAM, content, prepare, run, store, words_of  # noqa: E402
from transcript import Case  # noqa: E402

QUICK = ("7", 60)
CONFIG, UNMARKED, ARRIVALS, MARKED, MADE, WRITTEN = "c.conf", "u.conf", "a.pcap", "m.pcap", "n.pcap", "w.pcap"
OUTPUTS = ("d.pcap", "f.csv", "s.csv")
RATES = ("8K", "100K", "1M", "8M", "64M", "479999999999", "480G")
TYPES = ("0", "0x28", "0x30", "0x38", "0x48", "0x50", "0x03", "0xff", "0xb8")
LENGTHS = (60, 500, 1000, 1500, 9000)


def meter(rng):
    """The meter of a conditioner and its class of assured forwarding."""
    cir, burst, af = rng.choice(RATES), rng.choice((1, 60, 500, 1500, 3000, 10000)), rng.randint(1, 4)
    if rng.random() < 0.5:
        return f"srtcm {cir} {burst} {rng.choice((0, 60, 1500, 5000))} {af}"
    peak = rng.choice([rate for rate in RATES[RATES.index(cir):] if cir != "480G" or rate == "480G"])
    return f"trtcm {peak} {rng.choice((60, 1500, 4000))} {cir} {burst} {af}"


def queue(rng):
    return rng.choice(("", "", " red", " rio", " rio", " ecn", " cleardscp")) + rng.choice(("", " qlimit 5"))


def statements(rng, kind):
    """The lines of an interface; of three classes one may be below another."""
    names = "abc"[:rng.randint(1, 3)]
    is_deep = len(names) == 3 and rng.random() < 0.4
    rate = "pshare {}" if kind == "hfsc" else "exactbandwidth {}K"
    parents = {name: "root" for name in names} | ({"c": "b"} if is_deep else {})
    lines = [f"interface if0 bandwidth {rng.choice(('1M', '8M', '100M'))} {kind}", f"class {kind} if0 root NULL"]
    for place, name in enumerate(names):
        lent = " borrow" if kind == "cbq" and rng.random() < 0.7 else ""
        size = rng.randint(5, 60) if kind == "hfsc" else rng.choice((200, 1000, 3000))
        lines.append(f"class {kind} if0 {name} {parents[name]} {rate.format(size)}{lent}{queue(rng)}{' default' if place == 0 else ''}")
    holders = [name for name in names if kind == "cbq" or name not in parents.values()]
    rest = []
    for name in holders[1:]:
        service = f" tos {rng.choice(TYPES)} tosmask {rng.choice((252, 255, 3))}" if rng.random() < 0.7 else ""
        ruleno = f" ruleno {rng.randrange(3)}" if rng.random() < 0.3 else ""
        rest.append(f"filter if0 {name}{ruleno} 0 {rng.choice((0, 0, 5001, 5002))} 0 0 17{service}")
        if rng.random() < 0.4:
            rest.append(f"filter6 if0 {name} 0 0 0 0 0 tclass {rng.choice(TYPES)} tclassmask 252")
    conditioned = [name for name in holders if rng.random() < 0.8] or [holders[0]]
    rest += [f"conditioner if0 {name} {meter(rng)}" for name in conditioned]
    if kind == "cbq" and rng.random() < 0.2:
        rest.append(f"conditioner if0 root {meter(rng)}")
    rng.shuffle(rest)
    return lines + rest


def packets(rng):
    """The lines of packets: bursts, also of stamps that go back."""
    at, busy = rng.choice((0, 5_000_000_000)), rng.choice((0.3, 0.8))
    for _ in range(rng.choice((0, 2, 10, 40))):
        at += rng.choice((0, 0, 1, 1000, 100_000)) if rng.random() < busy else rng.choice((1_000_000, 5_000_000, rng.randrange(40_000_000)))
        stamp = max(0, at - 2_000_000) if rng.random() < 0.1 else at
        service, port, tag = f" tos {rng.choice(TYPES)}", rng.choice((5001, 5002, 9000)), rng.choice(("", "", " vlan 5"))
        heads = rng.choice([f" udp 10.0.0.1:1027 > 10.0.0.2:{port}{service}{tag}"] * 4 + [f" udp [fe80::1]:1027 > [fe80::2]:{port}{service}{tag}", " arp", ""])
        sums = f" sum {rng.randrange(65536)}" if rng.random() < 0.5 else ""
        captured = f" captured {rng.choice((14, 33, 34, 54, 58))}" if rng.random() < 0.1 else ""
        yield f"{stamp} {rng.choice(LENGTHS)}{heads}{sums}{captured} times {rng.choice((1, 1, 2, 6))}"


def draw(rng, number, folder):
    """Writes a configuration and a capture."""
    case = Case("-")
    for line in statements(rng, ("hfsc", "cbq")[number % 2]):
        case.follow("    " + line)
    form = rng.choice(("little nano", "little micro", "big nano", "big micro", "pcapng"))
    case.follow("head " + (form if form != "pcapng" else "little nano"))
    for line in packets(rng):
        case.follow(line)
    data = bytes(case.capture)
    if form == "pcapng":
        found = [(found.at, found.length, found.data) for found in read_capture(data).arrivals]
        data = b"".join(pcapng.blocks_of(rng, found))
    if rng.random() < 0.2:
        data = rng.choice((data[:rng.randrange(len(data) + 1)], data + b"\1" * rng.randint(1, 30)))
    store(os.path.join(folder, CONFIG), case.config.encode())
    store(os.path.join(folder, ARRIVALS), data)


def of_records(data, change):
    """A classic capture in which each frame of a complete record is what `change` makes of its number and its bytes."""
    place, data = 24, bytearray(data)
    for number, found in enumerate(read_capture(bytes(data)).arrivals, 1):
        data[place + 16:place + 16 + len(found.data)] = change(number, found.data)
        place += 16 + len(found.data)
    return bytes(data), place


def classic(data):
    """The classic capture of a pcapng one that can be played."""
    found, end = pcapng.read(data)
    if end is not None:
        return None
    return DEPARTURES_HEAD + b"".join(struct.pack("<IIII", *divmod(stamp, 10**9), len(captured), length) + captured for stamp, length, captured in found)


def marked(options, folder, data):
    """A classic capture as the meters mark it, or None where its packets cannot all be played."""
    interface = read_conf(os.path.join(folder, CONFIG), "if0", options.program)
    _same, end = of_records(data, lambda _number, frame: frame)
    store(os.path.join(folder, MARKED), data[:end])
    try:
        fates = unmarked_fates(interface, os.path.join(folder, MARKED), options.program)
    except Refused:
        return None
    colours = colours_of(interface, fates)

    def change(number, frame):
        tos = type_of_service(frame)
        return frame if number not in colours or tos is None else retagged(frame, mark(*colours[number], tos))

    store(os.path.join(folder, UNMARKED), interface.unmarked.encode())
    return of_records(data, change)[0]


def ended(program, command, folder, config, arrivals, number):
    """How a command of a program ends: status, what it says, and what its files hold."""
    names = {"config": config, "arrivals": arrivals, "departures": OUTPUTS[0], "fates": OUTPUTS[1], "stats": OUTPUTS[2]}
    words = words_of(names, str(number))[1:]
    if command == "verify":
        words = [word for name, value in names.items() if name != "stats" for word in ("--" + name, value)] + ["--interface", "if0"]
    elif command == "check":
        words = ["--config", config, "--interface", "if0"]
    elif command == "make":
        words += ["--count", str(1 + number % 90)]
    else:
        for name in OUTPUTS:
            if os.path.exists(os.path.join(folder, name)):
                os.remove(os.path.join(folder, name))
    done = run([program, command, *words], folder)
    found = [name for name in (*OUTPUTS, arrivals) if os.path.exists(os.path.join(folder, name))]
    return done.status, done.said, {name: content(os.path.join(folder, name)) for name in found if name != arrivals or command == "make"}


def change_byte(folder, number):
    """Changes a byte of the departures, most often that of a type of service or a checksum."""
    place, departures = os.path.join(folder, OUTPUTS[0]), bytearray(content(os.path.join(folder, OUTPUTS[0])))
    if len(departures) > 24:
        rng = random.Random(number)
        departures[min(len(departures) - 1, rng.choice((24 + 16 + 15, 24 + 16 + 25, rng.randrange(len(departures)))))] ^= 1 << rng.randrange(8)
        store(place, bytes(departures))


def endings(options, program, folder, number, config, arrivals):
    """How `play`, `shares`, `verify` and `verify` of changed departures end."""
    found = [ended(program, "shares", folder, config, arrivals, number), ended(program, "play", folder, config, arrivals, number)]
    if found[1][0] == 0:
        found.append(ended(program, "verify", folder, config, arrivals, number))
        change_byte(folder, number)
        found.append(ended(program, "verify", folder, config, arrivals, number))
    return found


def fault_of(options, folder, number):
    """What is wrong with a case, or None, and how its play ended."""
    data = content(os.path.join(folder, ARRIVALS))
    found = endings(options, options.program, folder, number, CONFIG, ARRIVALS)
    how = f"play {found[1][0]}, " + ("pcapng" if is_pcapng(data) else "classic") + (f", changed byte {found[3][0]}" if len(found) > 3 else "")
    if len(found) > 2 and found[2][0] != 0:
        return "verify refutes the play", how
    if options.reference and endings(options, options.reference, folder, number, CONFIG, ARRIVALS) != found:
        return "the reference ends otherwise", how
    plain = classic(data) if is_pcapng(data) else data if read_head(data)[0] else None
    other = marked(options, folder, plain) if plain is not None else None
    if other is not None:
        store(os.path.join(folder, MARKED), other)
        if endings(options, options.program, folder, number, UNMARKED, MARKED) != found:
            return "a play of the marked capture ends otherwise", how
    return condition_fault(options, folder, other) or made_fault(options, folder, number), how


def condition_fault(options, folder, other):
    """What is wrong with `condition`, or None. `other` is the capture as the meters mark it, or None where that is not known."""
    def end(program):
        place = os.path.join(folder, WRITTEN)
        if os.path.exists(place):
            os.remove(place)
        words = ["--config", CONFIG, "--interface", "if0", "--arrivals", ARRIVALS, "--marked", WRITTEN]
        done = run([program, "condition", *words], folder)
        return done.status, done.said, content(place) if os.path.exists(place) else None

    found = end(options.program)
    if options.reference and end(options.reference) != found:
        return "condition of the reference ends otherwise"
    if other is None:
        return None
    behind = of_records(other, lambda _number, frame: frame)[1]
    return None if found[2] == (other if found[0] == 0 else other[:behind]) else "condition writes other bytes than the meters mark"


def made_fault(options, folder, number):
    """What is wrong with `check` and `make`, or None."""
    def end(command, config=CONFIG, program=options.program):
        return ended(program, command, folder, config, MADE, number)

    checked, made = end("check"), end("make")
    if options.reference and [checked[:2], made] != [end("check", program=options.reference)[:2], end("make", program=options.reference)]:
        return "check or make of the reference ends otherwise"
    text = checked[1].splitlines(keepends=True)[:-1]
    store(os.path.join(folder, UNMARKED), b"".join(line for line in text if not line.startswith(b"conditioner ")))
    if end("make", UNMARKED)[2].get(MADE) != made[2][MADE]:
        return "make writes another capture than without conditioners"
    played = end("play")
    if any(played[2][name] != made[2][name] for name in OUTPUTS):
        return "make leaves other files than play"
    store(os.path.join(folder, UNMARKED), b"".join(text))
    return None if end("check", UNMARKED)[:2] == checked[:2] else "the canonical text is not read as itself"


def options_of(words):
    """The options of the words of this script."""
    parser = argparse.ArgumentParser(description="Plays random configurations with conditioners, and compares.")
    parser.add_argument("seed", nargs="?", default="1")
    parser.add_argument("plays", nargs="?", type=int, default=500)
    parser.add_argument("--quick", action="store_true")
    parser.add_argument("--first", type=int, default=0, metavar="NUMBER")
    parser.add_argument("--only", type=int, metavar="NUMBER")
    parser.add_argument("--keep", type=os.path.abspath, metavar="FOLDER")
    parser.add_argument("--program", type=os.path.abspath, default=PROGRAM)
    parser.add_argument("--reference", type=os.path.abspath, metavar="PROGRAM")
    options = parser.parse_args(words)
    if options.quick:
        options.seed, options.plays = QUICK
    return options


def main(words):
    options = options_of(words)
    if not os.access(options.program, os.X_OK):
        print(f"conditioners.py: no program {options.program}", file=sys.stderr)
        return 1
    prepare()
    numbers = range(options.first, options.first + options.plays) if options.only is None else [options.only]
    counts, differing = Counter(), 0
    with contextlib.suppress(KeyboardInterrupt):
        for number in numbers:
            with tempfile.TemporaryDirectory(prefix="altqplay-conditioners-") as top:
                folder = os.path.join(top, "case")
                os.mkdir(folder)
                draw(random.Random(f"{options.seed} {number}"), number, folder)
                fault, how = fault_of(options, folder, number)
                if options.keep:
                    shutil.copytree(folder, os.path.join(options.keep, str(number)), dirs_exist_ok=True)
            counts[how] += 1
            if fault is not None:
                differing += 1
                print(f"play {number}: {fault}", flush=True)
    for what, count in sorted(counts.items()):
        print(f"{count:>8}  {what}")
    print(f"{sum(counts.values())} plays of seed {options.seed}, {differing} differ")
    return 1 if differing else 0


if __name__ == "__main__":
    sys.exit(main(sys.argv[1:]))

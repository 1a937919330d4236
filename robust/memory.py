#!/usr/bin/env python3
"""Runs the built program with the n-th growth of its memory refused, n from 0 upwards until a run asks for no n-th.

    memory.py [PROGRAM]

No part of any test. It needs a C compiler (cc) and glibc: refuse.c, made into a library that is loaded before the C
library, answers the n-th call of malloc, calloc or realloc that comes from the program's own code as when there is no
memory. What the C library asks for itself, as before main, is not counted. Each n is tried twice: with that growth alone
refused, and with each behind it as well.

The cases are voice and data over HFSC, the manual's CBQ, RED and RIO with filters, the same with conditioners, a configuration with a
fault at its end, a capture that is cut, and `check`. Each run has to end by no signal, and

  - with status 8, and `altqplay: out of memory` or nothing on standard output; then each output does not exist, as before,
    or is a front of what the run with ample memory leaves in it; or
  - as with ample memory: the same status, standard output and outputs.

Standard error has at most three printable lines, and none with status 0.

It prints a line for each case, and one for each run that ended otherwise. The exit status is 0 where there is none.
"""

import os
import shutil
import subprocess
import sys
import tempfile
from collections import Counter, namedtuple

sys.dont_write_bytecode = True
HERE = os.path.dirname(os.path.abspath(__file__))
sys.path.insert(0, os.path.join(os.path.dirname(HERE), "example"))

from capture import records  # noqa: E402
from generate import capture_head  # noqa: E402
from program import OUTPUTS, PROGRAM, content, is_help, prepare, run, store, words_of  # noqa: E402

# A configuration, the words of example/capture.py for the arrivals, how many bytes of these are cut off, and the command.
Case = namedtuple("Case", "name config bursts cut command")

# How a run ended: what run() says, and the outputs that exist then, by their names.
Ending = namedtuple("Ending", "run outputs")

VOICE = """interface if0 bandwidth 8M hfsc
class hfsc if0 root NULL pshare 100
class hfsc if0 voice root [sc 4M 5 1M]
class hfsc if0 data root [sc 0 5 4M] default
filter if0 voice 0 5004 0 0 17
"""
CBQ = """# ten megabit link
interface if0 bandwidth 10M cbq
class cbq if0 root_class NULL priority 0 admission none pbandwidth 100
class cbq if0 ctl_class root_class priority 6 admission none pbandwidth 4 control
class cbq if0 def_class root_class priority 1 borrow pbandwidth 95 default
"""
QUEUES = """interface if0 bandwidth 8M hfsc
class hfsc if0 root NULL pshare 100
class hfsc if0 early root pshare 30 qlimit 200 red
class hfsc if0 marks root pshare 30 ul 2M 0 1M ecn cleardscp
class hfsc if0 inner root pshare 40
class hfsc if0 assured inner pshare 50 rio default
filter if0 early name calls ruleno 3 10.0.0.0 netmask 255.0.0.0 5004 0 0 udp tos 0xb8 tosmask 0xfc
filter if0 marks 0 0 0 0 tcp
filter6 if0 marks fe80::/10 0 0 0 58
"""
MARKS = "conditioner if0 early srtcm 8M 1500 3000 1\nconditioner if0 assured trtcm 16M 3000 8M 1500 4\n"
FAULT = "interface if0 bandwidth 8M hfsc\nclass hfsc if0 root NULL pshare 100\nclass hfsc if0 a root rt 1M 10 2M\n"
MANY = "interface if0 bandwidth 8M hfsc\nclass hfsc if0 root NULL\n" + "".join(f"class hfsc if0 c{i} root pshare 1\n" for i in range(256))
LONG = "interface if0 bandwidth 18446744073709551616 hfsc"
TALK = ["50x1000@0", "1x200@10000000:5004", "300x60@20000000", "20x1500@90000000:5004"]
MIXED = ["140x100@0:5004:0xB8", "60x1500@1000:tcp:2", "90x200@2000:9000:0x28", "3x98@2000:icmp", "2x60@3000:arp"]

CASES = [
    Case("voice and data", VOICE, TALK, 0, "play"),
    Case("voice and data, the capture cut", VOICE, TALK, 1, "play"),
    Case("the manual's CBQ", CBQ, ["1x1500@0:tcp", "1x60@0:arp", "1x98@0:icmp", "200x1500@0:tcp"], 0, "play"),
    Case("RED, marks, limits and RIO", QUEUES, MIXED, 0, "play"),
    Case("the same with conditioners", QUEUES + MARKS, MIXED, 0, "play"),
    Case("the same with conditioners, the capture cut", QUEUES + MARKS, MIXED, 1, "play"),
    Case("a curve that is refused", FAULT, ["1x100@0"], 0, "play"),
    Case("one class too many", MANY, ["1x100@0"], 0, "play"),
    Case("a number that is too great", LONG, ["1x100@0"], 0, "play"),
    Case("check of voice and data", VOICE, ["1x100@0"], 0, "check"),
    Case("check of the manual's CBQ", CBQ, ["1x100@0"], 0, "check"),
]
NAMES = {"config": "altq.conf", "arrivals": "arrivals.pcap", "departures": "d.pcap", "fates": "f.csv", "stats": "s.csv"}


def library(folder):
    """Makes the library of refuse.c, and returns its name."""
    made = os.path.join(folder, "refuse.so")
    subprocess.run(["cc", "-O1", "-shared", "-fPIC", "-o", made, os.path.join(HERE, "refuse.c")], check=True)
    return made


def lay(case, folder):
    """Makes a new folder with the files of a case."""
    shutil.rmtree(folder, ignore_errors=True)
    os.mkdir(folder)
    data = capture_head() + b"".join(records(case.bursts))
    store(os.path.join(folder, NAMES["config"]), case.config.encode())
    store(os.path.join(folder, NAMES["arrivals"]), data[: len(data) - case.cut])


def ending(case, folder, program, environment):
    """Runs a case in a new folder."""
    lay(case, folder)
    words = words_of(NAMES) if case.command == "play" else ["check", "--config", NAMES["config"], "--interface", "if0"]
    ended = run([program, *words], folder, environment=environment)
    places = {name: os.path.join(folder, NAMES[name]) for name in OUTPUTS}
    return Ending(ended, {name: content(place) for name, place in places.items() if os.path.exists(place)})


def wrong(found, ample):
    """What is wrong with how a run ended, or None."""
    if not is_help(found.run):
        return f"{found.run.complaint!r} stands on standard error"
    if found.run.status != 8:
        is_ample = found.run[:2] == ample.run[:2] and found.outputs == ample.outputs
        return None if is_ample else f"it ended otherwise than with ample memory: status {found.run.status}, {found.run.said[-60:]!r}"
    if found.run.said not in (b"", b"altqplay: out of memory\n"):
        return f"with status 8 it said {found.run.said[-60:]!r}"
    for name, data in found.outputs.items():
        if not ample.outputs.get(name, b"").startswith(data):
            return f"what stands in the {name} is no front of what a whole run writes"
    return None


def refusals(case, top, program, made, is_all):
    """Each run of a case with a growth refused, and with each behind it where `is_all`: n and how it ended."""
    told, folder = os.path.join(top, "told"), os.path.join(top, "case")
    number, is_reached = 0, True
    while is_reached:
        if os.path.exists(told):
            os.remove(told)
        environment = {"LD_PRELOAD": made, "REFUSE_AT": str(number), "REFUSE_TOLD": told, **({"REFUSE_ALL": "1"} if is_all else {})}
        found = ending(case, folder, program, environment)
        is_reached = os.path.exists(told)
        yield number, is_reached, found
        number += 1


def tried(case, top, program, made):
    """Tries all growths of a case, prints what came out, and returns whether all was well."""
    ample = ending(case, os.path.join(top, "case"), program, {})
    told, bad = Counter(), 0
    for is_all in (False, True):
        for number, is_reached, found in refusals(case, top, program, made, is_all):
            fault = wrong(found, ample) or (None if is_reached or found.run.status == ample.run.status else "no growth was refused, yet it ended otherwise")
            bad += fault is not None
            told[found.run.status, found.run.said == b"", is_reached] += 1
            if fault:
                print(f"{case.name}, growth {number}{' and each behind it' if is_all else ''}: {fault}")
    refused = sum(count for (_, _, is_reached), count in told.items() if is_reached)
    alike = sum(count for (status, _, is_reached), count in told.items() if is_reached and status == ample.run.status)
    eight = sum(count for (status, _, _), count in told.items() if status == 8)
    silent = sum(count for (status, is_silent, _), count in told.items() if status == 8 and is_silent)
    print(f"{case.name}: status {ample.run.status} with ample memory; {refused} runs with a refusal, {eight} with status 8 ({silent} said nothing), "
          f"{alike} with that status, {bad} wrong", flush=True)
    return bad == 0 and refused > 0


def main(words):
    if len(words) > 1 or (words and words[0].startswith("-")):
        print("usage: memory.py [PROGRAM]", file=sys.stderr)
        return 2
    program = os.path.abspath(words[0]) if words else PROGRAM
    lacking = [what for what, is_there in [(program, os.access(program, os.X_OK)), ("cc", shutil.which("cc"))] if not is_there]
    if lacking:
        print(f"memory.py: nothing was run, since there is no {' and no '.join(lacking)}", file=sys.stderr)
        return 1
    prepare()
    with tempfile.TemporaryDirectory(prefix="altqplay-memory-") as top:
        made = library(top)
        done = [tried(case, top, program, made) for case in CASES]
    return 0 if all(done) else 1


if __name__ == "__main__":
    sys.exit(main(sys.argv[1:]))

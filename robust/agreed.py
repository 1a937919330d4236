#!/usr/bin/env python3
"""Draws the agreed plays, the last part of crates/worked_plays/stdin: random plays, with the answers of a program that is given.

    robust/agreed.py SEED COUNT PROGRAM

Those that stand there were drawn with the seed and the count that the part's first line names, and answered by another program of these
rules, made by other hands; altqplay answers the same. So a later change is held to what it answers today. Each kind of case comes in turn.
"""

import random
import sys

from transcript import answered

PORTS = (5001, 5002, 5003, 5004)
RATES = ("1M", "2M", "3M", "5M", "8M")
LENGTHS = (40, 64, 100, 576, 1000, 1500)
CODE_POINTS = ("0x28", "0x30", "0x38", "0x2a", "0x03", "0")
CHANGES = ("1f8b0800", "ffffffff", "00000000", "02000300", "65000000", "01000400")
WORDS = "quick default 0 1001G red rio pshare 101 qlimit ul 2M".split()


def curve(rng):
    """A concave or a convex curve, or a line."""
    slow, fast = sorted(rng.sample(range(200, 6000), 2))
    return rng.choice([f"{fast}K {rng.choice((1, 5, 20))} {slow}K", f"0 {rng.choice((1, 5, 20))} {slow}K", f"{slow}K 0 {slow}K"])


def queue(rng):
    """The options of a queue."""
    return rng.choice(["", "", " red", " rio", " ecn", " cleardscp"]) + rng.choice(["", "", f" qlimit {rng.choice((1, 3, 20))}"])


def hfsc_options(rng, is_limited):
    """The curves of a leaf."""
    real = f" rt {curve(rng)}" if rng.random() < 0.5 else ""
    limit = f" ul {rng.choice(RATES)} 0 {rng.choice(RATES)}" if is_limited and rng.random() < 0.5 else ""
    return rng.choice([f" ls {curve(rng)}", f" pshare {rng.randrange(5, 60)}"]) + real + limit + queue(rng)


def cbq_options(rng):
    """The options of a class of CBQ below the root."""
    words = f" exactbandwidth {rng.choice(('200K', '500K', *RATES))}" if rng.random() < 0.7 else f" pbandwidth {rng.randrange(5, 90)}"
    words += f" priority {rng.randrange(4)}" if rng.random() < 0.5 else ""
    words += " borrow" if rng.random() < 0.7 else ""
    return words + f" maxburst {rng.randrange(1, 4)}" + queue(rng)


def interface(rng, kind):
    """The lines of an interface with three or four leaves, the last of them the default class, and one or two levels."""
    is_limited = rng.random() < 0.4
    lines = [f"interface if0 bandwidth {rng.choice(('8M', '3M', '10M'))} {kind}", f"class {kind} if0 root NULL pshare 100" if kind == "hfsc" else f"class {kind} if0 root NULL"]
    parents, names = ["root"], "abcd"[:rng.choice((3, 4))]
    if rng.random() < 0.5:
        options = f" pshare {rng.randrange(20, 80)}" + (" ul 4M 0 4M" if is_limited else "") if kind == "hfsc" else cbq_options(rng)
        lines.append(f"class {kind} if0 i root{options}")
        parents.append("i")
    for name in names:
        options = hfsc_options(rng, is_limited) if kind == "hfsc" else cbq_options(rng)
        lines.append(f"class {kind} if0 {name} {'i' if name == 'a' and 'i' in parents else rng.choice(parents)}{options}{' default' if name == names[-1] else ''}")
    filters = [f"filter if0 {name} 0 {port} 0 0 17" for name, port in zip(names[:-1], PORTS)]
    return lines + filters


def arrivals(rng, count):
    """The lines of packets, most of them in bursts."""
    at = 0
    for _ in range(count):
        at += rng.choice((0, 0, rng.randrange(4_000_000), rng.randrange(40_000_000)))
        heads = rng.choice([f" udp 10.0.0.1:1027 > 10.0.0.2:{rng.choice(PORTS)} tos {rng.choice(CODE_POINTS)}"] * 5 + [" arp", "", " tcp [fe80::1]:80 > [fe80::2]:5001"])
        yield f"{at} {rng.choice(LENGTHS)}{heads}" + (f" times {rng.randrange(2, 9)}" if rng.random() < 0.4 else "")


def filtered(rng):
    """An interface of many filters, and frames of all kinds."""
    lines = ["interface if0 bandwidth 8M hfsc", "class hfsc if0 root NULL", *(f"class hfsc if0 {name} root pshare {20 + i}" for i, name in enumerate("abc")), "class hfsc if0 d root pshare 10 default"]
    for _ in range(rng.randrange(2, 7)):
        number = f" ruleno {rng.randrange(3)}" if rng.random() < 0.5 else ""
        if rng.random() < 0.3:
            lines.append(f"filter6 if0 {rng.choice('abc')}{number} {rng.choice(('0', 'fe80::/16', 'fe80::2'))} {rng.choice((0, 80))} 0 0 {rng.choice((0, 6, 17, 58))}")
        else:
            address = rng.choice(("0", "10.0.0.2", "10.0.0.0 netmask 255.255.255.0"))
            lines.append(f"filter if0 {rng.choice('abc')}{number} {address} {rng.choice((0, 80))} 0 {rng.choice((0, 53))} {rng.choice((0, 1, 6, 17))}" + rng.choice(("", " tos 0x28 tosmask 0xfc")))
    return lines


def frames(rng):
    """Packets that the filters may tell apart."""
    for i in range(rng.randrange(6, 12)):
        flow = rng.choice([f"{rng.choice(('udp', 'tcp', '132'))} 10.0.0.1:{rng.choice((53, 1027))} > 10.0.{rng.randrange(2)}.2:{rng.choice((80, 81))}", "icmp 10.0.0.1 > 10.0.0.2",
                           f"tcp [fe80::1]:{rng.choice((53, 1027))} > [fe80::2]:80", "icmp6 fe81::1 > fe80::2", "arp"])
        yield f"{i} {rng.choice(LENGTHS)} {flow} tos {rng.choice(CODE_POINTS)}" + rng.choice(("", "", " vlan 5", f" captured {rng.randrange(30, 60)}"))


def case(rng, number):
    """The lines of a case."""
    kind = ("hfsc", "cbq", "hfsc", "cbq", "frames", "capture", "configuration", "made")[number % 8]
    yield f"== {kind}_{number}"
    if kind == "frames":
        lines, packets = filtered(rng), list(frames(rng))
    else:
        lines, packets = interface(rng, kind if kind in ("hfsc", "cbq") else rng.choice(("hfsc", "cbq"))), list(arrivals(rng, rng.randrange(3, 7)))
    if kind == "configuration":
        at = rng.randrange(len(lines))
        words = lines[at].split()
        words[rng.randrange(len(words))] = rng.choice(WORDS)
        lines[at] = " ".join(words)
    yield from ("    " + line for line in lines)
    if kind == "made":
        yield from (f"$ make --count {rng.randrange(20, 400)} ..", "$ cat stats")
        return
    if kind == "configuration":
        yield "$ check .."
        return
    if kind == "capture":
        yield f"head {rng.choice(('big', 'little'))} {rng.choice(('micro', 'nano'))}"
    yield from packets
    if kind == "capture":
        yield rng.choice([f"cut {rng.randrange(0, 500)}", f"put {rng.choice((0, 4, 20, 32, 36, 108, 112))} {rng.choice(CHANGES)}", "bytes 00000000"])
    yield from ("$ play ..", "$ cat fates", "$ cat stats")


def main():
    seed, count, program = int(sys.argv[1]), int(sys.argv[2]), sys.argv[3]
    rng = random.Random(seed)
    lines = [f"# Agreed plays, from here to the end: drawn by robust/agreed.py {seed} {count} PROGRAM. Two programs of these rules, made by different hands, answer so."]
    for number in range(1, count + 1):
        lines += ["", *case(rng, number)]
    for line in answered(program, lines):
        print(line)


if __name__ == "__main__":
    main()

"""The configurations and captures that bench.py plays: of each kind of scheduler one that is usual, some that are made to be slow, and
some for the other commands.

Nothing here is part of any test. `LINES` are the usual ones, `SLOW` the slow ones: of each name a function that gives the lines of the
configuration, and one that gives the packets, each (stamp in nanoseconds, length, frame). `OTHERS` have a third part, the command that
bench.py runs. The same call gives the same packets.
"""

import random
import socket
import struct

from generate import FIRST, captured_bytes

PORT = 5000
VOICE = PORT + 4
LENGTHS = (64, 128, 256, 512, 576, 1024, 1280, 1514)
UDP = 17


def spread(ports, gap):
    """Datagrams of some lengths to ports from 5000 on, `gap` nanoseconds apart in the mean."""

    def packets(count):
        drawn, stamp, frames = random.Random(7), FIRST, {}
        for number in range(count):
            key = drawn.choice(LENGTHS), PORT + drawn.randrange(ports)
            if key not in frames:
                frames[key] = captured_bytes(number, *key, 0)
            yield stamp, key[0], frames[key]
            stamp += drawn.randrange(2 * gap)

    return packets


def filters(names):
    """A filter for the port of each class."""
    return [f"filter if0 {name} 0 {PORT + place} 0 0 {UDP}" for place, name in enumerate(names)]


def queue(rate):
    return lambda: [f"interface if0 bandwidth {rate}M hfsc"]


def leaves(rate, real):
    """A call and data, with the concave and the convex curve of HFSC's paper."""
    return lambda: [
        f"interface if0 bandwidth {rate}M hfsc",
        "class hfsc if0 root NULL pshare 100",
        f"class hfsc if0 voice root [sc {real}M 5 {real // 4}M]",
        f"class hfsc if0 data root [sc 0 5 {real}M] default",
        f"filter if0 voice 0 {VOICE} 0 0 {UDP}",
    ]


def conditioned():
    """The same, with a meter and marks on the data."""
    return [*leaves(100, 40)(), "conditioner if0 data srtcm 20M 15000 30000 1"]


def links():
    """Two links, each one queue."""
    return [*queue(100)(), "interface if1 bandwidth 60M hfsc"]


def siblings():
    """Two leaves that share the link one to three."""
    lines = ["interface if0 bandwidth 60M hfsc", "class hfsc if0 root NULL pshare 100"]
    return [*lines, "class hfsc if0 a root pshare 25", "class hfsc if0 b root pshare 75 default", *filters("aa")]


def tree(limit):
    """256 classes on four levels, of which 200 are leaves; every second class of the third level has an upper limit where one is given."""

    def lines():
        found = ["interface if0 bandwidth 60M hfsc", "class hfsc if0 root NULL pshare 100"]
        found += [f"class hfsc if0 a{i} root pshare 20" for i in range(5)]
        found += [f"class hfsc if0 b{i} a{i // 10} ls 2M 20 1M{limit * (i % 2 == 0)}" for i in range(50)]
        curves = ["sc 400K 20 200K", "sc 0 20 200K", "ls 600K 30 300K", "grate 100K pshare 1"]
        found += [f"class hfsc if0 c{i} b{i // 4} {curves[i % 4]}{' default' * (i == 199)}" for i in range(200)]
        return found + filters(f"c{i}" for i in range(200))

    return lines


def paced():
    """A class for control and one that borrows."""
    return [
        "interface if0 bandwidth 60M cbq",
        "class cbq if0 top NULL priority 0 admission none pbandwidth 100",
        "class cbq if0 ctl top priority 6 admission none pbandwidth 4 control",
        "class cbq if0 def top priority 1 borrow pbandwidth 95 default",
        f"filter if0 ctl 0 {PORT + 3} 0 0 {UDP}",
    ]


def borrowing():
    """64 classes on three levels and four priorities, which borrow."""
    lines = ["interface if0 bandwidth 60M cbq", "class cbq if0 root NULL pbandwidth 100"]
    lines += [f"class cbq if0 a{i} root priority {i % 4} pbandwidth 10 borrow" for i in range(9)]
    for i in range(54):
        rate, default = 300 + 40 * (i % 11), " default" * (i == 53)
        lines.append(f"class cbq if0 b{i} a{i // 6} priority {i % 4} exactbandwidth {rate}K borrow maxburst 4{default}")
    return lines + filters(f"b{i}" for i in range(54))


def dropping(rule):
    """Eight leaves whose queues drop early."""

    def lines():
        found = ["interface if0 bandwidth 60M hfsc", "class hfsc if0 root NULL pshare 100"]
        found += [f"class hfsc if0 q{i} root pshare 12 qlimit 200 {rule}{' default' * (i == 7)}" for i in range(8)]
        return found + filters(f"q{i}" for i in range(8))

    return lines


# Of each name the lines of its configuration, and its packets.
LINES = {
    "queue": (queue(8), spread(8, 126_000)),
    "queue-fast": (queue(100), spread(8, 126_000)),
    "leaves": (leaves(8, 4), spread(8, 126_000)),
    "leaves-fast": (leaves(100, 40), spread(8, 126_000)),
    "tree": (tree(""), spread(220, 100_000)),
    "tree-limits": (tree(" ul 4M 10 2M"), spread(220, 100_000)),
    "cbq": (paced, spread(8, 100_000)),
    "cbq-tree": (borrowing, spread(54, 100_000)),
    "red": (dropping("red"), spread(8, 100_000)),
    "rio": (dropping("rio"), spread(8, 100_000)),
    "ecn": (dropping("ecn"), spread(8, 100_000)),
}


def over_ipv6(drawn):
    """A datagram from an address that ends in two bytes of which no filter of `slow_filters` has the last."""
    source = b"\xfe\x80" + bytes(10) + struct.pack(">HH", 1, drawn.randrange(0x1000, 2**16))
    head = b"\x60\0\0\0" + struct.pack(">HBB", 8, UDP, 64) + source + socket.inet_pton(socket.AF_INET6, "fe80::1")
    return bytes(12) + b"\x86\xdd" + head + struct.pack(">HHHH", drawn.randrange(2**16), drawn.randrange(2**16), 8, 0)


def over_ipv4(drawn):
    """A datagram between addresses each of which a filter of `slow_filters` has, but none has both."""
    addresses = struct.pack(">II", 0x0A010007 | drawn.randrange(256) << 8, 0x0A000000 | drawn.randrange(256))
    head = struct.pack(">BBHHHBBH", 0x45, 0, 86, 0, 0, 64, UDP, 0) + addresses
    return bytes(12) + b"\x08\x00" + head + struct.pack(">HHHH", drawn.randrange(2**16), drawn.randrange(2**16), 8, 0)


FILTERS = {
    over_ipv6: [f"filter6 if0 a fe80::1/128 0 fe80::1:{i:x} 0 {UDP}" for i in range(1024)],
    over_ipv4: [f"filter if0 a 10.0.0.{i % 256} 0 10.1.{i // 256}.1 0 {UDP}" for i in range(1024)],
}


def slow_filters(frame):
    """1,024 filters without ports, which each packet misses at the last bits of an address."""

    def lines():
        found = ["interface if0 bandwidth 100M hfsc", "class hfsc if0 root NULL pshare 100"]
        return found + ["class hfsc if0 a root pshare 50", "class hfsc if0 b root pshare 50 default"] + FILTERS[frame]

    def packets(count):
        drawn = random.Random(1)
        return ((FIRST + 80_000 * i, 1000, frame(drawn)) for i in range(count))

    return lines, packets


def waiting(classes, rounds):
    """Some packets of each class at once, and then one of the default class every 12 microseconds."""

    def packets(count):
        frames = [captured_bytes(i, 1500, PORT + i, 0) for i in range(300)]
        first = min(count, rounds * classes)
        for i in range(count):
            late = max(0, i + 1 - first)
            yield FIRST + min(i, first) + 12_000 * late, 1500, frames[299 if late else i % classes]

    return packets


def many(each, one):
    """254 classes of which each has packets, and one for the others."""

    def lines():
        found = ["interface if0 bandwidth 1000M hfsc", "class hfsc if0 root NULL pshare 100"]
        found += [f"class hfsc if0 c{i} root {each}" for i in range(254)] + [f"class hfsc if0 b root {one} default qlimit 10000"]
        return found + filters(f"c{i}" for i in range(254))

    return lines, waiting(254, 10)


def chains():
    """36 chains of seven levels, in which each class has an upper limit; a packet wakes one of them and the next finds it asleep."""

    def lines():
        found = ["interface if0 bandwidth 1000M hfsc", "class hfsc if0 root NULL pshare 100 ul 999M 10 998M"]
        for chain in range(36):
            for level in range(7):
                parent = f"x{chain}-{level - 1}" if level else "root"
                curve = ("sc" if level == 6 else "ls") + f" 40M 20 20M ul 900M 10 800M{' default' * ((chain, level) == (0, 6))}"
                found.append(f"class hfsc if0 x{chain}-{level} {parent} {curve}")
        return found + filters(f"x{i}-6" for i in range(36))

    def packets(count):
        drawn, frames = random.Random(1), [captured_bytes(i, 1500, PORT + i, 0) for i in range(36)]
        return ((FIRST + 20_000 * i, 1500, drawn.choice(frames)) for i in range(count))

    return lines, packets


def held_back(inner):
    """CBQ: classes over their rate, behind a chain of `inner` lenders that are over theirs, and a free one beside."""

    def lines():
        found, parent, borrow = ["interface if0 bandwidth 1000M cbq", "class cbq if0 root NULL pbandwidth 100"], "root", ""
        for level in range(inner):
            found.append(f"class cbq if0 i{level} {parent} priority 7 exactbandwidth 1000 maxburst 1{borrow}")
            parent, borrow = f"i{level}", " borrow"
        names = [f"l{i}" for i in range(254 - inner)]
        found += [f"class cbq if0 {name} {parent} priority 7 exactbandwidth 1000 maxburst 1{borrow}" for name in names]
        return [*found, "class cbq if0 free root priority 0 pbandwidth 50 borrow default qlimit 10000", *filters(names)]

    return lines, waiting(254 - inner, 6)


def idle_rio():
    """RIO on a fast link that falls idle after every third packet."""
    lines = ["interface if0 bandwidth 1000000M hfsc", "class hfsc if0 root NULL pshare 100", "class hfsc if0 a root pshare 100 rio default"]
    frame = captured_bytes(0, 1500, PORT, 0)
    return lambda: lines, lambda count: ((FIRST + 40_000 * (i // 3) + i % 3, 1500, frame) for i in range(count))


def all_at_once():
    """`cbq-deep` with as many filters over IPv6 beside as an interface may have, which every second packet misses."""
    lines, packets = held_back(6)
    frames = [over_ipv6(random.Random(i)) for i in range(300)]

    def configured():
        found = lines()
        room = 1024 - sum(line.startswith("filter") for line in found)
        return found + [line.replace(" a ", " free ") for line in FILTERS[over_ipv6][:room]]

    def mixed(count):
        return ((stamp, length, frames[i % 300] if i % 2 else frame) for i, (stamp, length, frame) in enumerate(packets(count)))

    return configured, mixed


SLOW = {
    "filters-ipv6": slow_filters(over_ipv6),
    "filters-ipv4": slow_filters(over_ipv4),
    "early-heads": many("rt 20K 0 20K ls 1K 0 1K", "rt 0 1000000 900M ls 900M 0 900M"),
    "closed-limits": many("ls 900M 0 900M ul 20K 0 20K", "ls 1K 0 1K"),
    "deep-limits": chains(),
    "cbq-flat": held_back(0),
    "cbq-deep": held_back(6),
    "idle-rio": idle_rio(),
    "all-at-once": all_at_once(),
}

OTHERS = {
    "verify-leaves": (*LINES["leaves-fast"], "verify"),
    "verify-tree": (*LINES["tree"], "verify"),
    "conditioner": (conditioned, spread(8, 126_000), "play"),
    "condition": (conditioned, spread(8, 126_000), "condition"),
    "pcapng": (*LINES["queue-fast"], "pcapng"),
    "chain": (links, spread(8, 126_000), "chain"),
    "shares": (siblings, spread(8, 100_000), "shares"),
}

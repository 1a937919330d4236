"""Draws configurations and captures for the model of the rules: `draw` gives the text of one and the bytes of the other.

They are drawn to meet the rules' edges: ties, moments at which several things happen, curves whose slopes are 0, limits at every
level, classes that return, links so fast that an end is a start, and queues that grow until RED and RIO drop.
"""

import os
from argparse import Namespace

from conftest import classic, udp

from altqplay.workbench.captures import records
from altqplay.workbench.meter import marked_services
from altqplay.workbench.play import play
from altqplay.workbench.rules.frames import type_of_service
from altqplay.workbench.why_inputs import question
from altqplay.workbench.why_replay import Replay

RATES = (1000, 64_000, 1_000_000, 3_000_000, 7_777_777, 8_000_000, 10**9, 10**12)
SERVICES = (0, 1, 2, 3, 0x28, 0x30, 0x38, 0x2A, 0x48, 0x58, 0x88, 0xB8, 0xA0, 0x2C, 0x3B)
DEEPEST = 8
ORIGINS = (0, 0, 1, 1_764_340_000 * 10**9)


def slope(chance, rate):
    """A slope beside a link's rate: a part that makes ties, one that makes fractions, or one above it."""
    return max(1, chance.choice([rate, rate // 2, rate // 4, 3 * rate // 4, chance.randrange(1, rate + 1), min(10**12, 2 * rate)]))


def curve(chance, rate, least=0):
    """A curve that falls, rises from 0, or is a line; the slopes are no less than `least`, but for the first of one that rises."""
    one, other = (max(least, slope(chance, rate)) for _ in range(2))
    bend = chance.choice([0, 1, 2, chance.randrange(1, 50)])
    kinds = [f"{max(one, other)} {bend} {min(one, other)}", f"{one} 0 {one}"]
    if least <= 1:
        kinds.append(f"0 {bend} {one}")
    if least == 0:
        kinds += [f"{one} {bend} 0", chance.choice(["0 0 0", f"{one} {bend} 0", f"{one} 0 0"])]
    return chance.choice(kinds)


def queue_words(chance):
    """How a queue drops."""
    words = chance.choice(["", "", "", " red", " ecn", " rio"])
    return words + (f" qlimit {chance.choice([1, 2, 5, 20, 60, 300])}" if words or chance.random() < 0.5 else "")


def hfsc_words(chance, rate, is_leaf, has_limits):
    """The options of a class of HFSC."""
    words = f" ls {curve(chance, rate, 1)}" if chance.random() < 0.7 else f" pshare {chance.randrange(1, 101)}"
    if not is_leaf and chance.random() < 0.2:
        words = f" sc {curve(chance, rate, 1)}"
    if is_leaf and chance.random() < 0.6:
        words += f" rt {curve(chance, rate)}"
    if has_limits and rate > 1000 and chance.random() < 0.5:
        words += f" ul {curve(chance, rate, 1000)}"
    return words + queue_words(chance)


def meter_words(chance, rate):
    """A meter of about the link's rate."""
    slow, fast = sorted(min(10**12, max(1000, slope(chance, rate))) for _ in range(2))
    one, other = (chance.choice([1, 60, 1000, 1500, 9000]) for _ in range(2))
    meter = chance.choice([f"srtcm {slow} {one} {chance.choice([0, other])}", f"trtcm {fast} {other} {slow} {one}"])
    return f"{meter} {chance.randrange(1, 5)}"


def cbq_words(chance, rate):
    """The options of a class of CBQ."""
    own = max(1000, chance.choice([rate, rate // 2, rate // 3, rate // 8, chance.randrange(1000, max(rate, 1000) + 1)]))
    words = f" exactbandwidth {own} maxburst {chance.choice([1, 1, 2, 16])} packetsize {chance.choice([1, 100, 997, 1500])}"
    words += f" priority {chance.randrange(3)}" if chance.random() < 0.4 else ""
    return words + (" borrow" if chance.random() < 0.5 else "") + queue_words(chance)


def tree(chance):
    """The parent of each class, the first being the root, at most eight levels deep."""
    parents, levels = [None], [1]
    for place in range(1, chance.choice([1, 2, 3, 4, 6, 12])):
        parent = chance.choice([0, place - 1, chance.randrange(place)])
        parent = parent if levels[parent] < DEEPEST else 0
        parents.append(parent)
        levels.append(levels[parent] + 1)
    return parents


def crowded(chance):
    """The statements of an interface with one to three classes that drop by RED, RED that marks or RIO, and packets that keep them full."""
    rate, kind = chance.choice([3_000_000, 8_000_000]), chance.choice(["hfsc", "cbq"])
    takers = list(range(1, chance.choice([2, 2, 3, 4])))
    lines = [f"interface if0 bandwidth {rate} {kind}", f"class {kind} if0 c0 NULL"]
    for place in takers:
        part = rate // len(takers)
        share = f"ls {part} 0 {part}" if kind == "hfsc" else f"exactbandwidth {part} borrow"
        queue = f"{chance.choice(['red', 'ecn', 'rio'])} qlimit {chance.choice([60, 200, 300])}"
        lines += [f"class {kind} if0 c{place} c0 {share} {queue}" + " default" * (place == 1), f"filter if0 c{place} 0 {5000 + place} 0 0 17"]
    length, at, found = chance.choice([100, 1000]), chance.choice(ORIGINS), []
    one, first = -(-8 * 10**9 * length // rate), chance.choice([30, 80, 150, 250])
    for number in range(first + chance.choice([50, 200, 400])):
        at += 0 if number < first else chance.choice([0, one, one, one + 1, chance.randrange(2 * one), chance.choice([0, 0, 0, 40 * one])])
        found.append((at, frame(chance, 5000 + chance.choice(takers), length), length))
    return lines, found


def statements(chance):
    """The statements of an interface, and the places of the classes that take packets: UDP by port 5000 and its place."""
    rate, kind = chance.choice(RATES), chance.choice(["hfsc", "cbq"])
    lines = [f"interface if0 bandwidth {rate} {kind}"]
    if chance.random() < 0.03:
        return lines, rate, [0]
    parents, has_limits = tree(chance), chance.random() < 0.4
    leaves = [place for place in range(len(parents)) if place not in parents]
    takers = leaves if kind == "hfsc" else list(range(len(parents)))
    default = chance.choice(takers)
    for place, parent in enumerate(parents):
        words = hfsc_words(chance, rate, place in leaves, has_limits) if kind == "hfsc" else cbq_words(chance, rate)
        if place == 0 and chance.random() < 0.5:
            words = ""
        above = "NULL" if parent is None else f"c{parent}"
        lines.append(f"class {kind} if0 c{place} {above}{words}" + " default" * (place == default))
    lines += [f"filter if0 c{place} 0 {5000 + place} 0 0 17" for place in takers]
    if chance.random() < 0.3:
        lines += [f"conditioner if0 c{place} {meter_words(chance, rate)}" for place in takers if chance.random() < 0.5]
    return lines, rate, takers


def frame(chance, port, length):
    """The captured bytes of a datagram of UDP to a port, or of a frame that has none."""
    if length < 42 or chance.random() < 0.03:
        return bytes(min(length, 60))
    tags = b"".join(chance.choice([b"\x81\x00\x00\x01", b"\x88\xa8\x00\x02"]) for _ in range(chance.choice([0, 0, 0, 0, 1, 2, 3])))
    service = chance.choice(SERVICES)
    head = udp(port, min(length, 65_535) - 14)
    head = head[:1] + bytes([service]) + head[2:]
    if chance.random() < 0.05:
        return (bytes(12) + tags + b"\x86\xdd" + bytes([0x60 | service >> 4, (service & 15) << 4]) + bytes(4) + b"\x11\x40" + bytes(40))[:length]
    return (bytes(12) + tags + b"\x08\x00" + head)[:length]


def packets(chance, rate, takers):
    """Packets (at, captured bytes, length): bursts and pauses of about a packet's time, and some of exactly that."""
    at, found = chance.choice(ORIGINS), []
    count = chance.choice([0, 1, 5, 20, 60, 60, 150, 400])
    lengths = chance.choice([[1000], [60, 1000, 1500], [1, 2, 3], [42, 100, 1514, chance.randrange(42, 9000)], [64, 262_144]])
    ports = [5000 + place for place in takers] + [9000]
    pauses = chance.choice([[0], [0, 0, 0, 1], [0, 1, None], [None], [None, None, 0, 10 * 1000]])
    while len(found) < count:
        port, length = chance.choice(ports), chance.choice(lengths)
        for _ in range(chance.choice([1, 1, 1, 2, 5, 30])):
            found.append((at, frame(chance, port, length), length))
        pause = chance.choice(pauses)
        one = -(-8 * 10**9 * length // rate)
        if pause is None:
            pause = chance.choice([one, one - 1, one + 1, 2 * one, chance.randrange(3 * one + 1), chance.randrange(60 * one + 1)])
        at += pause
        if chance.random() < 0.02:
            at = max(0, at - 1000)
    return found


def draw(chance):
    """The text of a configuration and the bytes of a capture."""
    if chance.random() < 0.2:
        lines, found = crowded(chance)
    else:
        lines, rate, takers = statements(chance)
        found = packets(chance, rate, takers)
    return "\n".join(lines) + "\n", classic(1, found)


def replayed(chance, seed, folder, program=None):
    """Draws a case, plays it with a seed in a folder, and has the model of the rules replay it; answers the replay."""
    config, arrivals = (os.path.join(folder, name) for name in ("c.conf", "a.pcap"))
    text, capture = draw(chance)
    with open(config, "w", encoding="ascii") as file:
        file.write(text)
    with open(arrivals, "wb") as file:
        file.write(capture)
    fates = play(config, "if0", arrivals, folder, seed, program).fates
    replay = Replay(question(Namespace(fates=fates, config=config, interface=None, program=program, arrivals=arrivals, seed=seed, foreign=False)))
    replay.decisions(lambda _decision: None)
    return replay


def marked(play):
    """The numbers of the packets that the queues of a play marked."""
    return {number for queue in play.queues for number in getattr(queue, "marked", [])}


def services(name):
    """The type of service of each record of a capture, None where it has none."""
    return [type_of_service(record.data) for record in records(name)]


def difference(replay, folder, program=None):
    """What differs between a play in a folder and the rules, in words, or None: a fate, or the mark of a packet that leaves."""
    found = replay.otherwise
    if found is not None:
        return f"row {found.row}: {found.fate}; by the rules {found.ours}"
    came, left = (services(os.path.join(folder, name)) for name in ("a.pcap", "departures.pcap"))
    if replay.question.interface.meters:
        came = marked_services(replay.question.interface, os.path.join(folder, "a.pcap"), came, program)
    marks, sent = marked(replay.play), [fate.number for _row, fate in replay.question.rows if fate.start is not None]
    for number, service in zip(sent, left):
        own = came[number - 1]
        if service != (own | 3 if number in marks and own is not None else own):
            return f"packet {number} came with type of service {own} and leaves with {service}; by the rules " + ("marked" if number in marks else "as it came")
    return None if len(left) == len(sent) else f"{len(sent)} sendings, {len(left)} departures"

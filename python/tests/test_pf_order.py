"""The classifier of pf's rules against a slow plain reading, and against twenty rules whose classes were written by hand."""

import pytest
from conftest import classic
from hypothesis import given, settings, strategies
from plain_pf import Machine, Packet, Rule, frame, text_of

from altqplay.workbench import importing, pf_order
from altqplay.workbench.altq_text import Notes
from altqplay.workbench.captures import Frames
from test_import import options_of

HEAD = "altq on em0 cbq bandwidth 8Mb queue { d a b c }\nqueue d cbq(default)\nqueue a\nqueue b\nqueue c\n"
INSIDE, OUTSIDE = 0x0A000001, 0xC0000201


def classes(text, packets, folder, head=HEAD):
    """The class of each packet, or "blocked", by the classifier."""
    options = options_of("text", bandwidth=None, addresses={})
    notes = Notes("text")
    rules, (interface,) = importing.pf_parts(head + text, options, notes)
    name = str(folder / "a.pcap")
    with open(name, "wb") as file:
        file.write(classic(1, [(1000 * k, found, len(found)) for k, found in enumerate(packets)]))
    placed = pf_order.placed(interface, rules, Frames(name))
    pf_order.notes_of_order(rules, interface, [interface], notes)
    return ["blocked" if is_blocked else placed.classes[number] for number, is_blocked in zip(placed.of_class, placed.is_blocked)], placed, notes


PORTS = [22, 80, 1000, 5060]
PORT = strategies.one_of(strategies.none(), strategies.tuples(strategies.sampled_from(["=", "!=", ">", "<"]), strategies.sampled_from(PORTS), strategies.just(0)),
                         strategies.sampled_from([(":", 80, 5059), ("><", 22, 5060), ("<>", 80, 1000)]))
NET = strategies.one_of(strategies.none(), strategies.tuples(strategies.booleans(), strategies.sampled_from([INSIDE, INSIDE + 1, OUTSIDE]),
                                                             strategies.sampled_from([8, 32])))
RULE = strategies.builds(
    Rule, strategies.sampled_from(["pass", "pass", "pass", "match", "block"]), strategies.sampled_from(["in", "out"]), strategies.booleans(),
    strategies.sampled_from(["", "em0", "em0", "em1"]), strategies.sampled_from(["", "tcp", "udp"]), NET, strategies.none(), NET, PORT,
    strategies.sampled_from(["", "", "0x10", "184"]), strategies.sampled_from(["", "", "any", "S/SA", "A/A"]), strategies.sampled_from([None, True, False]),
    strategies.sampled_from(["", "", "x", "y"]), strategies.sampled_from([None, None, None, (False, "x"), (True, "x"), (False, "y")]),
    strategies.sampled_from([(), ("a",), ("b",), ("a", "b"), ("c", "a")])
).map(lambda rule: rule._replace(dport=rule.dport if rule.proto else None, flags=rule.flags if rule.proto == "tcp" else "",
                                 quick=rule.quick and rule.action != "match", state=None if rule.action != "pass" else rule.state))
# A connection: who opened it, its ends, type of service, and what each side sends behind the beginning: the sender is the opener, and its payload.
CONNECTION = strategies.tuples(strategies.booleans(), strategies.sampled_from(["tcp", "udp"]), strategies.integers(0, 1), strategies.sampled_from(PORTS),
                               strategies.sampled_from([0, 16, 184]), strategies.lists(strategies.tuples(strategies.booleans(), strategies.sampled_from([0, 9])),
                                                                                       max_size=4))


def exchanged(number, connection):
    """The packets of a connection that go out, and the first one where it came in.

    Of UDP the opener is inside. Other packets that come in may make states that a capture of one direction does not show, and the
    classifier takes it that they make none.
    """
    by_inside, proto, host, port, tos, rest = connection
    by_inside = by_inside or proto == "udp"
    ends = [(INSIDE + host, 40000 + number), (OUTSIDE, port)] if by_inside else [(OUTSIDE, 40000 + number), (INSIDE + host, port)]
    steps = [(True, "S", 0), (False, "SA", 0), (True, "A", 0)] if proto == "tcp" else [(True, "", 5)]
    steps += [(of_opener, "A" if proto == "tcp" else "", payload) for of_opener, payload in rest]
    for of_opener, flags, payload in [step for step in steps if step[0] == by_inside or step[1] == "S"]:
        (src, sport), (dst, dport) = ends if of_opener else ends[::-1]
        yield Packet("out" if of_opener == by_inside else "in", proto, src, sport, dst, dport, tos, flags, payload)


def by_udp_of_outside(rules):
    """Whether a rule may pass what no packet of the capture shows to be an answer: UDP that another opened."""
    return any(rule.direction == "in" and rule.on in ("", "em0") and rule.proto != "tcp" and rule.action == "pass" for rule in rules)


@settings(max_examples=300, deadline=None)
@given(strategies.lists(RULE, max_size=7), strategies.lists(CONNECTION, min_size=1, max_size=4))
def test_classes_are_those_of_a_plain_reading(tmp_path_factory, rules, connections):
    """The packets go through the plain machine; the capture has those alone that come to em0's queue."""
    if by_udp_of_outside(rules):
        connections = [connection for connection in connections if connection[1] == "tcp"]
    machine, captured, expected = Machine(rules, "d"), [], []
    for number, connection in enumerate(connections):
        for packet in exchanged(number, connection):
            became = machine.passed(packet)
            if became is None or (became == "blocked" and packet.way == "in"):
                break
            if packet.way == "out":
                captured.append(frame(packet))
                expected.append(became)
                if became == "blocked":
                    break
    text = "".join(map(text_of, rules))
    found, _placed, _notes = classes(text, captured, tmp_path_factory.mktemp("capture"))
    assert found == expected, text


def tcp(dport, flags="A", payload=0, sport=40000, src=INSIDE, dst=OUTSIDE, tos=0):
    return frame(Packet("out", "tcp", src, sport, dst, dport, tos, flags, payload))


def udp(dport, sport=40000, src=INSIDE, dst=OUTSIDE, tos=0):
    return frame(Packet("out", "udp", src, sport, dst, dport, tos, "", 100))


def ip6(port, protocol=17):
    return bytes(12) + b"\x86\xdd\x60" + bytes(5) + bytes([protocol, 64]) + bytes.fromhex("20010db8") + bytes(11) + b"\1" + bytes.fromhex("20010db8") + bytes(
        11) + b"\2" + (40000).to_bytes(2, "big") + port.to_bytes(2, "big") + bytes(16)


def icmp(kind, ident=0):
    head = frame(Packet("out", "udp", INSIDE, 0, OUTSIDE, 0, 0, "", 8))[:23]
    return head + b"\1" + bytes(2) + bytes.fromhex("0a000001c0000201") + bytes([kind, 0, 0, 0, 0, ident]) + bytes(2)


# Rules, packets, and their classes by pf.conf(5), written by hand before the classifier was run on them. d is the default.
BY_HAND = [
    ("pass out on em0 inet proto udp from any to any port 10000:20000 queue a", [udp(9999), udp(10000), udp(15000), udp(20000), udp(20001), tcp(15000, "S")],
     "d a a a d d"),
    ("pass out on em0 proto tcp from any to any port != 22 flags any queue a", [tcp(22), tcp(21), tcp(23), udp(80)], "d a a d"),
    ("pass out on em0 proto tcp from any port > 1023 to any flags any queue a", [tcp(80, sport=1023), tcp(80, sport=1024)], "d a"),
    ("pass out on em0 proto udp from any to any port { 53, 5000 >< 5100, >= 60000 } queue a", [udp(53), udp(5000), udp(5001), udp(5099), udp(5100), udp(60000)],
     "a d a a d a"),
    ("pass out on em0 inet from any to ! 192.0.2.0/24 queue a", [udp(1), udp(1, dst=0x08080808)], "d a"),
    ("pass out on em0 inet from 10.0.0.2 - 10.0.0.9 to any queue a", [udp(1), udp(1, src=INSIDE + 1), udp(1, src=INSIDE + 8), udp(1, src=INSIDE + 9)], "d a a d"),
    ("table <t> const { 10.0.0.0/8, !10.0.0.0/24, 10.0.0.1 }\npass out on em0 from <t> to any queue a",
     [udp(1), udp(1, src=INSIDE + 1), udp(1, src=0x0A010000), udp(1, src=0x0B000000)], "a d a d"),
    ("pass out on em0 proto udp all tos ef queue a\npass out on em0 proto udp all tos 0x20 queue b", [udp(1, tos=0xB8), udp(2, tos=0xB9), udp(3, tos=0x20), udp(4, tos=0x21)],
     "a a b d"),
    ("pass out on em0 proto tcp all queue (a, b)", [tcp(80, "S"), tcp(80, "A"), tcp(80, "A", 100), tcp(80, "FA"), tcp(80, "A", 100, tos=16)], "a b a b b"),
    ("pass out on em0 proto tcp all no state flags S/SA queue a", [tcp(80, "S"), tcp(80, "SA"), tcp(80, "A")], "a d d"),
    ("pass out on em0 inet proto icmp all icmp-type echoreq queue a", [icmp(8, 1), icmp(0, 2), icmp(3)], "a d d"),
    ("pass in on em1 proto udp from any to any port 5060 tag CALL\npass out on em0 all\npass out on em0 tagged CALL queue a",
     [udp(5060), udp(5061)], "a d"),
    ("pass out on em0 all queue a\npass out quick on em0 proto udp to any port 53 queue b\npass out on em0 proto udp all queue c", [udp(53), udp(54), tcp(1, "S")],
     "b c a"),
    ("match out on em0 proto udp all queue a\npass out on em0 all\nmatch out on em0 proto udp to port 53 queue b", [udp(53), udp(54), tcp(1, "S")], "b a d"),
    ("pass in on em1 proto udp all queue a\npass out on em0 all\npass out on em0 proto udp to port 53 queue b", [udp(53), udp(54)], "b a"),
    ("pass in on em0 proto tcp to port 80 queue a\npass out on em0 all queue b", [tcp(40000, "SA", sport=80), tcp(40000, "A", 5, sport=80), tcp(80, "S")], "a a b"),
    ("block out on em0 all\npass in on em0 proto udp to port 5060 keep state queue a", [udp(40000, sport=5060), udp(40000, sport=5061)], "a blocked"),
    ("block out on em0 all\npass out on em0 proto udp all queue a", [udp(1), tcp(1, "S")], "a blocked"),
    ("pass out on egress proto udp all queue a", [udp(1), tcp(1, "S")], "a d"),
    ("pass out on em0 proto tcp to any port 22 queue a", [tcp(22, "A", 100), tcp(22, "A")], "a a"),
    ("pass out on em0 proto udp to any port 10000:20000 queue a\npass out on em0 inet6 proto icmp6 all queue b", [ip6(10000), ip6(9999), ip6(0, 58)], "a d b"),
    ("pass out on em0 proto tcp from any to any port rsync queue a", [tcp(873, "S"), tcp(874, "S")], "a d"),
    ("pass out on em0 proto udp all queue a no state\npass out on em0 proto udp all tos lowdelay queue b no state", [udp(1), udp(1, tos=16), udp(1)], "a b a"),
    ("pass out on em0 proto udp all queue a\npass out on em0 proto udp all tos lowdelay queue b", [udp(1), udp(1, tos=16), udp(2, tos=16), udp(2)], "a a b b"),
]


@pytest.mark.parametrize("text, packets, expected", BY_HAND)
def test_rules_by_hand(tmp_path, text, packets, expected):
    found, _placed, notes = classes(text + "\n", packets, tmp_path)
    assert " ".join(found) == expected and not [note for note in notes.all() if note.has_effect]


@pytest.mark.parametrize("text, word", [
    ("pass out on em0 proto udp from any to any user bob queue a", "user"), ("pass out on wan proto udp all queue a", "wan"),
    ("pass out on em0 from (self) to any queue a", "("), ("pass out on em0 proto udp to www.example.org queue a", "www.example.org"),
    ("pass out on em0 proto tcp to any port nosuchservice queue a", "nosuchservice"), ("pass out on em0 all tos quick9 queue a", "quick9"),
    ("table <t> persist file \"/etc/t\"\npass out on em0 from <t> to any queue a", "<t>"), ("pass out on em0 all probability 20% queue a", "probability"),
    ("pass out on em0 all queue a\npass out quick on em0 proto udp from any to em7:network", "em7:network"), ("pass out on em0 all queue nowhere", "nowhere")])
def test_what_is_not_understood_is_said(tmp_path, text, word):
    found, _placed, notes = classes(text + "\n", [udp(1)], tmp_path)
    assert [note.text for note in notes.all() if note.has_effect] == [word]
    assert found == ["a" if "quick on" in text else "d"]


def test_a_block_rule_of_addresses_that_are_not_in_the_file(tmp_path):
    """What it would stop has its class by the others; that is said, and nothing of the classes is missing by it."""
    found, _placed, notes = classes("table <bad> persist\nblock quick from <bad>\npass out on em0 all queue a\n", [udp(1)], tmp_path)
    assert found == ["a"] and [(note.text, note.has_effect) for note in notes.all()] == [("<bad>", False)]


def test_older_connections_and_frames_without_ip(tmp_path):
    found, placed, _notes = classes("pass out on em0 all queue a\n", [tcp(22), bytes(12) + b"\x08\x06" + bytes(28), tcp(22), tcp(23, "S"), tcp(23)], tmp_path)
    assert found == ["a", "d", "a", "a", "a"] and placed.older == 1

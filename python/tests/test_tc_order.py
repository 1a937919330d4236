"""The classifier of tc's filters: by hand from tc-u32(8), tc-flower(8), tc-fw(8), and against a slow plain reading."""

import pytest
from conftest import classic
from hypothesis import given, settings, strategies
from plain_pf import Packet, frame

from altqplay.workbench import importing
from altqplay.workbench.altq_text import Notes
from altqplay.workbench.captures import Frames
from altqplay.workbench.headers import Reading
from altqplay.workbench.marking import Marking
from altqplay.workbench.packet_words import marks_of
from altqplay.workbench.tc_order import Order
from test_import import options_of

HEAD = "tc qdisc add dev eth0 root handle 1: hfsc default 1\n" + "".join(
    f"tc class add dev eth0 parent {parent} classid 1:{n} hfsc sc rate 1mbit\n" for parent, n in (("1:", 1), ("1:", 2), ("1:", 3), ("1:", 5), ("1:5", 6), ("1:5", 7)))
ADD = "tc filter add dev eth0 parent 1: protocol ip prio 1 "


def placed(text, packets, folder, marks=()):
    """The class of each packet, the minor of its handle, and the texts of the notes with an effect."""
    notes = Notes("text")
    (device,), (interface,) = importing.tc_parts(HEAD + text, options_of("text", bandwidth=None), notes)
    name = str(folder / "a.pcap")
    with open(name, "wb") as file:
        file.write(classic(1, [(1000 * k, found, len(found)) for k, found in enumerate(packets)]))
    frames = Frames(name)
    found = Order(device, interface, Marking(frames, Reading(frames)), marks_of(marks), notes).placed()
    return [int(found.classes[number].split(":")[1]) for number in found.of_class], [note.text for note in notes.all() if note.has_effect]


def tcp(dport=80, flags="A", payload=0, sport=40000, src=0x0A000001, tos=0):
    return frame(Packet("out", "tcp", src, sport, 0xC0000201, dport, tos, flags, payload))


def udp(dport, sport=40000, src=0x0A000001, tos=0):
    return frame(Packet("out", "udp", src, sport, 0xC0000201, dport, tos, "", 100))


ARP = bytes(12) + b"\x08\x06" + bytes(28)
# The filter of wondershaper for acknowledgements without data: a header of five words, at most 63 bytes, and ACK alone.
BARE = "u32 match ip protocol 6 0xff match u8 0x05 0x0f at 0 match u16 0x0000 0xffc0 at 2 match u8 0x10 0xff at 33 flowid 1:2\n"
BY_HAND = [
    (ADD + "flower ip_proto udp dst_port 10000-20000 classid 1:2\n", [udp(9999), udp(10000), udp(20000), udp(20001), tcp(15000)], [1, 2, 2, 1, 1]),
    (ADD + BARE, [tcp(), tcp(payload=24), tcp(payload=23), tcp(flags="SA"), udp(80)], [2, 1, 2, 1, 1]),
    (ADD + "u32 match ip dport 8192 0xe000 flowid 1:2\n", [udp(8191), udp(8192), udp(16383), udp(16384), tcp(9000)], [1, 2, 2, 1, 2]),
    (ADD + "flower ip_proto tcp tcp_flags 0x02/0x12 classid 1:3\n", [tcp(flags="S"), tcp(flags="SA"), tcp()], [3, 1, 1]),
    (ADD + "u32 match ip src 10.0.0.2/32 flowid 1:2\n" + ADD.replace("prio 1", "prio 2") + "u32 match ip dst 192.0.2.0/24 flowid 1:3\n",
     [udp(1), udp(1, src=0x0A000002), ARP], [3, 2, 1]),
    (ADD + "u32 match ip protocol 17 0xff flowid 1:5\ntc filter add dev eth0 parent 1:5 protocol ip prio 1 u32 match ip dport 53 0xffff flowid 1:6\n",
     [udp(53), udp(54), tcp(53)], [6, 1, 1]),
    (ADD + "matchall classid 1:3\n", [udp(1), ARP], [3, 1]),
    (ADD + "u32 match u32 0x0a000000 0xff000000 at 12 flowid 1:2\n", [udp(1), udp(1, src=0x0B000001)], [2, 1]),
]


@pytest.mark.parametrize("text, packets, expected", BY_HAND)
def test_filters_by_hand(tmp_path, text, packets, expected):
    assert placed(text, packets, tmp_path) == (expected, [])


def test_marks_of_the_firewall(tmp_path):
    text = ADD + "handle 10 fw flowid 1:2\n" + ADD + "handle 0x20/0xf0 fw flowid 1:3\n"
    packets = [udp(9999), udp(10000), udp(20000), tcp(22)]
    assert placed(text, packets, tmp_path, ["10=udp dport 10000-20000", "0x21=tcp"]) == ([1, 2, 2, 3], [])
    assert placed(text, packets, tmp_path, ["10=udp dport 10000-20000"]) == ([1, 2, 2, 1], ["0x20/0xf0"])
    assert placed(text, packets, tmp_path) == ([1, 1, 1, 1], ["10", "0x20/0xf0"])


@pytest.mark.parametrize("text, word", [
    (ADD + "basic match 'cmp(u8 at 0 layer 1 mask 0xff eq 1)' flowid 1:2\n", "basic"), (ADD + "bpf bytecode-file x flowid 1:2\n", "bpf"),
    (ADD.replace("protocol ip", "protocol arp") + "matchall classid 1:2\n", "arp"), (ADD + "u32 match ip dport 80 0xffff flowid 1:9\n", "1:9"),
    (ADD + "u32 match ip dport 80 0xffff link 1:\n", "link"), (ADD + "flower dst_mac 02:00:00:00:00:01 classid 1:2\n", "dst_mac"),
    (ADD + "route from 10 flowid 1:2\n", "route")])
def test_what_is_not_understood_is_said(tmp_path, text, word):
    assert placed(text, [udp(80)], tmp_path) == ([1], [word])


# A filter: kind, protocol, target's port with a mask or a range, source's host, prio, class.
FILTER = strategies.tuples(strategies.sampled_from(["u32", "flower"]), strategies.sampled_from(["tcp", "udp", ""]), strategies.sampled_from([None, (80, 0xFFFF), (64, 0xFFC0)]),
                           strategies.integers(0, 2), strategies.integers(1, 3), strategies.sampled_from([1, 2, 3, 5, 6]), strategies.sampled_from(["1:", "1:5"]))


def line(asked):
    kind, proto, port, host, prio, owner, parent = asked
    words = f"tc filter add dev eth0 parent {parent} protocol ip prio {prio} {kind}"
    if kind == "flower":
        words += f" ip_proto {proto}" * bool(proto) + (f" dst_port {port[0]}-{port[0] + (0xFFFF ^ port[1])}" if port and proto else "") + f" src_ip 10.0.0.{host}" * bool(host)
    else:
        words += (f" match ip protocol {({'tcp': 6, 'udp': 17})[proto]} 0xff" if proto else "") + (f" match ip dport {port[0]} {hex(port[1])}" if port and proto else "")
        words += f" match ip src 10.0.0.{host}" * bool(host) + " match u32 0 0" * (not proto and not host)
    return words + f" classid 1:{owner}\n"


def plain(filters, packet):
    """The class of a packet: the filters of the root in the order of prio, then those of the class that was named, where it has classes below."""
    node = "1:"
    while True:
        for kind, proto, port, host, _prio, owner, parent in sorted(filters, key=lambda one: one[4]):
            if (parent == node and proto in ("", packet.proto) and (not port or not proto or packet.dport & port[1] == port[0]) and host in (0, packet.src & 255)):
                break
        else:
            return 1
        if owner != 5:
            return owner
        if node == "1:5":
            return 1
        node = "1:5"


@settings(max_examples=150, deadline=None)
@given(strategies.lists(FILTER, max_size=7))
def test_classes_are_those_of_a_plain_reading(tmp_path_factory, filters):
    packets = [Packet("out", proto, 0x0A000000 + host, 40000, 1, port, 0, "A" * (proto == "tcp"), 9)
               for proto in ("tcp", "udp") for host in (1, 2) for port in (63, 64, 80, 127, 128)]
    text = "".join(map(line, filters))
    found, _effects = placed(text, list(map(frame, packets)), tmp_path_factory.mktemp("capture"))
    assert found == [plain(filters, packet) for packet in packets], text

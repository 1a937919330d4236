"""`prepared`: configurations and captures of any kind become what the program plays."""

import os

import numpy
import pytest
from conftest import ETHERNET, classic, data, frames, udp

from altqplay.workbench.faults import Refused
from altqplay.workbench.operator_inputs import Options, prepared
from altqplay.workbench.play import play
from altqplay.workbench.rows import fate_rows

PF = """altq on em0 hfsc bandwidth 8Mb queue { voip rest }
queue voip bandwidth 1Mb hfsc(realtime 1Mb)
queue rest bandwidth 7Mb hfsc(default)
pass out on em0 inet proto udp from any to any port 5004 queue voip
"""
ALTQ = """interface if0 bandwidth 8M hfsc
class hfsc if0 root NULL pshare 100
class hfsc if0 voip root pshare 50
class hfsc if0 rest root pshare 50 default
filter if0 voip 0 5004 0 0 17
"""


def capture(tmp_path, ports, link=1):
    """A capture of datagrams to some ports, a microsecond apart."""
    head = ETHERNET + b"\x08\x00" if link == 1 else b""
    name = tmp_path / f"link{link}.pcap"
    name.write_bytes(classic(link, [(1000 * k, head + udp(port), len(head) + 200) for k, port in enumerate(ports)]))
    return str(name)


def fates(made, tmp_path):
    """The classes of a play of what was prepared, by the numbers of the given capture."""
    (tmp_path / "altq.conf").write_text(made.conf_text)
    found = fate_rows(play(str(tmp_path / "altq.conf"), made.interface, made.arrivals, str(tmp_path / "play")).fates)
    return {int(made.numbers[fate.number]): fate.name for fate in found}


@pytest.mark.parametrize("text, interface", [(PF, "em0"), (ALTQ, "if0")])
@pytest.mark.parametrize("link", [1, 101])
def test_each_kind_is_played(program, tmp_path, text, interface, link):
    (tmp_path / "given").write_text(text)
    made = prepared(str(tmp_path / "given"), None, [capture(tmp_path, [5004, 80, 5004], link)], str(tmp_path / "folder"))
    assert made.interface == interface and fates(made, tmp_path) == {1: "voip", 2: "rest", 3: "voip"}
    assert len(frames(made.shown)) == 3 and (made.original == made.shown) == (link == 1)
    assert list(made.numbers[numpy.array([3, 1])]) == [3, 1] and made.not_understood() is None


def test_what_was_not_understood(tmp_path):
    (tmp_path / "pf.conf").write_text(PF + "pass out on em0 proto udp from any to any user alice queue voip\n")
    made = prepared(str(tmp_path / "pf.conf"), "em0", [capture(tmp_path, [80])], str(tmp_path / "folder"))
    assert [(note.line, note.text, note.has_effect) for note in made.notes] == [(5, "user", True)]
    assert "line 5" in made.not_understood()


def test_two_interfaces(tmp_path):
    (tmp_path / "pf.conf").write_text(PF + "altq on em1 cbq bandwidth 8Mb queue { a }\nqueue a cbq(default)\n")
    for interface, said in ((None, "2 interfaces"), ("em7", "no queues on em7")):
        with pytest.raises(Refused, match=said):
            prepared(str(tmp_path / "pf.conf"), interface, [capture(tmp_path, [80])], str(tmp_path / "folder"))


def test_bandwidth_and_overhead(tmp_path):
    (tmp_path / "x.tc").write_text("tc qdisc add dev eth0 root handle 1: hfsc default 1\ntc class add dev eth0 parent 1: classid 1:1 hfsc sc rate 1mbit\n")
    made = prepared(str(tmp_path / "x.tc"), None, [data("raw.pcap")], str(tmp_path / "folder"), options=Options(bandwidth="3mbit", overhead=24))
    assert "bandwidth 3M" in made.conf_text and [length for _at, _data, length in frames(made.shown)] == [14 + 24 + 20 + 8 + 100 + 10 * k for k in range(5)]
    assert os.path.dirname(made.arrivals) == str(tmp_path / "folder") and "24 bytes added" in "\n".join(made.told)


RTP = PF.replace("port 5004 queue voip", "port 10000:20000 queue voip")
FRAMES = [(ETHERNET + b"\x08\x00" + udp(port), 1500) for port in (9999, 10000, 20000, 20001)] + [(ETHERNET + b"\x08\x06" + bytes(28), 60)]


def written(tmp_path, packets, name="given.pcap", order="<"):
    (tmp_path / name).write_bytes(classic(1, [(1000 * k, packet, length) for k, (packet, length) in enumerate(packets)], order))
    return str(tmp_path / name)


@pytest.mark.parametrize("order", "<>")
def test_a_marked_copy_is_played(program, tmp_path, order):
    """A range of ports that no filter says: each packet has the class of the rule, and of the copy the targets alone are others."""
    (tmp_path / "pf.conf").write_text(RTP)
    name = written(tmp_path, FRAMES, order=order)
    made = prepared(str(tmp_path / "pf.conf"), None, [name], str(tmp_path / "folder"))
    assert made.not_understood() is None and made.classes == ["rest", "voip", "voip", "rest", "rest"]
    assert fates(made, tmp_path) == dict(enumerate(made.classes, 1))
    assert made.shown == made.original == name and made.arrivals != name
    with open(name, "rb") as given, open(made.arrivals, "rb") as copy:
        ours, theirs = given.read(), copy.read()
    places = [place for place in range(len(ours)) if ours[place] != theirs[place]]
    at, targets = 24, set()
    for packet, _length in FRAMES[:4]:
        targets |= set(range(at + 16 + 30, at + 16 + 34))
        at += 16 + len(packet)
    assert len(ours) == len(theirs) and set(places) <= targets and places
    said = "\n".join(made.told)
    assert "1 frames of neither version of IP are in the default class, since no filter and no mark finds them: 1 ARP" in said and "marked copy" in said


def test_the_type_of_service_is_as_it_was(program, tmp_path):
    """RIO and ecn read it: the departures of the marked copy have the type of service that the capture has."""
    (tmp_path / "pf.conf").write_text(RTP)
    packets = [(ETHERNET + b"\x08\x00" + udp(15000)[:1] + bytes([tos]) + udp(15000)[2:], 1500) for tos in (0, 0x28, 0xB8, 3)]
    made = prepared(str(tmp_path / "pf.conf"), None, [written(tmp_path, packets)], str(tmp_path / "folder"))
    assert made.classes == ["voip"] * 4 and [data[15] for _at, data, _length in frames(made.arrivals)] == [0, 0x28, 0xB8, 3]


def test_targets_of_the_capture_that_stand_for_classes(program, tmp_path):
    """A capture that has packets to 240.0.0.0 and 100:: is marked by other addresses."""
    (tmp_path / "altq.conf").write_text(ALTQ)
    packets = [(ETHERNET + b"\x08\x00" + udp(80, target=target), 300) for target in ("f0000000", "f0000001", "f0010002", "0a000002")]
    made = prepared(str(tmp_path / "altq.conf"), None, [written(tmp_path, packets)], str(tmp_path / "folder"), ["voip=dst 10.0.0.2"])
    assert fates(made, tmp_path) == {1: "rest", 2: "rest", 3: "rest", 4: "voip"}


def test_marks_above_an_altq_conf(program, tmp_path):
    """What a mark names goes to its class, above each filter; the rest keeps its filters."""
    (tmp_path / "altq.conf").write_text(ALTQ + "filter if0 rest ruleno 4000000000 0 5006 0 0 17\n")
    packets = [(ETHERNET + b"\x08\x00" + udp(port), 300) for port in (5004, 5005, 5006, 5007)]
    made = prepared(str(tmp_path / "altq.conf"), "if0", [written(tmp_path, packets)], str(tmp_path / "folder"), ["voip=udp dport 5005-5006"])
    assert fates(made, tmp_path) == {1: "voip", 2: "voip", 3: "voip", 4: "rest"}


@pytest.mark.parametrize("mark, said", [("voip", "NAME='CONDITION"), ("voip=udp dport x", "no port, name or range"), ("voip=", "names no packets"),
                                        ("none=udp", "no class that holds packets"), ("voip=src 10.0.0.300", "no address"), ("voip=what", "no condition"),
                                        ("voip=udp dport", "its value is missing"), ("root=udp", "no class that holds packets"), ("voip=not", "is missing")])
def test_marks_that_are_refused(program, tmp_path, mark, said):
    (tmp_path / "altq.conf").write_text(ALTQ)
    with pytest.raises(Refused, match=said):
        prepared(str(tmp_path / "altq.conf"), None, [written(tmp_path, FRAMES)], str(tmp_path / "folder"), [mark])


@pytest.mark.parametrize("mark, named", [
    ("udp", [1, 2, 3, 4]), ("udp dport 10000-20000", [2, 3]), ("dport 10000:20000,9999", [1, 2, 3]), ("not dport 9999,20001", [2, 3]), ("tcp", []),
    ("ip src 10.0.0.0/8", [1, 2, 3, 4]), ("host 10.0.0.2 port 40000 dport 9999", [1]), ("ip6", []), ("tos 0 and dport 20000", [3]), ("proto udp dst 10.0.0.1", []),
    ("src 10.0.0.1-10.0.0.3 not dport 0-15000", [3, 4])])
def test_selectors(program, tmp_path, mark, named):
    (tmp_path / "altq.conf").write_text(ALTQ.replace("5004", "1"))
    made = prepared(str(tmp_path / "altq.conf"), None, [written(tmp_path, FRAMES)], str(tmp_path / "folder"), [f"voip={mark}"])
    assert [number for number, name in sorted(fates(made, tmp_path).items()) if name == "voip"] == named


def test_long_frames_are_said(tmp_path):
    (tmp_path / "pf.conf").write_text(PF)
    frame = ETHERNET + b"\x08\x00" + udp(80)
    tagged = ETHERNET + b"\x81\x00\x00\x07\x08\x00" + udp(80)
    made = prepared(str(tmp_path / "pf.conf"), None, [written(tmp_path, [(frame, 1514), (frame, 1515), (tagged, 1518), (tagged, 65226)])], str(tmp_path / "folder"))
    assert "2 frames are longer than 1514 bytes, the longest 65226: receive offload" in "\n".join(made.told)


def test_the_machines_own_addresses(program, tmp_path):
    text = PF + "pass out on em0 inet from (self) to any queue voip\n"
    (tmp_path / "pf.conf").write_text(text)
    name = written(tmp_path, [(ETHERNET + b"\x08\x00" + udp(80, source=source), 300) for source in ("0a000001", "0a000002")])
    made = prepared(str(tmp_path / "pf.conf"), None, [name], str(tmp_path / "folder"))
    assert "line 5" in made.not_understood() and set(fates(made, tmp_path).values()) == {"rest"}
    made = prepared(str(tmp_path / "pf.conf"), None, [name], str(tmp_path / "folder"), options=Options(address=["(self)=10.0.0.2"]))
    assert made.not_understood() is None and fates(made, tmp_path) == {1: "rest", 2: "voip"}


def test_what_a_block_rule_stops_is_counted(program, tmp_path):
    """Filters alone would say the rest of these rules; what is stopped stands in no queue of theirs."""
    (tmp_path / "pf.conf").write_text(PF + "block out quick on em0 proto udp from any to any port 5006\npass out on em0 proto udp all queue voip\n")
    packets = [(ETHERNET + b"\x08\x00" + udp(port), 300) for port in (5004, 5005, 5006)]
    made = prepared(str(tmp_path / "pf.conf"), None, [written(tmp_path, packets)], str(tmp_path / "folder"))
    assert fates(made, tmp_path) == {1: "voip", 2: "voip", 3: "rest"}
    assert "1 packets would be stopped by a block rule (line 5)" in "\n".join(made.told)

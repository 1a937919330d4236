"""Whatever a configuration, a selector or a frame holds, packets are classified, or the input is refused with a sentence."""

import os

import pytest
from conftest import ETHERNET, classic, data, udp
from hypothesis import HealthCheck, given, settings, strategies

from altqplay.workbench.faults import Refused
from altqplay.workbench.operator_inputs import Options, prepared
from altqplay.workbench.packet_words import Reader
from test_import import HERE

BY_OTHERS = os.path.join(os.path.dirname(HERE), "import_by_others")
GIVEN = sorted(os.path.join(folder, name) for folder in (HERE, BY_OTHERS) for name in os.listdir(folder) if not name.endswith(".conf"))
WORDS = ["", "$", "{", "}", "(", ")", "!", "port", "queue", "0", "10Mb", "match", "quick", "on", "from", "to", "10000:20000", "><", "tagged", "flags",
         "S/SA", "<t>", "tos", "ef", "icmp-type", "::1", "10.0.0.0/8", "-", "65536", "in", "out", "block", "no", "state", "table", "anchor", "set", "skip",
         "em0", "em1", "egress", "handle", "fw", "at", "0xffff", "classid", "1:1", "dst_port", "1-9", "tcp_flags", "\"", "#", "\\", "\x1b[0m", "\u00fc"]


def texts(name):
    with open(name, encoding="utf-8") as file:
        return file.read()


def one_capture(folder):
    """A capture with frames of some kinds."""
    name = folder / "a.pcap"
    if not name.exists():
        packets = [ETHERNET + b"\x08\x00" + udp(port) for port in (53, 5060, 15000)]
        packets += [bytes(12) + b"\x86\xdd\x60" + bytes(60), bytes(14), b"", ETHERNET + b"\x88\x64" + bytes(30)]
        name.write_bytes(classic(1, [(1000 * k, packet, 900) for k, packet in enumerate(packets)]))
    return str(name)


def tried(folder, text, **more):
    """The classes of a text, or None where it is refused."""
    (folder / "given").write_text(text, encoding="utf-8")
    try:
        made = prepared(str(folder / "given"), None, [one_capture(folder)], str(folder / "made"), options=Options(bandwidth="9Mb", **more))
    except Refused as fault:
        assert str(fault)
        return None
    assert made.classes is None or len(made.classes) == 7
    return made


@settings(max_examples=300, deadline=None, suppress_health_check=[HealthCheck.function_scoped_fixture])
@given(strategies.data())
def test_changed_configurations(tmp_path, data):
    """Up to three words of a configuration are others."""
    name = data.draw(strategies.sampled_from(GIVEN))
    lines = [line.split(" ") for line in texts(name).split("\n")]
    for _ in range(data.draw(strategies.integers(1, 3))):
        line = data.draw(strategies.sampled_from(lines))
        line[data.draw(strategies.integers(0, len(line) - 1))] = data.draw(strategies.sampled_from(WORDS))
    tried(tmp_path, "\n".join(" ".join(words) for words in lines), kind=name[-2:])


@settings(max_examples=150, deadline=None, suppress_health_check=[HealthCheck.function_scoped_fixture])
@given(strategies.data())
def test_changed_config_xml(tmp_path, data_):
    """The text of an element is another, or a part of the file is gone."""
    text = texts(data("config.xml"))
    at = data_.draw(strategies.integers(0, len(text) - 1))
    end = data_.draw(strategies.integers(at, min(at + 40, len(text))))
    tried(tmp_path, text[:at] + data_.draw(strategies.sampled_from(WORDS)) + text[end:], kind="pfsense")


@settings(max_examples=300, deadline=None)
@given(strategies.lists(strategies.sampled_from(["tcp", "udp", "src", "dst", "dport", "port", "not", "and", "ack", "flags", "tos", "proto", "10.0.0.1", "::/0",
                                                 "1-9", "9-1", "x", "S/A", "ef", "-", ",", "ip6"]), max_size=5))
def test_selectors_are_read_or_refused(words):
    try:
        selector = Reader(" ".join(words)).selector()
    except Refused:
        return
    assert selector.conditions


@settings(max_examples=200, deadline=None, suppress_health_check=[HealthCheck.function_scoped_fixture])
@given(strategies.lists(strategies.binary(max_size=80), max_size=6),
       strategies.sampled_from([b"\x08\x00\x45", b"\x86\xdd\x60", b"\x81\x00\x00\x01\x08\x00\x4f", b"\x88\x64\x11\x00", b""]))
def test_any_frames(tmp_path, frames, head):
    """Frames of any bytes have a class; those that no header is found in have the default one."""
    (tmp_path / "pf.conf").write_text("altq on em0 cbq bandwidth 8Mb queue { a b }\nqueue a cbq(default)\nqueue b\n"
                                      "pass out on em0 proto { tcp udp } from any to any port 1:65535 flags any queue b\n")
    (tmp_path / "f.pcap").write_bytes(classic(1, [(k, (bytes(12) + head + frame) * bool(head) + frame * (not head), 200) for k, frame in enumerate(frames)]))
    made = prepared(str(tmp_path / "pf.conf"), None, [str(tmp_path / "f.pcap")], str(tmp_path / "made"))
    assert len(made.classes) == len(frames) and set(made.classes) <= {"a", "b"}


@pytest.mark.parametrize("count", [0, 1])
def test_captures_without_packets(tmp_path, count):
    (tmp_path / "e.pcap").write_bytes(classic(1, [(0, b"", 60)] * count))
    (tmp_path / "pf.conf").write_text(texts(os.path.join(HERE, "06-conditions.pf")))
    made = prepared(str(tmp_path / "pf.conf"), None, [str(tmp_path / "e.pcap")], str(tmp_path / "made"))
    assert made.classes == ["d"] * count

"""What the workbench reads of a configuration: the interface that is named, among others."""

import pytest
from conftest import classic

from altqplay.workbench.conf import Curve, read_conf
from altqplay.workbench.faults import Refused

TEXT = """interface if1 bandwidth 1M cbq
class cbq if1 root NULL
class cbq if1 a root pbandwidth 10 default
interface if0 bandwidth 8M hfsc
class hfsc if0 root NULL
class hfsc if0 a root sc 6M 10 6M
class hfsc if0 b root ls 4M 0 4M rt 4M 0 4M default
filter if0 a 0 5004 0 0 udp
"""


def test_the_interface_that_is_named(program, tmp_path):
    (tmp_path / "c.conf").write_text(TEXT)
    found = read_conf(str(tmp_path / "c.conf"), "if0")
    assert (found.name, found.bandwidth, found.discipline, list(found.classes)) == ("if0", 8_000_000, "hfsc", ["root", "a", "b"])
    assert found.fit == "exceeds at 1 by 2000000" and found.promised("a") == Curve(6_000_000, 0, 6_000_000)
    other = read_conf(str(tmp_path / "c.conf"), "if1")
    assert (other.name, other.bandwidth, other.discipline, list(other.classes), other.fit) == ("if1", 1_000_000, "cbq", ["root", "a"], "fits")
    assert [line[3] for line in other.lines] == ["root", "a"] and not other.classes["root"].is_default and other.classes["a"].is_default
    with pytest.raises(Refused, match="2 interfaces"):
        read_conf(str(tmp_path / "c.conf"))


@pytest.mark.parametrize("text, what", [("ext = em0\naltq on em0 cbq bandwidth 8Mb queue { a }\n", "a pf.conf"), ("<?xml version='1.0'?>\n<pfsense>\n", "config.xml"),
                                        ("tc qdisc add dev eth0 root handle 1: hfsc default 1\n", "lines of tc")])
def test_another_kind_of_configuration_is_named(altqwork, tmp_path, text, what):
    (tmp_path / "given").write_text(text)
    (tmp_path / "a.pcap").write_bytes(classic(1, []))
    status, _said, fault = altqwork("meter", "--config", tmp_path / "given", "--class", "a", tmp_path / "a.pcap")
    assert status == 2 and what in fault and "0 interfaces" not in fault

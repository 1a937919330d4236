"""`try`: its captures byte by byte, and plays of a few packets reckoned by hand."""

import os
import subprocess
import sys

import pytest
from conftest import example, frames
from hypothesis import given
from hypothesis import strategies as some

from altqplay.workbench.bursts import capture

ENDS = ["number,arrival,length,class,fate,start,end", "1,0,100,default,share,0,266667", "2,0,100,default,share,266667,533334", "3,0,100,default,share,533334,800000"]


@pytest.fixture
def folder(tmp_path, monkeypatch):
    monkeypatch.chdir(tmp_path)
    return tmp_path


def test_three_packets_of_a_run(altqwork, program, folder):
    # 100 bytes at 3 Mbit/s take 266,666 2/3 ns; the ends of a run are rounded up once
    (folder / "run.conf").write_text("interface if0 bandwidth 3M hfsc\n")
    status, said, fault = altqwork("try", "run", "3x100@0")
    assert (status, fault, said.splitlines()) == (0, "", ENDS)
    assert (folder / "run.csv").read_text() == said
    assert sorted(path.name for path in folder.iterdir()) == ["run-out.pcap", "run-stats.csv", "run.conf", "run.csv", "run.pcap"]
    assert altqwork("try", "run", "3x100@0", "--line", "number,end")[1] == "number,end 1,266667 2,533334 3,800000\n"
    assert altqwork("try", "run", "3x100@0", "--quiet") == (0, "", "")


def test_two_leaves(altqwork, program, folder):
    # a quarter and three quarters: a packet of a moves its virtual time by 4 ms, one of b by 4/3 ms
    words = ["try", "quarter", "--leaves", "pshare 25", "pshare 75", "3x1000@0:5004", "6x1000@0", "--line", "class"]
    assert altqwork(*words) == (0, "class a b b b a b b b a\n", "")
    assert (folder / "quarter.conf").read_text().splitlines() == [
        "interface if0 bandwidth 8M hfsc", "class hfsc if0 root NULL pshare 100", "class hfsc if0 a root pshare 25",
        "class hfsc if0 b root pshare 75 default", "filter if0 a 0 5004 0 0 udp"]


def test_shares(altqwork, program, folder):
    # a packet of 1,000 bytes takes 4 ms at the quarter of a: that is how far it leads, and twice that and 2 is the bound
    words = ["try", "quarter", "--leaves", "ls 2M 0 2M", "ls 6M 0 6M", "--shares", "3x1000@0:5004", "6x1000@0"]
    assert altqwork(*words) == (0, "a b gap 4000000 bound 8000002\n", "")


def test_drops(altqwork, program, folder):
    # one packet is on the link when the fourth comes, and two may wait
    words = ["try", "full", "--leaves", "pshare 50", "pshare 50 qlimit 2", "1x1000@0", "3x1000@500000", "--drops"]
    assert altqwork(*words)[1].splitlines()[1:] == ["4,500000,1000,b,full,,"]
    assert altqwork(*words, "--line", "number,fate")[1] == "number,fate 4,full\n"


def test_a_meter(altqwork, program, folder):
    # 1,500 bytes in each bucket: green, then the excess bucket pays, then neither can; in 1 ms come 1,000 bytes
    status, said, _fault = altqwork("try", "m", "--meter", "srtcm 8M 1500 1500", "3x1000@0", "1x1000@1000000")
    assert status == 0 and said.splitlines() == [
        "number,moment,length,committed,excess,colour,committedleft,excessleft", "1,0,1000,1500,1500,green,500,1500",
        "2,0,1000,500,1500,yellow,500,500", "3,0,1000,500,500,red,500,500", "4,1000000,1000,1500,500,green,500,500"]


@pytest.mark.parametrize("words, why", [
    (["1x100"], "1x100: no burst"), (["1x41@0"], "42 to 65549"), (["1x65550@0"], "42 to 65549"), (["1x100@4294967296000000000"], "below 2^32 seconds"),
    (["1x100@0:65536"], "a port below"), (["1x100@0:9:256"], "a type of service"), (["1x100@0:gre"], "no burst"), (["1x100@0", "--line", "rate"], "no column rate")])
def test_what_is_refused(altqwork, program, folder, words, why):
    (folder / "run.conf").write_text("interface if0 bandwidth 3M hfsc\n")
    status, said, fault = altqwork("try", "run", *words)
    assert (status, said) == (2, "") and fault.startswith("altqwork: ") and why in fault
    assert (folder / "run.pcap").exists() == ("--line" in words)


def test_a_configuration_that_is_refused(altqwork, program, folder):
    status, said, fault = altqwork("try", "bad", "--leaves", "pshare 0", "pshare 50", "1x100@0")
    assert (status, said) == (2, "") and "status 3" in fault and "BadNumber" in fault


def test_frames_of_bursts(tmp_path):
    name = tmp_path / "a.pcap"
    words = ["2x1000@0", "1x50@2000000001:5004:0xB8", "1x60@3:tcp", "1x98@4:icmp", "1x60@5:arp"]
    subprocess.run([sys.executable, example("capture.py"), name, *words], check=True)
    assert name.read_bytes() == capture(words)
    found = frames(name)
    assert [(at, len(text), length) for at, text, length in found] == [
        (0, 60, 1000), (0, 60, 1000), (2000000001, 50, 50), (3, 60, 60), (4, 60, 98), (5, 60, 60)]
    # type and, of IPv4: type of service, protocol, target's port
    assert [text[12:14].hex() for _at, text, _length in found] == ["0800"] * 5 + ["0806"]
    assert [(text[15], text[23]) for _at, text, _length in found[:5]] == [(0, 17), (0, 17), (0xB8, 17), (0, 6), (0, 1)]
    assert [int.from_bytes(text[36:38], "big") for _at, text, _length in found[:3]] == [9000, 9000, 5004]
    for _at, text, _length in found[:5]:  # the sum of a header with its checksum, in ones' complement, is all ones (RFC 791)
        total = sum(int.from_bytes(text[at:at + 2], "big") for at in range(14, 34, 2))
        assert (total & 0xFFFF) + (total >> 16) == 0xFFFF


@given(some.lists(some.tuples(some.integers(0, 5), some.integers(42, 65549), some.integers(0, 2**32 * 10**9 - 1)), min_size=1, max_size=4))
def test_each_burst_is_there(tmp_path_factory, bursts):
    name = os.path.join(tmp_path_factory.mktemp("bursts"), "a.pcap")
    with open(name, "wb") as file:
        file.write(capture([f"{count}x{length}@{at}" for count, length, at in bursts]))
    assert [(at, length) for at, _text, length in frames(name)] == [(at, length) for count, length, at in bursts for _ in range(count)]

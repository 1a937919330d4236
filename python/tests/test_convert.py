"""`convert`: captures that tcpdump and editcap wrote, every link type by hand, lengths, and what is refused."""

import bz2
import gzip
import lzma
import random
import re
import shutil
import struct
import subprocess
import sys

import pytest
from conftest import ETHERNET, classic, data, frames, udp

# data/cooked.pcap, cooked2.pcap: `tcpdump -i any -y LINUX_SLL` and `LINUX_SLL2` of six datagrams of 500 to 505 bytes to port 5005
# of ::1, of which 96 and 200 bytes were captured. raw.pcap: `tcpdump -i` a tun device, five of 100 to 140 bytes to 10.77.0.2, 5004.
COOKED = [(14 + 40 + 8 + 500 + k, 96 - 16 + 14) for k in range(6)]
COOKED_2 = [(14 + 40 + 8 + 500 + k, 200 - 20 + 14) for k in range(6)]


@pytest.mark.parametrize("name, shown, said", [
    ("cooked.pcap", COOKED, "6 packets of Linux cooked\n"), ("cooked.pcap.gz", COOKED, "6 packets of Linux cooked\n"),
    ("cooked2.pcap", COOKED_2, "6 packets of Linux cooked v2\n"), ("cooked2.pcapng", COOKED_2, "6 packets of Linux cooked v2\n"),
    ("raw.pcap", [(14 + 20 + 8 + 100 + 10 * k,) * 2 for k in range(5)], "5 packets of raw IP\n")])
def test_real_captures(altqwork, tmp_path, name, shown, said):
    made = tmp_path / "made.pcap"
    assert altqwork("convert", data(name), made) == (0, said, "")
    found = frames(made)
    assert [(length, len(captured)) for _at, captured, length in found] == shown
    if name == "raw.pcap":
        assert all(captured[12:15] == b"\x08\x00\x45" and captured[36:38] == struct.pack(">H", 5004) for _at, captured, _length in found)
    else:
        assert all(captured[12:15] == b"\x86\xdd\x60" and captured[56:58] == struct.pack(">H", 5005) for _at, captured, _length in found)


@pytest.mark.parametrize("name", ["cooked.pcap", "cooked.pcap.gz", "cooked2.pcap", "cooked2.pcapng", "raw.pcap"])
def test_scapy_reads_the_same(altqwork, tmp_path, name):
    utils = pytest.importorskip("scapy.utils")
    altqwork("convert", data(name), tmp_path / "made.pcap")
    reader = utils.RawPcapReader(data(name))
    theirs = [(captured, about.wirelen) for captured, about in reader]
    reader.close()
    head = {"cooked": 16, "cooked2": 20, "raw": 0}[name.split(".")[0]]
    assert [(captured[14:], length - 14) for _at, captured, length in frames(tmp_path / "made.pcap")] == [
        (captured[head:], wire - head) for captured, wire in theirs]


def cooked(protocol, device=1):
    return struct.pack(">HHH8sH", 0, device, 6, bytes.fromhex("0200000000aa0000"), protocol)


IP, IP_6 = udp(5004), b"\x60" + bytes(47)


@pytest.mark.parametrize("link, packet, frame", [
    (1, ETHERNET + b"\x08\x00" + IP, ETHERNET + b"\x08\x00" + IP), (101, IP, ETHERNET + b"\x08\x00" + IP), (12, IP_6, ETHERNET + b"\x86\xdd" + IP_6),
    (14, IP, ETHERNET + b"\x08\x00" + IP), (228, IP, ETHERNET + b"\x08\x00" + IP), (229, IP_6, ETHERNET + b"\x86\xdd" + IP_6),
    (0, b"\x02\0\0\0" + IP, ETHERNET + b"\x08\x00" + IP), (0, b"\0\0\0\x18" + IP_6, ETHERNET + b"\x86\xdd" + IP_6),
    (108, b"\0\0\0\x02" + IP, ETHERNET + b"\x08\x00" + IP), (108, b"\0\0\0\x1e" + IP_6, ETHERNET + b"\x86\xdd" + IP_6),
    (9, b"\xff\x03\x00\x21" + IP, ETHERNET + b"\x08\x00" + IP), (9, b"\x00\x57" + IP_6, ETHERNET + b"\x86\xdd" + IP_6),
    (9, b"\x21" + IP, ETHERNET + b"\x08\x00" + IP), (50, b"\xff\x03\xc0\x21\x01\x01", ETHERNET + b"\x88\x0b\xc0\x21\x01\x01"),
    (113, cooked(0x0800) + IP, bytes(6) + bytes.fromhex("0200000000aa0800") + IP),
    (113, cooked(0x0806) + bytes(28), bytes(6) + bytes.fromhex("0200000000aa0806") + bytes(28)),
    (113, cooked(4) + bytes(38), bytes(6) + bytes.fromhex("0200000000aa040e") + bytes(38)),
    (276, struct.pack(">HHIHBB8s", 0x86DD, 0, 1, 772, 0, 6, bytes(8)) + IP_6, bytes(12) + b"\x86\xdd" + IP_6)])
@pytest.mark.parametrize("order", "<>")
def test_each_link_type(altqwork, tmp_path, link, packet, frame, order):
    (tmp_path / "any.pcap").write_bytes(classic(link, [(1764340000 * 10**9 + 7, packet, len(packet) + 1000)], order))
    assert altqwork("convert", tmp_path / "any.pcap", tmp_path / "made.pcap")[0] == 0
    assert frames(tmp_path / "made.pcap") == [(1764340000 * 10**9 + 7, frame, len(frame) + 1000)]


@pytest.mark.parametrize("link, packet, why", [
    (105, IP, "is of link type 105, which is none that can be converted"), (101, b"\x55" + IP, "is neither IPv4 nor IPv6"), (228, IP_6, "is not IPv4"),
    (101, b"", "is neither IPv4 nor IPv6"), (0, b"\x07\0\0\0" + IP, "address family is 7"), (0, b"\x02\0\0", "is cut within its header of BSD loopback"),
    (113, cooked(0x0800)[:15], "is cut within its header of Linux cooked"), (113, cooked(0x0800, 824) + IP, "device is of type 824"),
    (113, cooked(12) + IP, "protocol is 12"), (9, b"\xff\x03\x00", "is cut within its header of PPP"), (9, b"\x00\x20" + IP, "none of PPP")])
def test_what_cannot_be_told_is_refused(altqwork, tmp_path, link, packet, why):
    good = {0: b"\x02\0\0\0" + IP, 9: b"\x00\x21" + IP, 113: cooked(0x0800) + IP}.get(link, IP)
    (tmp_path / "any.pcap").write_bytes(classic(link, [(0, good, 100)] * (link != 105) + [(0, packet, 1500)]))
    status, said, fault = altqwork("convert", tmp_path / "any.pcap", tmp_path / "made.pcap")
    assert (status, said) == (2, "") and why in fault and f"record {1 + (link != 105)} " in fault
    assert [path.name for path in tmp_path.iterdir()] == ["any.pcap"]


def whole_frames(altqwork, tmp_path, text):
    """The frames of a capture's conversion and what was said, or None where it was refused."""
    (tmp_path / "cut").write_bytes(text)
    status, said, fault = altqwork("convert", tmp_path / "cut", tmp_path / "made.pcap")
    if status == 0:
        assert fault == ""
        return frames(tmp_path / "made.pcap"), said
    assert status == 2 and said == "" and str(tmp_path / "cut") in fault
    return None


@pytest.mark.parametrize("name", ["cooked.pcap", "cooked2.pcapng"])
def test_of_a_cut_capture_the_whole_records_are_taken(altqwork, tmp_path, name):
    """Ctrl-C of tcpdump leaves a file that ends anywhere; one record less is said, and one that has none is refused."""
    with open(data(name), "rb") as file:
        text = file.read()
    everything, counts, ends = whole_frames(altqwork, tmp_path, text)[0], set(), 0
    for size in range(0, len(text), 3 if name.endswith("ng") else 1):
        answer = whole_frames(altqwork, tmp_path, text[:size])
        found = answer[0] if answer else []
        assert found == everything[:len(found)]
        if answer and "ends within record" in answer[1]:
            assert f"it ends within record {len(found) + 1}: the {len(found)} whole records before it are taken" in answer[1]
            counts.add(len(found))
        ends += answer is not None and "ends within" not in answer[1]
    assert counts == set(range(1, 6)) and ends <= 10


PACKERS = {"gz": gzip.compress, "bz2": bz2.compress, "xz": lzma.compress,
           "zst": lambda text: subprocess.run(["zstd", "-qc"], input=text, stdout=subprocess.PIPE, check=True).stdout}


@pytest.mark.parametrize("ending", PACKERS)
@pytest.mark.parametrize("times", [1, 40])
def test_packed_captures(altqwork, tmp_path, ending, times):
    """Whole, cut anywhere, and with a damaged byte: all records, whole ones, or a sentence."""
    if ending == "zst" and shutil.which("zstd") is None:
        pytest.skip("zstd is not installed")
    with open(data("cooked.pcap"), "rb") as file:
        plain = file.read()
    plain += plain[24:] * (times - 1)
    everything, _said = whole_frames(altqwork, tmp_path, plain)
    packed = PACKERS[ending](plain)
    assert whole_frames(altqwork, tmp_path, packed)[0] == everything
    if ending != "zst":
        assert whole_frames(altqwork, tmp_path, PACKERS[ending](plain[:99]) + PACKERS[ending](plain[99:]))[0] == everything
    for size in range(2, len(packed), 1 if ending != "zst" and times == 1 else len(packed) // 12):
        answer = whole_frames(altqwork, tmp_path, packed[:size])
        assert answer is None or (answer[0] == everything[:len(answer[0])] and "ends within record" in answer[1])
    middle = len(packed) // 2
    answer = whole_frames(altqwork, tmp_path, packed[:middle] + bytes([packed[middle] ^ 0x5A]) + packed[middle + 1:])
    assert answer is None


def test_zstd_without_a_tool(altqwork, tmp_path, monkeypatch):
    monkeypatch.setenv("PATH", str(tmp_path))
    monkeypatch.setitem(sys.modules, "zstandard", None)
    (tmp_path / "a.pcap.zst").write_bytes(bytes.fromhex("28b52ffd") + bytes(20))
    status, _said, fault = altqwork("convert", tmp_path / "a.pcap.zst", tmp_path / "made.pcap")
    assert status == 77 and "neither the command zstd nor Python's zstandard is installed" in fault


def pppoe(packet, protocol=0x0021, head=b"\x11\0", tag=b""):
    """A frame of a PPPoE session (RFC 2516)."""
    return ETHERNET + tag + b"\x88\x64" + head + struct.pack(">HHH", 7, len(packet) + 2, protocol) + packet


@pytest.mark.parametrize("frame, carried", [
    (pppoe(IP), ETHERNET + b"\x08\x00" + IP), (pppoe(IP_6, 0x0057), ETHERNET + b"\x86\xdd" + IP_6),
    (pppoe(IP, tag=b"\x81\0\0\7"), ETHERNET + b"\x81\0\0\7\x08\x00" + IP), (pppoe(IP, 0xC021), None), (pppoe(IP, head=b"\x11\x09"), None),
    (pppoe(b"")[:19], None)])
def test_pppoe(altqwork, tmp_path, frame, carried):
    """The packet stands where filters look, and the length on the line stays."""
    (tmp_path / "a.pcap").write_bytes(classic(1, [(5, frame, 1500)]))
    status, said, _fault = altqwork("convert", tmp_path / "a.pcap", tmp_path / "made.pcap")
    assert status == 0 and frames(tmp_path / "made.pcap") == [(5, carried or frame, 1500)]
    assert ("1 packets stood in PPPoE" in said) == (carried is not None)


def test_late_looks_into_pppoe(altqwork, program, tmp_path):
    (tmp_path / "c.conf").write_text("interface if0 bandwidth 8M hfsc\nclass hfsc if0 root NULL pshare 100\nclass hfsc if0 voip root pshare 50\n"
                                     "class hfsc if0 rest root pshare 50 default\nfilter if0 voip 0 5004 0 0 17\n")
    (tmp_path / "a.pcap").write_bytes(classic(1, [(5, pppoe(IP), 1500)]))
    status, said, _fault = altqwork("late", "--config", tmp_path / "c.conf", tmp_path / "a.pcap")
    assert status == 0 and "1 packets stood in PPPoE" in said and "voip\n" in said and "rest\n" not in said


@pytest.mark.parametrize("subcommand, more", [("late", []), ("report", ["page.html"])])
def test_a_damaged_or_cut_capture_is_no_traceback(altqwork, program, tmp_path, monkeypatch, subcommand, more):
    monkeypatch.chdir(tmp_path)
    (tmp_path / "c.conf").write_text("interface if0 bandwidth 8M hfsc\n")
    text = classic(1, [(5 + k, ETHERNET + b"\x08\x00" + udp(5004 + k), 300) for k in range(9)])
    packed = gzip.compress(text)
    (tmp_path / "damaged.pcap.gz").write_bytes(packed[:40] + bytes(20) + packed[60:])
    status, _said, fault = altqwork(subcommand, "--config", tmp_path / "c.conf", tmp_path / "damaged.pcap.gz", *more)
    assert status == 2 and "what gzip packed is damaged" in fault
    (tmp_path / "cut.pcap").write_bytes(text[:-1])
    status, said, fault = altqwork(subcommand, "--config", tmp_path / "c.conf", tmp_path / "cut.pcap", *more)
    assert status == 0 and fault == ""
    page = (tmp_path / "page.html").read_text() if more else said
    assert "it ends within record 9: the 8 whole records before it are taken" in page


def test_several_captures_are_merged_by_their_stamps(altqwork, tmp_path):
    for name, stamps in (("a.pcap", [1, 5, 9]), ("b.pcap", [2, 5, 6])):
        (tmp_path / name).write_bytes(classic(1, [(at, ETHERNET + name[:1].encode() * 2 + IP, 100) for at in stamps]))
    status, said, _fault = altqwork("convert", tmp_path / "a.pcap", tmp_path / "b.pcap", tmp_path / "made.pcap")
    assert (status, said) == (0, "6 packets of Ethernet\n")
    assert [(at, captured[12:13]) for at, captured, _length in frames(tmp_path / "made.pcap")] == [
        (1, b"a"), (2, b"b"), (5, b"a"), (5, b"b"), (6, b"b"), (9, b"a")]


@pytest.mark.parametrize("length, words, reckoned", [
    (1514, ["--overhead", "24"], 1538), (1508, ["--overhead", "-14"], 1494), (40, ["--atm"], 53), (48, ["--atm"], 53), (49, ["--atm"], 106),
    (1500, ["--overhead", "16", "--atm"], 32 * 53), (1528, ["--overhead", "8", "--atm"], 32 * 53), (1529, ["--overhead", "8", "--atm"], 33 * 53),
    (262144, [], 262144), (262120, ["--overhead", "24"], 262144)])
def test_lengths(altqwork, tmp_path, length, words, reckoned):
    (tmp_path / "a.pcap").write_bytes(classic(1, [(5, bytes(40), length)]))
    assert altqwork("convert", *words, tmp_path / "a.pcap", tmp_path / "made.pcap")[0] == 0
    assert [found[2] for found in frames(tmp_path / "made.pcap")] == [reckoned]


def test_snap_cuts_what_was_captured_and_no_length(altqwork, tmp_path):
    (tmp_path / "a.pcap").write_bytes(classic(1, [(5, bytes(size), 1000) for size in (95, 96, 97, 200)]))
    said = altqwork("convert", "--snap", "96", "--overhead", "24", tmp_path / "a.pcap", tmp_path / "made.pcap")[1]
    assert said == "4 packets of Ethernet\n24 bytes added to each length\ncaptured bytes of 2 packets cut to 96 or their length\n"
    assert [(len(captured), length) for _at, captured, length in frames(tmp_path / "made.pcap")] == [(95, 1024), (96, 1024), (96, 1024), (96, 1024)]


@pytest.mark.parametrize("length, words", [(262121, ["--overhead", "24"]), (262144, ["--atm"]), (40, ["--overhead", "-40"]), (262145, []), (40, ["--snap", "-1"])])
def test_lengths_out_of_range(altqwork, tmp_path, length, words):
    (tmp_path / "a.pcap").write_bytes(classic(1, [(5, bytes(40), length)]))
    assert altqwork("convert", *words, tmp_path / "a.pcap", tmp_path / "made.pcap")[0] == 2


def block(kind, body):
    body += bytes(-len(body) % 4)
    return struct.pack("<II", kind, 12 + len(body)) + body + struct.pack("<I", 12 + len(body))


SECTION = block(0x0A0D0D0A, struct.pack("<IHHq", 0x1A2B3C4D, 1, 0, -1))


def packet(number, ticks, captured, length):
    return block(6, struct.pack("<IIIII", number, ticks >> 32, ticks & 0xFFFFFFFF, len(captured), length) + captured)


def source(link, *options):
    text = b"".join(struct.pack("<HH", code, len(value)) + value + bytes(-len(value) % 4) for code, value in options)
    return block(1, struct.pack("<HHI", link, 0, 0) + text)


def test_pcapng_stamps_and_sections(altqwork, tmp_path):
    frame = ETHERNET + b"\x08\x00" + IP
    text = SECTION + source(1) + source(101, (9, b"\x09")) + packet(0, 7, frame, 300) + packet(1, 7, IP, 300) + block(5, bytes(20))
    text += SECTION + source(1, (9, b"\x8a"), (14, struct.pack("<q", 100))) + packet(0, 3, frame, 300)
    (tmp_path / "a.pcapng").write_bytes(text)
    assert altqwork("convert", tmp_path / "a.pcapng", tmp_path / "made.pcap")[0] == 0
    assert [(at, length) for at, _captured, length in frames(tmp_path / "made.pcap")] == [(7000, 300), (7, 314), (100 * 10**9 + 3 * 10**9 // 1024, 300)]


@pytest.mark.parametrize("text", [
    SECTION + packet(0, 7, IP, 300), SECTION + source(101) + block(3, struct.pack("<I", 28) + IP), SECTION + source(101, (14, bytes(4))),
    SECTION + source(101) + packet(1, 7, IP, 300), SECTION + source(101) + block(6, struct.pack("<IIIII", 0, 0, 0, 99, 99) + IP),
    SECTION + source(101, (14, struct.pack("<q", -1))) + packet(0, 0, IP, 300), SECTION[:-1] + b"\1", b"\x0a\x0d\x0d\x0a" + bytes(24), b"PK\x03\x04", b""])
def test_pcapng_that_is_refused(altqwork, tmp_path, text):
    (tmp_path / "a.pcapng").write_bytes(text)
    status, _said, fault = altqwork("convert", tmp_path / "a.pcapng", tmp_path / "made.pcap")
    assert status == 2 and "a.pcapng" in fault


def test_the_program_reads_what_is_made(altqwork, program, tmp_path):
    made = tmp_path / "made.pcap"
    altqwork("convert", data("cooked2.pcapng"), made)
    (tmp_path / "c.conf").write_text("interface if0 bandwidth 8M hfsc\n")
    status, said, _fault = altqwork("late", "--config", tmp_path / "c.conf", made)
    assert status == 0 and re.search(r"^default\n  play +6 +0 ", said, re.M)


@pytest.mark.parametrize("name", ["cooked.pcap", "cooked2.pcapng", "cooked.pcap.gz", "raw.pcap"])
def test_changed_bytes_never_end_but_in_an_answer(altqwork, tmp_path, name):
    with open(data(name), "rb") as file:
        text = file.read()
    for seed in range(150):
        chance, changed = random.Random(f"{name} {seed}"), bytearray(text)
        for _ in range(chance.choice([1, 1, 2, 8])):
            changed[chance.randrange(len(changed))] = chance.choice([0, 1, 255, chance.randrange(256)])
        (tmp_path / "changed").write_bytes(changed)
        status, said, fault = altqwork("convert", tmp_path / "changed", tmp_path / "made.pcap")
        assert (status == 0 and fault == "") or (status == 2 and said == "" and fault.startswith("altqwork: "))


def test_no_capture_is_written_over(altqwork, program, tmp_path):
    raw = classic(101, [(0, IP, 200)])
    (tmp_path / "play").mkdir()
    capture = tmp_path / "play" / "arrivals.pcap"
    capture.write_bytes(raw)
    (tmp_path / "c.conf").write_text("interface if0 hfsc\n")
    for words in (["convert", capture, capture], ["late", "--config", tmp_path / "c.conf", "--keep", tmp_path, capture]):
        status, _said, fault = altqwork(*words)
        assert status == 2 and "written over" in fault and capture.read_bytes() == raw
    (tmp_path / "b.pcap").write_bytes(classic(1, []))
    assert altqwork("late", "--config", tmp_path / "c.conf", "--capture", tmp_path / "b.pcap", tmp_path / "b.pcap")[0] == 2


def test_no_file_and_gzip_of_something_else(altqwork, tmp_path):
    assert altqwork("convert", tmp_path / "none", tmp_path / "made.pcap")[0] == 2
    (tmp_path / "x.gz").write_bytes(gzip.compress(b"hello, this is no capture"))
    assert altqwork("convert", tmp_path / "x.gz", tmp_path / "made.pcap")[0] == 2

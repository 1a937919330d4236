"""`late`: due moments by their definition, worked rows, plays, and the command."""

import gzip
import random
import subprocess

import numpy
import pytest
from conftest import classic, data, example, frames, udp
from hypothesis import example as row
from hypothesis import given, settings
from hypothesis import strategies as some

from altqplay.workbench.conf import Curve, read_conf
from altqplay.workbench.due import BYTE, due_moments
from altqplay.workbench.faults import Refused
from altqplay.workbench.play import answer, play
from altqplay.workbench.plays import Side
from altqplay.workbench.rows import read_fates


def first(curve, wanted):
    """The least time in which a curve gives an amount, or None: in its first piece, never, or in its second piece."""
    if wanted <= curve.m1 * curve.d:
        return -(-wanted // curve.m1) if wanted else 0
    return None if curve.m2 == 0 else curve.d + -(-(wanted - curve.m1 * curve.d) // curve.m2)


def by_definition(curve, packets):
    """The due moment of each packet (arrival, start, length), each opening by itself."""
    found, openings, total, before = [], [], 0, None
    for arrival, start, length in packets:
        if before is None or arrival > before:
            openings.append((arrival, total))
        before, total = start, total + length * BYTE
        times = [first(curve, total - sent) for _at, sent in openings]
        found.append(None if None in times else max(at + time for (at, _sent), time in zip(openings, times)))
    return found


def reckoned(curve, packets):
    columns = [numpy.array(values, dtype=numpy.int64) for values in zip(*packets)] if packets else [numpy.zeros(0, dtype=numpy.int64)] * 3
    moments, has_due = due_moments(curve, *columns)
    return [int(moment) if is_due else None for moment, is_due in zip(moments, has_due)]


SLOPE = some.sampled_from([1, 7, 64_000, 1_000_000, 3_333_333, 40_000_000, 10**12]) | some.integers(1, 10**12)
BEND = some.integers(0, 30).map(lambda d: d * 10**6) | some.integers(0, 10**6).map(lambda d: d * 10**6)
CURVES = some.one_of(
    some.tuples(SLOPE, BEND, SLOPE).map(lambda c: Curve(max(c[0], c[2]), c[1], min(c[0], c[2]))), some.tuples(BEND, SLOPE).map(lambda c: Curve(0, *c)),
    some.tuples(SLOPE, BEND.filter(bool)).map(lambda c: Curve(*c, 0)), some.tuples(SLOPE, SLOPE).map(lambda c: Curve(c[0], 0, c[1])))
STEP = some.integers(0, 3) | some.integers(0, 10**7) | some.integers(0, 10**15)
PACKETS = some.lists(some.tuples(STEP, STEP, some.integers(1, 1514) | some.integers(1, 262_144)), max_size=30)


@settings(max_examples=2000, deadline=None)
@given(CURVES, some.integers(0, 2**62), PACKETS)
@row(Curve(10**12, 10**15, 1), 2**61, [(0, 0, 262_144)] * 30)
def test_due_moments_are_those_of_the_definition(curve, origin, steps):
    packets, arrival, start = [], origin // 2, 0
    for wait, held, length in steps:
        arrival += wait
        start = max(start, arrival) + held
        packets.append((arrival, start, length))
    assert reckoned(curve, packets) == by_definition(curve, packets)


# A curve, packets (arrival, start, length), and when they are due, reckoned by hand. 1,000 bytes are 8*10^12 units.
@pytest.mark.parametrize("curve, packets, due", [
    # 200 bytes at 4,000,000 bits per second take 400,000: docs/reference/HFSC.md, "Voice beside data"
    (Curve(4_000_000, 5_000_000, 1_000_000), [(10_000_000, 10_000_000, 200)], [10_400_000]),
    (Curve(0, 5_000_000, 4_000_000), [(0, 0, 1000), (0, 1_000_000, 1000)], [7_000_000, 9_000_000]),
    # docs/operators/OPERATING.md: two packets of 214 bytes at one moment
    (Curve(1_000_000, 10_000_000, 200_000), [(0, 0, 214), (0, 428_000, 214)], [1_712_000, 3_424_000]),
    # exactly the bend, and a byte more: 8,000 units a nanosecond for 1 ms are 1,000 bytes
    (Curve(8_000_000, 1_000_000, 1_000_000), [(0, 0, 1000)], [1_000_000]), (Curve(8_000_000, 1_000_000, 1_000_000), [(0, 0, 1001)], [1_008_000]),
    (Curve(8_000_000, 1_000_000, 0), [(0, 0, 1000)], [1_000_000]), (Curve(8_000_000, 1_000_000, 0), [(0, 0, 1001)], [None]),
    # the second opens if it arrives later than the first starts, not if at that moment; but the first opening asks for as much
    (Curve(8_000_000, 0, 8_000_000), [(0, 500, 1000), (500, 1_000_500, 1000)], [1_000_000, 2_000_000]),
    (Curve(8_000_000, 0, 8_000_000), [(0, 500, 1000), (1_500_000, 2_500_000, 1000)], [1_000_000, 2_500_000]),
    (Curve(8_000_000, 0, 8_000_000), [(0, 10_000_000, 1000), (10_000_000, 11_000_000, 1000)], [1_000_000, 2_000_000]),
    (Curve(8_000_000, 0, 8_000_000), [(0, 10_000_000, 1000), (10_000_001, 11_000_001, 1000)], [1_000_000, 11_000_001]),
    # a third of a nanosecond is rounded up
    (Curve(3_000_000, 0, 3_000_000), [(0, 0, 1)], [2_667]), (Curve(3_000_000, 0, 3_000_000), [(0, 0, 3)], [8_000])])
def test_worked_rows(curve, packets, due):
    assert reckoned(curve, packets) == due == by_definition(curve, packets)


HEAD = "number,arrival,length,class,fate,start,end\n"


# One packet of 1,000 bytes on a link of 8 Mbit/s is due after 1,000,000, and late if it ends more than 1,000,000 after that.
@pytest.mark.parametrize("end, words, numbers", [
    (1_000_000, [], "1 0 0 0"), (1_000_001, [], "1 1 0 1"), (2_000_000, [], "1 1 0 1000000"), (2_000_001, [], "1 1 1 1000001"),
    (1_000_007, ["--allow", "7"], "1 1 0 7"), (1_000_007, ["--allow", "6"], "1 1 1 7")])
def test_late_at_the_bound(altqwork, program, tmp_path, end, words, numbers):
    (tmp_path / "c.conf").write_text("interface if0 bandwidth 8M hfsc\nclass hfsc if0 root NULL\nclass hfsc if0 a root sc 8M 0 8M default\n")
    (tmp_path / "f.csv").write_text(f"{HEAD}1,0,1000,a,share,{end - 1_000_000},{end}\n")
    status, said, _fault = altqwork("late", "--ns", "--config", tmp_path / "c.conf", "--fates", tmp_path / "f.csv", *words)
    assert said.splitlines()[3].split() == ["play", "1", "0", *[str(end)] * 3, *numbers.split()] and status == int(numbers.split()[2])


def test_the_time_of_the_longest_packet_is_rounded_up(altqwork, program, tmp_path):
    (tmp_path / "c.conf").write_text("interface if0 bandwidth 3M hfsc\nclass hfsc if0 root NULL\nclass hfsc if0 a root sc 1M 0 1M default\n")
    (tmp_path / "f.csv").write_text(HEAD + "1,0,1000,a,share,0,2666667\n2,0,1500,a,full,,\n")
    said = altqwork("late", "--config", tmp_path / "c.conf", "--fates", tmp_path / "f.csv", "--ns")[1]
    assert said.startswith("play: fits; late is what ends more than 2666667 ns after its due moment (longest packet sent: 1000 bytes)")


def two_plays(altqwork, tmp_path, curves, fates, *words):
    """`late` of two plays of class `a` with some curves, by the rows of their fates."""
    for name, curve, rows in zip(("before", "after"), curves, fates):
        (tmp_path / f"{name}.conf").write_text(f"interface if0 bandwidth 8M hfsc\nclass hfsc if0 root NULL\nclass hfsc if0 a root {curve} default\n")
        (tmp_path / f"{name}.csv").write_text(HEAD + rows)
    return altqwork("late", "--before", tmp_path / "before.conf", "--after", tmp_path / "after.conf", "--fates", tmp_path / "before.csv",
                    "--fates", tmp_path / "after.csv", *words)


# Three packets of 1,000 bytes at 0, 5 and 5 ms, the last of which is dropped; and a delay that is ten times as long.
SHORT = "1,0,1000,a,share,0,1000000\n3,5000000,1000,a,full,,\n2,5000000,1000,a,share,5000000,6000000\n"
LONG = "1,0,1000,a,share,9000000,10000000\n3,5000000,1000,a,full,,\n2,5000000,1000,a,share,10000000,11000000\n"


def test_due_moments_that_vanish_are_told(altqwork, program, tmp_path):
    """A class whose real-time curve is taken away is not `0 late`: what it lost is said, its delays stand there, and the status is 1."""
    status, said, _fault = two_plays(altqwork, tmp_path, ("sc 8M 0 8M", "ls 8M 0 8M"), (SHORT, LONG))
    lines = said.splitlines()
    assert status == 1 and "  2 packets have no due moment any more" in lines and "became late" not in said
    assert lines[0].startswith("before: fits; late is what ends more than 1.000 ms after") and lines[1] == "after: fits; no packet has a due moment"
    assert [line.split() for line in lines[2:6]] == [
        ["times", "in", "ms", "packets", "dropped", "median", "99", "in", "100", "greatest", "due", "missed", "late", "worst"], ["a"],
        ["before", "3", "1", "1.000", "1.000", "1.000", "2", "0", "0", "0.000"], ["after", "3", "1", "6.000", "10.000", "10.000", "0", "-", "-", "-"]]


def test_due_moments_that_stay_are_no_loss(altqwork, program, tmp_path):
    status, said, _fault = two_plays(altqwork, tmp_path, ("sc 8M 0 8M", "sc 8M 0 8M"), (SHORT, SHORT))
    assert status == 0 and "no due moment" not in said and "  became late: 0, late no more: 0" in said.splitlines()
    assert two_plays(altqwork, tmp_path, ("ls 8M 0 8M", "sc 8M 0 8M"), (LONG, SHORT))[0] == 0


def test_packets_that_are_dropped_now_lost_no_due_moment(altqwork, program, tmp_path):
    dropped = "3,5000000,1000,a,full,,\n2,5000000,1000,a,full,,\n1,0,1000,a,share,0,1000000\n"
    status, said, _fault = two_plays(altqwork, tmp_path, ("sc 8M 0 8M", "sc 8M 0 8M"), (SHORT, dropped))
    assert status == 0 and "no due moment" not in said and "  dropped now: 1 (2), sent now: 0" in said.splitlines()


@pytest.mark.parametrize("want, status, told", [
    ("a delay<2ms", 1, ["before  kept: 2 packets, the slowest 1.000 ms", "after   broken: 2 of 2 packets, the slowest 10.000 ms"]),
    ("a delay<=10ms", 0, ["before  kept: 2 packets, the slowest 1.000 ms", "after   kept: 2 packets, the slowest 10.000 ms"]),
    ("a drop=0", 1, ["before  broken: 1 of 3 packets dropped", "after   broken: 1 of 3 packets dropped"]),
    # 2,000 bytes are 16,000 bits: in 2 ms and, since both wait from 0 and 5 ms on, till 11 ms
    ("a rate>=2M", 1, ["before  kept: 8.000 Mbit/s over 2 packets", "after   broken: 1.454 Mbit/s over 2 packets"])])
def test_wants(altqwork, program, tmp_path, want, status, told):
    found, said, _fault = two_plays(altqwork, tmp_path, ("ls 8M 0 8M", "ls 8M 0 8M"), (SHORT, LONG), "--want", want)
    assert found == status and said.splitlines()[-4:] == ["wants:", want, *("  " + line for line in told)]


def test_a_want_of_no_class_is_refused(altqwork, program, tmp_path):
    status, said, fault = two_plays(altqwork, tmp_path, ("ls 8M 0 8M", "ls 8M 0 8M"), (SHORT, LONG), "--want", "voip drop=0")
    assert (status, said) == (2, "") and "no configuration has a class voip; there are root, a" in fault


def test_cbq_has_no_columns_of_due_moments(altqwork, program, tmp_path):
    (tmp_path / "c.conf").write_text("interface if0 bandwidth 8M cbq\nclass cbq if0 root NULL pbandwidth 100\nclass cbq if0 a root pbandwidth 50 default\n")
    (tmp_path / "f.csv").write_text(HEAD + "1,0,1000,a,own,0,1000000\n")
    status, said, _fault = altqwork("late", "--config", tmp_path / "c.conf", "--fates", tmp_path / "f.csv")
    assert status == 0 and said.splitlines()[1].split()[-4:] == ["99", "in", "100", "greatest"] and "due moment" in said.splitlines()[0]
    assert said.splitlines()[3].split() == ["play", "1", "0", "1.000", "1.000", "1.000"]


def test_a_damaged_archive_is_refused(altqwork, program, tmp_path):
    """`late` and `report` name a packed capture of which nothing can be read, and end with 2."""
    (tmp_path / "c.conf").write_text("interface if0 hfsc\n")
    whole = gzip.compress(classic(1, [(0, bytes(60), 60)] * 20), mtime=0)
    for place, damaged in enumerate((whole[:12], b"\x1f\x8bno archive", whole[:20] + b"\xff" * 30 + whole[50:])):
        (tmp_path / f"{place}.pcap.gz").write_bytes(damaged)
        for words in (["late"], ["report"]):
            status, said, fault = altqwork(*words, "--config", tmp_path / "c.conf", tmp_path / f"{place}.pcap.gz", *(["x.html"] if words == ["report"] else []))
            assert (status, said) == (2, "") and f"{place}.pcap.gz" in fault


def office(altqwork, tmp_path):
    """The office of docs/operators/OPERATING.md: its capture, and the configuration with a rate for `rest`."""
    subprocess.run(["python3", example("office.py")], check=True, stdout=subprocess.DEVNULL)
    with open(example("office.conf"), encoding="ascii") as file:
        (tmp_path / "new.conf").write_text(file.read().replace("rest root", "rest root [rt 3.6M 0 3.6M]"))
    return example("out/office.pcap"), example("office.conf"), tmp_path / "new.conf"


def test_office(altqwork, program, tmp_path):
    arrivals, before, after = office(altqwork, tmp_path)
    status, said, _fault = altqwork("late", "--before", before, "--after", after, "--rows", tmp_path / "rows.csv", "--capture", tmp_path / "late.pcap",
                                    "--keep", tmp_path / "kept", arrivals)
    lines = said.splitlines()
    assert status == 1 and lines[0].startswith("before: fits; late is what ends more than 3.028 ms ")
    assert lines[1].startswith("after: exceeds at 10000000 by 16000000000000; ")
    rows = {tuple(line.split(",")[:2]): line for line in (tmp_path / "rows.csv").read_text().splitlines()}
    # docs/operators/OPERATING.md: 521 is due at 2,401,712,000 and ends 1,704,000 after that; 477 at 2,288,712,000 and 7,100,000
    assert rows["before", "521"] == "before,521,voice,2400000000,2403416000,2401712000,1704000"
    assert rows["after", "477"] == "after,477,voice,2287000000,2295812000,2288712000,7100000"
    lost = [line.split(",") for line in rows.values() if line.startswith("after") and (line.split(",")[4] == "" or line.split(",")[6] and int(line.split(",")[6]) > 3_028_000)]
    whole = frames(arrivals)
    assert frames(tmp_path / "late.pcap") == [whole[int(line[1]) - 1] for line in lost] and len(lost) == 77 + 7 + 30
    fates = [tmp_path / "kept" / name / "fates.csv" for name in ("before", "after")]
    assert altqwork("late", "--before", before, "--after", after, "--fates", fates[0], "--fates", fates[1], arrivals)[1] == said


def test_any_capture_is_played(altqwork, program, tmp_path):
    (tmp_path / "c.conf").write_text("interface if0 bandwidth 1M hfsc\nclass hfsc if0 root NULL\nclass hfsc if0 a root sc 100K 0 100K default\n")
    status, said, _fault = altqwork("late", "--config", tmp_path / "c.conf", "--overhead", "24", data("raw.pcap"))
    assert status == 0 and "5 packets of raw IP\n24 bytes added to each length\nplay: fits" in said
    assert "longest packet sent: 206 bytes" in said  # 140 of data, 8 + 20 of heads, 14 of Ethernet, 24


PF = """altq on em0 hfsc bandwidth 8Mb queue { voice rest }
queue voice bandwidth 10% hfsc(realtime 1Mb)
queue rest bandwidth 70% hfsc(default)
pass out on em0 inet proto udp from any to any port 5004 queue voice
pass out on em0 inet proto udp from any to any user alice queue voice
"""


def test_a_pf_conf_is_imported(altqwork, program, tmp_path):
    """It has an interface, and what of it was not understood is said."""
    (tmp_path / "pf.conf").write_text(PF)
    (tmp_path / "a.pcap").write_bytes(classic(1, [(0, bytes(12) + b"\x08\x00" + udp(port), 214) for port in (5004, 80, 80)]))
    for words in ([tmp_path / "a.pcap"], ["--arrivals", tmp_path / "a.pcap"]):
        status, said, _fault = altqwork("late", "--config", tmp_path / "pf.conf", *words)
        assert status == 0 and "interfaces" not in said and "not understood: line 5 word 12: user" in said
        assert [line.split()[:3] for line in said.splitlines() if line.startswith("  play")][:2] == [["play", "1", "0"], ["play", "2", "0"]]


def test_no_configuration_is_written_over(altqwork, program, tmp_path):
    (tmp_path / "play").mkdir()
    (tmp_path / "play" / "altq.conf").write_text(PF)
    (tmp_path / "a.pcap").write_bytes(classic(1, []))
    status, _said, fault = altqwork("late", "--config", tmp_path / "play" / "altq.conf", "--keep", tmp_path, tmp_path / "a.pcap")
    assert status == 2 and "written over" in fault and (tmp_path / "play" / "altq.conf").read_text() == PF


def random_play(chance, folder):
    """A configuration and a capture."""
    rate, leaves = chance.choice([64_000, 1_000_000, 8_000_000, 3_333_333, 10**9]), chance.randrange(1, 5)
    lines = [f"interface if0 bandwidth {rate} hfsc", "class hfsc if0 root NULL"]
    for n in range(leaves):
        low, high = sorted(chance.randrange(1, rate) for _ in range(2))
        curve = chance.choice([f"rt {high} {chance.randrange(30)} {low} ", f"rt 0 {chance.randrange(30)} {high} ", f"rt {low // leaves} 0 {low // leaves} ",
                               f"rt {high} {chance.randrange(1, 30)} 0 ", ""])
        limit = f"ul {rate} 0 {rate} " if chance.random() < 0.1 else ""
        lines += [f"class hfsc if0 c{n} root {curve}ls {high} 0 {high} {limit}qlimit {chance.choice([1, 3, 50])}" + " default" * (n == 0)]
        lines += [f"filter if0 c{n} 0 {5000 + n} 0 0 17"]
    at, packets = chance.choice([0, 1764340000 * 10**9]), []
    for _ in range(chance.randrange(80)):
        length = chance.choice([60, 1000, chance.randrange(42, 2000)])
        at += chance.choice([0, 1, chance.randrange(8 * 2000 * 10**9 // rate)])
        packets.append((at, bytes(12) + b"\x08\x00" + udp(5000 + chance.randrange(leaves + 1), length - 14), length))
    (folder / "c.conf").write_text("\n".join(lines) + "\n")
    (folder / "a.pcap").write_bytes(classic(1, packets))


def verified(folder, files):
    """What `altqplay verify` says of a play, the worst of each leaf by its name; None where the program has no such command."""
    words = ["--config", folder / "c.conf", "--interface", "if0", "--arrivals", folder / "a.pcap", "--departures", files.departures, "--fates", files.fates]
    try:
        said = answer(None, ["verify", *map(str, words)])
    except Refused as fault:
        assert "status 2" in str(fault)
        return None
    return {line.split()[0]: line.split()[2] for line in said.splitlines() if " worst " in line}


@pytest.mark.parametrize("seed", range(10))
def test_random_plays(program, tmp_path, seed):
    for run in range(20):
        random_play(random.Random(f"{seed} {run}"), tmp_path)
        files = play(str(tmp_path / "c.conf"), "if0", str(tmp_path / "a.pcap"), str(tmp_path), seed)
        interface, fates = read_conf(str(tmp_path / "c.conf")), read_fates(files.fates)
        side = Side("play", interface, fates)
        assert side.number.tolist() == list(range(1, len(side) + 1))
        for name in side.class_names:
            own = [(int(fates.arrival[n]), int(fates.start[n]), int(fates.length[n]), int(fates.number[n]))
                   for n in range(len(fates)) if fates.is_sent[n] and fates.class_is(name)[n]]
            curve = interface.promised(name)
            due = by_definition(curve, [packet[:3] for packet in own]) if curve else [None] * len(own)
            assert due == [int(side.due[packet[3] - 1]) if side.has_due[packet[3] - 1] else None for packet in own]
        said = verified(tmp_path, files)
        if said is not None:
            due = {name: side.missed[own[side.has_due[own]]] for name in interface.classes if interface.promised(name) for own in [side.class_is(name)]}
            assert said == {name: str(int(missed.max())) if len(missed) else "none" for name, missed in due.items()}
        if interface.fit == "fits":
            assert not side.is_late.any()


@pytest.mark.parametrize("words, why", [
    (["--config", "C"], "name a capture"), (["--before", "C", "A"], "name one configuration"), (["--config", "C", "--before", "C", "--after", "C", "A"], "name one"),
    (["--config", "C", "--fates", "A"], "first row is not number,arrival"), (["--before", "C", "--after", "C", "--fates", "A", "A"], "1 fates for 2"),
    (["--config", "C", "--fates", "F", "--capture", "x"], "--capture needs"), (["--config", "none.conf", "A"], "none.conf"), (["--config", "C", "none.pcap"], "none.pcap"),
    (["--config", "C", "--interface", "if9", "A"], "status 3"), (["--before", "C", "--after", "C", "--fates", "F", "--fates", "G"], "packet 2 stands in one play alone")])
def test_what_is_refused(altqwork, program, tmp_path, words, why):
    head = "number,arrival,length,class,fate,start,end\n1,0,60,default,full,,\n"
    names = {"C": "interface if0 hfsc\n", "F": head, "G": head + "2,0,60,default,full,,\n"}
    for name, text in names.items():
        (tmp_path / name).write_text(text)
    (tmp_path / "A").write_bytes(classic(1, [(0, bytes(60), 60)]))
    status, said, fault = altqwork("late", *(tmp_path / word if word in (*names, "A") else word for word in words))
    assert (status, said) == (2, "") and why in fault

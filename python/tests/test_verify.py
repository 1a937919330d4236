"""`altqplay.verify`: every failure with its place and why, held to the program on changed files."""

import os
import random
import re
import sys

import pandas
import pytest

import altqplay
from conftest import ROOT

sys.path.insert(0, os.path.join(ROOT, "robust"))

import verify_changes  # noqa: E402

CONF = """interface if0 bandwidth 8M hfsc
class hfsc if0 root NULL pshare 100
class hfsc if0 a root [sc 4M 5 1M]
class hfsc if0 b root [sc 0 5 4M] qlimit 2 default
filter if0 a 0 5004 0 0 udp
"""
PACKETS = pandas.DataFrame({"time_ns": [0, 0, 0, 0, 10**7], "length": [1000, 1000, 1000, 1000, 200], "port": [80, 80, 80, 80, 5004]})

pytestmark = pytest.mark.usefixtures("program")


@pytest.fixture
def fates():
    """The fates of a play: 1 and 2 are sent, 3 and 4 find two waiting, 5 goes by real time."""
    return altqplay.play(CONF, PACKETS).fates


def told(found):
    """The row and the test of each failure."""
    return [(one.row, one.packet, one.test) for one in found.failures]


def test_a_play_is_verified(fates):
    found = altqplay.verify(CONF, PACKETS, fates)
    assert found and not found.failures and found.worst == {"a": -200_000, "b": -6_000_000} and found.said.endswith("verified") and found.table.empty


def test_every_failure_is_told_the_earliest_first(fates):
    fates.loc[2, "end"] += 1  # row 3: the first sending
    fates.loc[4, ["start", "end"]] = [10_500_000, 10_700_000]  # row 5: a packet that could go at 10,000,000
    found = altqplay.verify(CONF, PACKETS, fates)
    assert told(found) == [(3, 1, "ends"), (4, 2, "moments"), (5, 5, "busy")]
    first, second, third = found.failures
    assert (first.line, first.found, first.expected) == (4, 1_000_001, 1_000_000) and "1000 bytes" in first.because
    assert (second.found, second.expected) == (1_000_000, "from 1000001 on") and "packet 1" in second.because
    assert (third.found, third.expected) == (10_500_000, 10_000_000)
    assert found.least.test == "moments" and "row 4 kind 5" in found.said and list(found.table["line"]) == [4, 5, 6]


@pytest.mark.parametrize("change, expected", [
    (lambda rows: rows.loc[:1].assign(fate=["full", "full"]), [(3, 1, "each once"), (3, 2, "each once"), (3, 5, "each once")]),
    (lambda rows: rows.iloc[[0, 0, 1, 2, 3, 4]], [(2, 3, "each once"), (2, 3, "order")]),
    (lambda rows: rows.iloc[[1, 0, 2, 3, 4]], [(2, 3, "order")]),
    (lambda rows: rows.assign(fate=["early"] + rows["fate"].tolist()[1:]), [(1, 3, "reading")]),
    (lambda rows: rows.assign(length=[999] + rows["length"].tolist()[1:]), [(1, 3, "reading")]),
    (lambda rows: rows.assign(number=[6] + rows["number"].tolist()[1:]), [(1, 6, "reading"), (6, 3, "each once")])])
def test_each_test_has_its_failure(fates, change, expected):
    assert told(altqplay.verify(CONF, PACKETS, change(fates))) == expected


def test_full_of_a_queue_that_is_not_full(fates):
    # packet 2 waits alone when 3 comes; the program does not test why a packet is dropped
    conf = CONF.replace("qlimit 2", "qlimit 3")
    found = altqplay.verify(conf, PACKETS, fates)
    assert told(found) == [(1, 3, "causes"), (2, 4, "causes")] and found.said.endswith("verified") and found.least is None
    assert found.failures[0].found == "full with 2 waiting" and found.failures[0].expected == "3 waiting"
    found = altqplay.verify(CONF.replace("qlimit 2", "qlimit 1"), PACKETS, fates)
    assert told(found) == [(4, 2, "causes")] and found.failures[0].found == "share with 1 waiting"


def test_foreign_ways_are_named_and_taken_with_a_flag(fates, tmp_path):
    name = str(tmp_path / "theirs.csv")
    fates["fate"] = ["sent" if there else "dropped" for there in fates["end"].notna()]
    floats = fates.assign(start=fates["start"].astype("float64"), end=fates["end"].astype("float64"))
    floats.to_csv(name, index=False, lineterminator="\r\n")
    found = altqplay.verify(CONF, PACKETS, name)
    assert len(found.failures) == 6 and "CRLF" in found.failures[0].because and "foreign=True takes it" in found.failures[1].because
    found = altqplay.verify(CONF, PACKETS, name, foreign=True)
    assert found and found.said.endswith("verified")
    assert [re.sub(r"^\d+ rows?: ", "", one) for one in found.remarks] == [
        "the line ends with CRLF, as Windows and csv of Python write it", "`dropped` tells no rule: it is taken as `full`",
        "start is a float, as pandas makes of a column with empty fields", "end is a float, as pandas makes of a column with empty fields", "`sent` tells no rule: it is taken as `share`"]


@pytest.mark.parametrize("line, text", [
    ("1,0,1000,b,sent,0,1000000", "`sent` tells no rule"), ("1,0,1000,b,share,0,1000000.0", "end is a float"), ("01,0,1000,b,share,0,1000000", "leading zeros"),
    ("1,0,1000,root,share,0,1000000", "no class of this name"), ("1,0,1000,b,full,0,", "no start and no end"), ("1,0,1000,b,gone,,", "no fate"), ("1,0,1000,b", "4 fields")])
def test_each_faulty_row_is_named(line, text):
    name_of = {"b": "share", "a": "share"}
    given = altqplay.givens.given_of(f"number,arrival,length,class,fate,start,end\n{line}\n".encode(), name_of, False)
    assert len(given.failures) == 1 and text in given.failures[0].because and given.failures[0].line == 2


def test_floats_that_have_lost_digits_are_refused():
    moment = 1_700_000_000_123_456_789
    packets = PACKETS.assign(time_ns=PACKETS["time_ns"] + moment)
    fates = altqplay.play(CONF, packets).fates
    with pytest.raises(altqplay.Refused, match="start has floats above 2\\^53"):
        altqplay.verify(CONF, packets, fates.assign(start=fates["start"].astype("float64")))


def test_ends_rounded_for_each_packet():
    conf, packets = "interface if0 bandwidth 3M hfsc", pandas.DataFrame({"time_ns": [0, 0, 0], "length": [100] * 3})
    # 100 bytes take 266,666 2/3 ns; each rounded up by itself ends at multiples of 266,667
    theirs = altqplay.play(conf, packets).fates.assign(start=[0, 266_667, 533_334], end=[266_667, 533_334, 800_001])
    found = altqplay.verify(conf, packets, theirs)
    assert told(found) == [(3, 3, "ends")] and found.failures[0].expected == 800_000 and "each_rounded=True" in found.failures[0].because
    found = altqplay.verify(conf, packets, theirs, each_rounded=True)
    assert found and "1 ends" in found.remarks[0]


def test_departures(tmp_path):
    played = altqplay.play(CONF, PACKETS)
    assert altqplay.verify(CONF, PACKETS, played.fates, played.departures_file)
    with open(played.departures_file, "rb") as file:
        data = file.read()
    coarse, head = tmp_path / "coarse.pcap", bytes.fromhex("d4c3b2a1") + data[4:24]
    records, at = b"", 24
    while at < len(data):
        size = int.from_bytes(data[at + 8:at + 12], "little")
        records += data[at:at + 4] + (int.from_bytes(data[at + 4:at + 8], "little") // 1000).to_bytes(4, "little") + data[at + 8:at + 16 + size]
        at += 16 + size
    coarse.write_bytes(head + records)
    found = altqplay.verify(CONF, PACKETS, played.fates, coarse)
    assert told(found) == [(0, None, "departures")] and "microseconds; foreign=True takes them" in found.failures[0].because
    found = altqplay.verify(CONF, PACKETS, played.fates, coarse, foreign=True)
    assert found and "departures have microseconds" in found.remarks[0]
    cut = tmp_path / "cut.pcap"
    cut.write_bytes(data[:-100])
    assert {one.test for one in altqplay.verify(CONF, PACKETS, played.fates, cut).failures} == {"departures"}


@pytest.mark.parametrize("number", range(int(os.environ.get("ALTQPLAY_PLAYS", "6"))))
def test_the_program_names_the_first_row_of_the_least_test(number, program, tmp_path):
    folder, rng = str(tmp_path), random.Random(f"package {number}")
    verify_changes.draw(rng, number, folder)
    config, capture = (os.path.join(folder, verify_changes.NAMES[name]) for name in ("config", "arrivals"))
    played = altqplay.play(config, capture, seed=number, interface="if0")
    link = verify_changes.link_of(altqplay.check(config, "if0").text + ("fits\n" if altqplay.check(config, "if0").fits else "exceeds at 0 by 1\n"))
    kept = [open(name, "rb").read() for name in (played.fates_file, played.departures_file)]
    for change in range(9):
        fates, departures = kept if change == 0 else verify_changes.changed(rng, link, *kept)
        names = [tmp_path / "f.csv", tmp_path / "d.pcap"]
        names[0].write_bytes(fates)
        names[1].write_bytes(departures)
        found = altqplay.verify(config, capture, names[0], names[1], interface="if0")
        match = re.search(r"not verified, row (\d+) kind (\d)", found.said)
        assert (found.least and (found.least.row, found.least.kind)) == (match and (int(match[1]), int(match[2]))), (change, found, found.said)
        assert change or found, found

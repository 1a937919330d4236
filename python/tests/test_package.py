"""`import altqplay`: plays of tables, exact moments, and refusals with their places."""

import doctest
import importlib
import os
import pkgutil
import subprocess
import sys

import pandas
import pytest

import altqplay
from conftest import ROOT

# An arrival of 2023 that no float of 64 bits holds.
MOMENT = 1_700_000_000_123_456_789
CONF = """interface if0 bandwidth 8M hfsc
class hfsc if0 root NULL pshare 100
class hfsc if0 voice root [sc 4M 5 1M]
class hfsc if0 data root [sc 0 5 4M] qlimit 2 default
filter if0 voice 0 5004 0 0 udp
"""
PACKETS = pandas.DataFrame({"time_ns": [MOMENT] * 4 + [MOMENT + 10_000_000], "length": [1000] * 4 + [200], "port": [80] * 4 + [5004]})

pytestmark = pytest.mark.usefixtures("program")


@pytest.mark.parametrize("name", [f"altqplay.{one.name}" for one in pkgutil.iter_modules(altqplay.__path__)] + ["altqplay.workbench.faults", "altqplay.workbench.figure_plays"])
def test_examples_of_docstrings(name):
    assert doctest.testmod(importlib.import_module(name)).failed == 0


def test_moments_are_exact_where_packets_are_dropped():
    played = altqplay.play(CONF, PACKETS)
    # 1,000 bytes take 1,000,000 ns at 8 Mbit/s; two packets of data may wait, and the one on the link does not wait
    ends = {1: MOMENT + 10**6, 2: MOMENT + 2 * 10**6, 5: MOMENT + 10**7 + 200_000}
    sent = played.fates[played.fates["end"].notna()]
    assert dict(zip(sent["number"].tolist(), sent["end"].tolist())) == ends
    assert str(played.fates["end"].dtype) == "Int64" and played.fates["start"].isna().sum() == 2
    lost = pandas.read_csv(played.fates_file)["end"].dropna().astype("int64").tolist()
    assert set(lost) != set(ends.values())
    assert played.departures[["number", "end"]].values.tolist() == [[number, end] for number, end in ends.items()]
    assert [frame[36:38] for frame in played.departures["bytes"]] == [b"\x00\x50", b"\x00\x50", b"\x13\x8c"]


def test_tables_of_a_play():
    played = altqplay.play(CONF, PACKETS)
    assert played.stats.set_index("class").loc["data", ["arrived", "sent", "full"]].tolist() == [4, 2, 2]
    assert played.delays().set_index("class").loc["data", ["packets", "dropped", "greatest"]].tolist() == [4, 2, 2_000_000]
    late = played.late().set_index("number")
    assert late.loc[5, "missed"] == -200_000 and pandas.isna(late.loc[4, "due"]) and not late["late"].any()
    assert played.late(-300_000).set_index("number").loc[5, "late"]
    assert "it goes by real time" in played.why(5) and str(MOMENT + 10**7) in played.why(5, story=False)
    decisions = played.decisions()
    assert decisions["moment"].tolist()[-1] == MOMENT + 10**7 and set(decisions["decided"]) == {"kept", "full", "share", "realtime"}
    with pytest.raises(altqplay.Refused, match="no packet 6"):
        played.why(6)


def test_a_capture_of_a_play_is_played_alike(tmp_path):
    played = altqplay.play(CONF, PACKETS)
    played.save(str(tmp_path))
    again = altqplay.play(tmp_path / "altq.conf", altqplay.capture(tmp_path / "arrivals.pcap")[["time_ns", "length", "bytes"]])
    assert again.fates.equals(played.fates) and again.fates.equals(altqplay.fates(tmp_path / "fates.csv"))


@pytest.mark.parametrize("conf, packets, expected", [
    (CONF.replace("8M", "9"), PACKETS, {"status": 3, "line": 1, "word": 4, "kind": 4, "name": "RateRange"}),
    (CONF.replace("root [sc 4M", "rot [sc 4M"), PACKETS, {"status": 3, "line": 3, "word": 5, "kind": 12, "name": "NoParent"}),
    (CONF, __file__, {"status": 4, "place": 0, "kind": 2, "name": "BadMagic"}),
    (CONF, "none.pcap", {"status": 5, "kind": 2, "name": "arrivals"})])
def test_refusals_have_their_place(conf, packets, expected):
    with pytest.raises(altqplay.Refused) as caught:
        altqplay.play(conf, packets)
    assert {name: getattr(caught.value, name) for name in expected} == expected
    assert caught.value.hint and caught.value.message.startswith("altqplay: ") and "/altqplay-" not in str(caught.value)


@pytest.mark.parametrize("columns, text", [
    ({"time_ns": [0.5], "length": [60]}, "time_ns: floats"), ({"time_ns": [float(2**60)], "length": [60]}, "time_ns: floats"),
    ({"time_ns": [0], "length": [-1]}, "length: row 0 is below 0"), ({"time_ns": [0]}, "length is missing"), ({"length": [60]}, "time_ns is missing"),
    ({"time_ns": [0], "length": [60], "colour": [1]}, "no column colour"), ({"time_ns": [0], "length": [20]}, "does not hold its headers"),
    ({"time_ns": [0], "length": [100], "src": ["here"]}, "here"), ({"time_ns": [0], "length": [100], "port": [70000]}, "ports below 65536"),
    ({"time_ns": [None], "length": [60]}, "row 0 has no value"), ({"time_ns": [2**62], "length": [60]}, "2\\^32 seconds")])
def test_faulty_tables(columns, text):
    with pytest.raises(altqplay.Refused, match=text):
        altqplay.play(CONF, pandas.DataFrame(columns))


def test_flows_of_a_table_are_those_of_the_filters():
    conf = "\n".join(["interface if0 bandwidth 8M hfsc", "class hfsc if0 root NULL pshare 100", *(f"class hfsc if0 {name} root pshare 10" for name in "abc"),
                      "class hfsc if0 d root pshare 10 default", "filter if0 a 0 0 10.1.2.3 0 0", "filter if0 b 0 443 0 0 tcp", "filter6 if0 c fd00::1/128 0 0 0 0"])
    table = pandas.DataFrame({"time_ns": range(4), "length": [100] * 4, "src": ["10.1.2.3", "10.0.0.9", "fd00::2", "10.0.0.9"],
                              "dst": ["10.0.0.2", "10.0.0.2", "fd00::1", "10.0.0.2"], "proto": ["udp", "tcp", "udp", "udp"], "port": [1, 443, 3, 443]})
    fates = altqplay.play(conf, table).fates.sort_values("number")
    assert fates["class"].tolist() == ["a", "b", "c", "d"]


def test_make_check_shares_chain_condition():
    assert altqplay.make(10, CONF, seed=7).stats.iloc[-1]["arrived"] == 10
    steep = altqplay.check(CONF.replace("[sc 4M 5 1M]", "[sc 6M 10 1M]").replace("[sc 0 5 4M]", "[sc 6M 10 1M]"))
    assert (steep.fits, steep.exceeds_at, steep.exceeds_by) == (False, 10_000_000, 40_000_000_000_000)  # as docs/reference/FORMATS.md has it
    assert altqplay.check(CONF).fits and altqplay.check(CONF).classes["name"].tolist() == ["root", "voice", "data"]
    lines = CONF.replace("[sc 4M 5 1M]", "pshare 25").replace("[sc 0 5 4M]", "pshare 75")
    assert altqplay.shares(lines, PACKETS)[["first", "second"]].values.tolist() == [["voice", "data"]]
    assert altqplay.shares(CONF, PACKETS)["bound"].isna().all()
    chain = altqplay.chain(CONF, PACKETS, "if0", interface="if0")
    assert chain.path["outcome"].tolist() == ["sent", "sent", "dropped1", "dropped1", "sent"] and chain.path["end"].tolist()[0] == MOMENT + 2 * 10**6
    marked = altqplay.condition(CONF + "conditioner if0 data srtcm 8M 1000 0 1\n", PACKETS)
    assert marked["tos"].tolist()[:2] == [10 << 2, 14 << 2]  # AF11 is code point 10, AF13 is 14 (RFC 2597)


def test_the_program_is_named_with_its_version(program, monkeypatch):
    assert altqplay.program().path == program
    monkeypatch.setenv("ALTQPLAY", "/no/such/program")
    with pytest.raises(altqplay.Missing, match="/no/such/program"):
        altqplay.play(CONF, PACKETS)


def test_import_says_nothing_and_needs_no_program():
    done = subprocess.run([sys.executable, "-B", "-c", "import altqplay; print(altqplay.__version__)"], cwd=os.path.join(ROOT, "python"), env={"PATH": "/nowhere"}, capture_output=True, check=False)
    assert done.returncode == 0 and done.stdout.strip() and not done.stderr


@pytest.mark.parametrize("page", ["PYTHON.md", "SWEEPS.md"])
def test_examples_of_pages(page):
    assert doctest.testfile(os.path.join(ROOT, "docs", "teaching", page), module_relative=False).failed == 0

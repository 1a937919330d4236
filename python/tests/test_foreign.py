"""Fates of other programs on the command line: each way in which a row is foreign is named, and taken with a flag, by `verify`, `compare`,
`why`, `gap` and `delays` alike."""

import altqplay
import pandas
import pytest
from altqplay.workbench.foreign import float_of, plain_row, tidied

CONF = """interface if0 bandwidth 8M hfsc
class hfsc if0 root NULL pshare 100
class hfsc if0 a root pshare 50
class hfsc if0 b root pshare 50 qlimit 2 default
filter if0 a 0 5004 0 0 udp
"""
PACKETS = pandas.DataFrame({"time_ns": [0, 0, 0, 0, 0], "length": [1000] * 5, "port": [80, 80, 80, 5004, 5004]})
HEAD = "number,arrival,length,class,fate,start,end"
WAYS = {"CRLF": "the line ends with CRLF", "quotes": "quotes", "floats": "is a float", "words": "tells no rule"}

pytestmark = pytest.mark.usefixtures("program")


@pytest.fixture
def files(tmp_path):
    """A configuration, a capture, departures and fates of a play, and these as other programs write them."""
    played = altqplay.play(CONF, PACKETS)
    played.save(tmp_path)
    fates = played.fates
    named = fates.assign(fate=["sent" if there else "dropped" for there in fates["end"].notna()])
    floats = fates.assign(start=fates["start"].astype("float64"), end=fates["end"].astype("float64"))
    plain = (tmp_path / "fates.csv").read_text()
    texts = {"CRLF": plain.replace("\n", "\r\n"), "quotes": plain.replace(",a,", ',"a",').replace(",b,", ',"b",'), "floats": floats.to_csv(index=False), "words": named.to_csv(index=False),
             "all": named.assign(start=floats["start"], end=floats["end"]).to_csv(index=False).replace("\n", "\r\n").replace(",a,", ',"a",')}
    for name, text in texts.items():
        (tmp_path / f"{name}.csv").write_text(text, newline="")
    return tmp_path


def commands(files, name):
    """The five commands over a file of fates."""
    conf, capture, plain, theirs = (files / one for one in ("altq.conf", "arrivals.pcap", "fates.csv", f"{name}.csv"))
    return {"verify": ["verify", "--config", conf, "--arrivals", capture, theirs], "compare": ["compare", "--ignore-rule", plain, theirs], "why": ["why", "--packet", "4", theirs, conf],
            "gap": ["gap", "--config", conf, "--fates", theirs], "delays": ["delays", plain, theirs]}


# What a command takes without the flag, since it asks for nothing that such a row lacks.
TAKEN = {("compare", "CRLF"), ("compare", "quotes"), ("compare", "words"), ("why", "words")}


@pytest.mark.parametrize("way", WAYS)
@pytest.mark.parametrize("command", ["verify", "compare", "why", "gap", "delays"])
def test_each_way_is_named_and_taken_with_the_flag(command, way, files, altqwork):
    name, *words = commands(files, way)[command]
    status, said, fault = altqwork(name, *words)
    if (command, way) in TAKEN:
        assert status == 0, fault
    else:
        assert status == (1 if command == "verify" else 2) and WAYS[way] in said + fault and "--foreign takes it" in said + fault
    assert altqwork(name, "--foreign", *words)[0] == 0


@pytest.mark.parametrize("command", ["verify", "compare", "why", "gap", "delays"])
def test_all_ways_at_once_say_the_same(command, files, altqwork):
    (name, *plain), (_name, *theirs) = (commands(files, which)[command] for which in ("fates", "all"))
    ours, found = altqwork(name, *plain), altqwork(name, "--foreign", *theirs)
    assert found[0] == ours[0] == 0
    if command == "verify":
        assert "verified\n  " in found[1] and "`dropped` tells no rule: it is taken as `full`" in found[1] and found[1].endswith("the program: verified\n")
    else:
        assert found[1].replace("all.csv", "fates.csv").splitlines()[-1] == ours[1].splitlines()[-1]


@pytest.mark.parametrize("command", ["verify", "compare", "why", "gap", "delays"])
def test_floats_that_have_lost_digits_are_never_taken(command, files, altqwork):
    text = (files / "fates.csv").read_text().replace(",1000000\n", ",1700000000123456789.0\n")
    (files / "lost.csv").write_text(text)
    name, *words = commands(files, "lost")[command]
    status, said, fault = altqwork(name, "--foreign", *words)
    assert status in (1, 2) and "has lost digits" in said + fault and "takes it" not in fault


def test_a_row_of_no_fate_is_refused_with_the_flag_too(files, altqwork):
    (files / "odd.csv").write_text(f"{HEAD}\r\n1,0,1000,b,gone,,\r\n")
    for name, *words in commands(files, "odd").values():
        status, said, fault = altqwork(name, "--foreign", *words)
        assert status in (1, 2) and "no fate" in said + fault


def rounded(files):
    """A play on 3 Mbit/s whose ends are rounded packet by packet: 100 bytes take 266,666 2/3 ns."""
    conf, packets = "interface if0 bandwidth 3M hfsc\n", pandas.DataFrame({"time_ns": [0, 0, 0], "length": [100] * 3})
    played = altqplay.play(conf, packets)
    played.save(files)
    ends = [266_667, 533_334, 800_001]
    played.fates.assign(start=[0, *ends[:2]], end=ends).to_csv(files / "ns3.csv", index=False)


def test_ends_that_are_rounded_packet_by_packet(tmp_path, altqwork):
    rounded(tmp_path)
    found = commands(tmp_path, "ns3")
    for name, words in (("verify", found["verify"]), ("why", found["why"][:1] + found["why"][3:]), ("compare", ["compare", "--foreign", "--bandwidth", "3000000", *found["compare"][1:]])):
        status, said, _fault = altqwork(*words)
        assert status == 1 and "packet alone, rounded, as ns-3 has it" in said and "--each-rounded takes it" in said, name
        status, said, _fault = altqwork(*words, "--each-rounded")
        assert "--each-rounded takes it" not in said and status == (name == "compare")  # one packet ends 1 ns later than ours
    assert "plain tests of the second (order, starts, one packet at a time, ends): none fail" in said
    for name in ("gap", "delays"):
        assert altqwork(*found[name])[0] == (name == "delays")


def test_why_does_not_take_an_end_of_no_rounding(tmp_path, altqwork):
    rounded(tmp_path)
    text = (tmp_path / "ns3.csv").read_text().replace("800001", "800002")
    (tmp_path / "odd.csv").write_text(text)
    status, said, _fault = altqwork("why", "--each-rounded", tmp_path / "odd.csv", tmp_path / "altq.conf")
    assert status == 1 and "800001" in said and "as ns-3" not in said


def test_verify_by_the_command_line(files, altqwork):
    words = commands(files, "fates")["verify"]
    assert altqwork(*words, "--departures", files / "departures.pcap")[:2] == (0, f"{files / 'fates.csv'}: verified\nthe program: verified\n")
    (files / "late.csv").write_text((files / "fates.csv").read_text().replace(",1000000\n", ",1000001\n"))
    status, said, _fault = altqwork(*commands(files, "late")["verify"], "--rows", files / "rows.csv", "--shown", "1")
    assert status == 1 and said.splitlines()[:3] == [
        f"{files / 'late.csv'}: not verified, 2 failures:",
        "  line 3 (row 2), packet 4, ends: 1000001, expected 1000000: 1000 bytes of the run since 0 take 1000000 ns at 8000000 bits per second, rounded up once", "  and 1 more"]
    assert said.splitlines()[-2] == "the program: altqplay: not verified, row 3 kind 5" and said.splitlines()[-1].startswith(f"{files / 'late.csv'}: row 3: the start is")
    rows = pandas.read_csv(files / "rows.csv")
    assert rows["line"].tolist() == [3, 4] and rows["test"].tolist() == ["ends", "moments"]
    assert altqwork("verify", "--config", files / "altq.conf", "--arrivals", files / "arrivals.pcap", files / "none.csv")[0] == 2


def test_the_package_reads_foreign_fates_too(files):
    with pytest.raises(altqplay.Refused, match="CRLF.*; foreign=True takes it"):
        altqplay.fates(files / "CRLF.csv")
    assert altqplay.fates(files / "all.csv", foreign=True)["end"].tolist() == altqplay.fates(files / "fates.csv")["end"].tolist()
    with pytest.raises(altqplay.Refused, match="start is a float.*; foreign=True takes it"):
        altqplay.compare(files / "fates.csv", files / "floats.csv")
    assert altqplay.compare(files / "fates.csv", files / "all.csv", rules=False, foreign=True)


def test_words_as_they_are_tidied():
    assert [float_of(word) for word in ("214000.0", "1e3", "2.5", "9007199254740993.0", "1e400", "12", "")] == [214_000, 1000, None, None, None, None, None]
    assert plain_row("1,0,60,a,share,0,9") == (["1", "0", "60", "a", "share", "0", "9"], [])
    assert tidied(b'\xef\xbb\xbf"number", "arrival"\r\n1,0,60,a,dropped,,') == b"number,arrival\n1,0,60,a,full,,\n"
    assert tidied(b"") == b"\n" and tidied(b"number\n\n") == b"number\n\n"

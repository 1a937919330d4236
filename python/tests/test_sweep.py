"""`sweep`: the grid, what a setting does to a configuration, and a sweep that goes on."""

import csv
import json
import os

import pytest

from altqplay.workbench import sweep
from altqplay.workbench.captures import Record, write_ethernet
from altqplay.workbench.cli import main
from altqplay.workbench.faults import Missing, Refused
from altqplay.workbench.play import program

CONF = """interface if0 bandwidth 8M hfsc
class hfsc if0 root NULL pshare 100
class hfsc if0 a \\
    root [sc 1M 0 1M]   # calls
class hfsc if0 b root pshare 50 default
"""


def test_settings_are_a_grid():
    grid = sweep.settings_of(["a rt=1M,2M", "bandwidth=8M,9M,10M"])
    assert len(grid) == 6 and grid[0] == ((("a", "rt"), "1M"), ((None, "bandwidth"), "8M"))
    assert sweep.settings_of([]) == [()]
    assert sweep.label(grid[5]) == "a rt=2M; bandwidth=10M" and sweep.label(()) == "-"


@pytest.mark.parametrize("text", ["a rt", "a rt=", "rt=1M", "a colour=red", "a bandwidth=1M", "a b rt=1M", "a rt=1M/2", "a rt=1M,1M/2/3/4"])
def test_faulty_settings(text):
    with pytest.raises(Refused, match="--set"):
        sweep.settings_of([text])


@pytest.mark.parametrize("settings, line", [
    ([(("a", "rt"), "2M")], "class hfsc if0 a root sc 1M 0 1M rt 2M 0 2M"),
    ([(("a", "qlimit"), "9")], "class hfsc if0 a root sc 1M 0 1M qlimit 9"),
    ([((None, "bandwidth"), "9M")], "interface if0 bandwidth 8M hfsc bandwidth 9M"),
    ([(("a", "rt"), "3M/10/1500K")], "class hfsc if0 a root sc 1M 0 1M rt 3M 10 1500K"),
    ([(("a", "ul"), "3M"), (("a", "qlimit"), "7")], "class hfsc if0 a root sc 1M 0 1M ul 3M 0 3M qlimit 7"),
])
def test_setting_stands_behind_what_it_replaces(settings, line):
    lines = sweep.changed(CONF, "if0", settings, "x.conf").split("\n")
    assert line in lines and "class hfsc if0 b root pshare 50 default" in lines


@pytest.mark.parametrize("of, interface", [("c", "if0"), ("a", "if1"), (None, "if1")])
def test_setting_of_no_class(of, interface):
    with pytest.raises(Refused, match="x.conf"):
        sweep.changed(CONF, interface, [((of, "rt" if of else "bandwidth"), "2M")], "x.conf")


def test_seeds():
    assert sweep.numbers("1,5-7,2-2") == [1, 5, 6, 7, 2]
    for text in ("", "x", "3-1", "1,", "-1"):
        with pytest.raises(Refused, match="--seeds"):
            sweep.numbers(text)


@pytest.fixture
def place(tmp_path):
    """A folder with a configuration and two captures: two and three packets of 1,000 bytes at 0."""
    try:
        program()
    except Missing:
        pytest.skip("there is no program")
    (tmp_path / "altq.conf").write_text(CONF)
    for name, count in (("two", 2), ("three", 3)):
        write_ethernet(str(tmp_path / f"{name}.pcap"), [Record(0, bytes(60), 1000, 1)] * count)
    return tmp_path


def swept(place, *words, status=0):
    """The rows of the table of a sweep, and the lines of what is kept."""
    into = place / "results"
    asked = ["sweep", "--no-plot", "--into", str(into), *words, str(place / "altq.conf"), "--arrivals", str(place / "two.pcap")]
    assert main(asked + [str(place / "three.pcap")]) == status
    with open(into / "table.csv", newline="", encoding="utf-8") as file:
        rows = list(csv.reader(file))
    assert rows[0] == sweep.HEAD
    return rows[1:]


def test_table(place):
    """On 8 and 4 Mbit/s 1,000 bytes take 1 and 2 ms; of two delays the first is the median, of three the second."""
    rows = [row[1:] for row in swept(place, "--set", "bandwidth=8M,4M", "--seeds", "1-2") if row[4] == "b"]
    assert len(rows) == 8
    assert rows[0] == ["bandwidth=8M", "two.pcap", "1", "b", "2", "0", "1000000", "2000000", "2000000", "ok"]
    assert rows[7] == ["bandwidth=4M", "three.pcap", "2", "b", "3", "0", "4000000", "6000000", "6000000", "ok"]


def test_wants(place, capsys):
    """Two packets of one moment take 1 and 2 ms on 8 Mbit/s, and 2 and 4 ms on 4 Mbit/s, at 8 and 4 Mbit/s; three take 3 and 6 ms."""
    asked = ["--set", "bandwidth=8M,4M", "--want", "b delay<2.5ms", "--want", "b rate>=8M"]
    assert main(["sweep", "--no-plot", "--into", str(place / "w"), *asked, str(place / "altq.conf"), "--arrivals", str(place / "two.pcap"), str(place / "three.pcap")]) == 1
    assert capsys.readouterr().out.endswith("4 runs, 0 failed, 3 break a want\n")
    with open(place / "w" / "table.csv", newline="", encoding="utf-8") as file:
        rows = [row for row in csv.DictReader(file) if row["class"] == "b"]
    assert [(row["wants"], row["broken"], row["answer"]) for row in rows] == [
        ("delay<2.5ms kept: 2 packets, the slowest 2.000 ms; rate>=8M kept: 8.000 Mbit/s over 2 packets", "0", "ok"),
        ("delay<2.5ms broken: 1 of 3 packets, the slowest 3.000 ms; rate>=8M kept: 8.000 Mbit/s over 3 packets", "1", "ok"),
        ("delay<2.5ms broken: 1 of 2 packets, the slowest 4.000 ms; rate>=8M broken: 4.000 Mbit/s over 2 packets", "2", "ok"),
        ("delay<2.5ms broken: 2 of 3 packets, the slowest 6.000 ms; rate>=8M broken: 4.000 Mbit/s over 3 packets", "2", "ok")]


@pytest.mark.parametrize("want, status", [("b drop=0", 0), ("a drop=0", 1), ("root drop=0", 1), ("c drop=0", 2)])
def test_a_want_is_kept_or_not_tested_or_of_no_class(place, want, status):
    words = ["sweep", "--no-plot", "--into", str(place / "w"), "--want", want, str(place / "altq.conf"), "--arrivals", str(place / "two.pcap")]
    assert main(words) == status
    assert main(words) == status  # and so is what is kept of it


def test_drops_are_counted(place):
    """With a limit of 1 the second packet of one moment is dropped, and so is the third."""
    rows = [row for row in swept(place, "--set", "b qlimit=1") if row[4] == "b"]
    assert [row[5:7] for row in rows] == [["2", "1"], ["3", "2"]]


def test_curves_of_two_slopes(place):
    """By real time `a` is due first: 4 Mbit/s for 2 ms are a packet of 1,000 bytes, which then waits for no other."""
    assert [row[-1] for row in swept(place, "--set", "a rt=4M/2/1M,0/5/2M")] == ["ok"] * 8


def test_only_classes_that_hold_packets(place):
    """The root holds none, nor does an inner class; of CBQ a class with children may, and does where its packets came."""
    assert {row[4] for row in swept(place)} == {"a", "b"}
    (place / "altq.conf").write_text("interface if0 bandwidth 8M cbq\nclass cbq if0 root NULL pbandwidth 100\nclass cbq if0 x root pbandwidth 50\n"
                                     "class cbq if0 y root pbandwidth 40 borrow default\nclass cbq if0 z y pbandwidth 20\nclass cbq if0 w x pbandwidth 20\n")
    assert {row[4] for row in swept(place)} == {"y", "z", "w"}


def test_run_that_fails_is_a_row(place):
    rows = swept(place, "--set", "b pshare=50,0", status=1)
    failed = [row for row in rows if row[-1] != "ok"]
    assert len(failed) == 2 and failed[0][1] == "b pshare=0" and "BadNumber" in failed[0][-1]


def test_goes_on(place, monkeypatch):
    """Of four runs the last is lost with half of the third's line: two are made again, and a third time none."""
    whole = swept(place, "--seeds", "1-2")
    kept = place / "results" / "runs.jsonl"
    lines = [line for line in kept.read_text().split("\n") if line]
    assert len(lines) == 4
    kept.write_text("\n".join(lines[:2]) + "\n" + lines[2][:30])
    assert swept(place, "--seeds", "1-2") == whole
    assert len({json.loads(line)["key"] for line in kept.read_text().split("\n") if line.endswith("}")}) == 4
    monkeypatch.setattr(sweep, "played", None)
    assert swept(place, "--seeds", "1-2") == whole


def test_only_what_is_done_is_kept(tmp_path):
    kept = tmp_path / "runs.jsonl"
    done, failed = ["b", 1, 0, 5, 5, 5, "ok"], ["-", "", "", "", "", "", "out of memory"]
    kept.write_text(json.dumps({"key": "x", "rows": [done]}) + "\n" + json.dumps({"key": "y", "rows": [failed]}) + "\n")
    assert sweep.finished(str(kept)) == {"x": [done]} and sweep.finished(str(tmp_path / "none")) == {}


def test_another_capture_is_played_again(place):
    before = swept(place)
    write_ethernet(str(place / "two.pcap"), [Record(0, bytes(60), 500, 1)] * 2)
    assert [row[9] for row in before if row[4] == "b"] == ["2000000", "3000000"]
    assert [row[9] for row in swept(place) if row[4] == "b"] == ["1000000", "3000000"]


def test_plot(place):
    pytest.importorskip("plotly")
    assert main(["sweep", "--into", str(place / "out"), str(place / "altq.conf"), "--arrivals", str(place / "two.pcap")]) == 0
    page = (place / "out" / "plot.html").read_text()
    assert "greatest delay, ms" in page and "<script src" not in page


def test_a_class_has_one_colour(tmp_path):
    """In both plots, for the marks and for the lines; two classes have two."""
    pytest.importorskip("plotly")
    rows = [["c", "-", "a.pcap", 42, name, 3, 0, 1, 2, 3, "ok"] for name in ("a", "b", "c")]
    sweep.plot(str(tmp_path / "p.html"), rows)
    page = (tmp_path / "p.html").read_text()
    data = json.JSONDecoder().raw_decode(page[page.rindex('[{"legendgroup"'):])[0]
    colours = {trace["name"]: {trace["marker"]["color"], trace["line"]["color"]} for trace in data}
    for trace in data:
        assert {trace["marker"]["color"], trace["line"]["color"]} == colours[trace["name"]] and len(colours[trace["name"]]) == 1
    assert len(data) == 6 and len({next(iter(found)) for found in colours.values()}) == 3


def test_missing_capture(place, capsys):
    assert main(["sweep", str(place / "altq.conf"), "--arrivals", str(place / "none.pcap")]) == 2
    assert "none.pcap" in capsys.readouterr().err and not os.path.exists("sweep")

"""`compare` and the skeletons: rows reckoned by hand, tests of journals at their thresholds, and FIFO against the program."""

import os
import random
import subprocess
import sys

import pytest

from altqplay.workbench import journals
from altqplay.workbench.captures import Record, write_ethernet
from altqplay.workbench.cli import main
from altqplay.workbench.faults import Missing, Refused
from altqplay.workbench.play import play, program
from altqplay.workbench.rows import Fate

HEAD = "number,arrival,length,class,fate,start,end\n"
SKELETONS = os.path.join(os.path.dirname(os.path.dirname(os.path.abspath(__file__))), "skeletons")
# docs/authors/COMPARING.md, "How to compare": two sendings have changed places.
OURS = HEAD + """1,0,1000,a,share,0,1000000
2,10000000,1000,b,share,10000000,11000000
3,10000000,1000,b,share,11000000,12000000
4,10000000,1000,b,share,12000000,13000000
6,12500000,1000,a,share,13000000,14000000
5,10000000,1000,b,share,14000000,15000000
7,12500000,1000,a,share,15000000,16000000
"""
THEIRS = OURS.replace("b,share,14000000,15000000", "b,sent,15000000,16000000").replace("a,share,15000000,16000000", "a,sent,14000000,15000000")


@pytest.fixture
def files(tmp_path):
    """Both journals as files."""
    (tmp_path / "ours.csv").write_text(OURS)
    (tmp_path / "theirs.csv").write_text(THEIRS)
    return str(tmp_path / "ours.csv"), str(tmp_path / "theirs.csv")


def test_first_difference(files, capsys):
    assert main(["compare", "--first", "--ignore-rule", *files]) == 1
    said = capsys.readouterr().out
    assert "changed fate: 0 of 7 packets" in said
    assert "  of those sent in both: 1 earlier, 5 the same, 1 later" in said
    assert said.endswith("""first difference: decision 6, at 14000000
  first  5,10000000,1000,b,sent,14000000,15000000
  second 7,12500000,1000,a,sent,14000000,15000000
  waits in b: 5
  waits in a: 7
""")


def test_rules_are_told_apart(files, capsys):
    main(["compare", *files])
    assert "changed fate: 2 of 7 packets\n  share -> sent: 2 (5 7)" in capsys.readouterr().out


def test_nothing_differs(files, capsys):
    assert main(["compare", "--first", files[0], files[0]]) == 0
    assert capsys.readouterr().out.endswith("first difference: none\n")


def test_late_at_its_threshold(files, capsys):
    """Packet 5 takes 5,000,000 in the first and 6,000,000 in the second."""
    main(["compare", "--late", "5999999", *files])
    assert "later than 5999999 ns: 0 in the first, 1 in the second\n  became late: 1 (5)" in capsys.readouterr().out
    main(["compare", "--late", "6000000", *files])
    assert "later than 6000000 ns: 0 in the first, 0 in the second\n  became late: 0" in capsys.readouterr().out


def test_one_class(files, capsys):
    main(["compare", "--ignore-rule", "--class", "a", *files])
    assert "changed fate: 0 of 3 packets" in capsys.readouterr().out


def test_foreign_journal(files, capsys):
    assert main(["compare", "--foreign", "--bandwidth", "8000000", "--ignore-rule", *files]) == 1
    assert "one packet at a time, ends): none fail; this is no proof" in capsys.readouterr().out


# A program that has no command `verify`, as the first releases, and one that refutes.
@pytest.mark.parametrize("answer, said, status", [
    ("exit 2", "plain tests of the second (order, starts, one packet at a time, ends): none fail; this is no proof", 0),
    ("echo verified", "altqplay verify: verified", 0),
    ("echo 'row 3 kind 6'; exit 10", "altqplay verify: line 4 (row 3) kind 6", 1),
])
def test_verify_is_asked_where_it_is(files, tmp_path, capsys, answer, said, status):
    (tmp_path / "fake").write_text(f"""#!/bin/sh
case $1 in
check) printf '%s\\n' 'interface if0 bandwidth 8000000 hfsc' fits;;
*) {answer};;
esac
""")
    os.chmod(tmp_path / "fake", 0o755)
    (tmp_path / "altq.conf").write_text("interface if0 hfsc\n")
    write_ethernet(str(tmp_path / "a.pcap"), [Record(0, bytes(60), 1000, 1)] * 7)
    assert main(["compare", "--foreign", "--program", str(tmp_path / "fake"), "--config", str(tmp_path / "altq.conf"), "--arrivals",
                 str(tmp_path / "a.pcap"), files[0], files[0]]) == status
    assert said in capsys.readouterr().out


def journal(*fates):
    """A journal of fates that are told by number, class, arrival, start and end; each has 1,000 bytes."""
    return {number: Fate(number, arrival, 1000, name, "sent", start, end) for number, name, arrival, start, end in fates}


@pytest.mark.parametrize("fates, odd", [
    ([(1, "a", 0, 0, 1000000), (2, "a", 0, 1000000, 2000000)], []),
    ([(1, "a", 0, 1000000, 2000000), (2, "a", 0, 0, 1000000)], [1]),
    ([(1, "a", 0, 1000000, 2000000), (2, "b", 0, 0, 1000000)], []),
    ([(1, "a", 5, 5, 1000005)], []),
    ([(1, "a", 6, 5, 1000005)], [1]),
    ([(1, "a", 0, 0, 1000000), (2, "a", 0, 999999, 1999999)], [2]),
    ([(1, "a", 0, 0, 1000001)], [1]),
    ([(1, "a", 0, 0, 999999)], [1]),
])
def test_faults(fates, odd):
    """On 8 Mbit/s 1,000 bytes take 1,000,000 ns."""
    assert [fate.number for fate, _ in journals.faults(journal(*fates), 8 * 10**6)] == odd


def test_drop_is_decided_before_a_sending_of_its_moment():
    sent = Fate(1, 0, 1000, "a", "sent", 5, 1000005)
    dropped = Fate(2, 5, 1000, "a", "dropped", None, None)
    assert journals.by_moment({1: sent, 2: dropped}) == [dropped, sent]


def test_fraction_of_a_run():
    """On 3 Mbit/s 100 bytes take 266,666 2/3 ns, and the run is rounded up once (docs/authors/COMPARING.md, "The carried fraction")."""
    ends = [(1, 0, 266667), (2, 266667, 533334), (3, 533334, 800000), (4, 1000000, 1266667)]
    found = {number: Fate(number, 0, 100, "a", "sent", start, end) for number, start, end in ends}
    assert journals.faults(found, 3 * 10**6) == []
    found[3] = found[3]._replace(end=800001)
    assert [fate.number for fate, _ in journals.faults(found, 3 * 10**6)] == [3]


@pytest.mark.parametrize("text, said", [
    ("number,arrival\n", "its first row is not that of fates"),
    (HEAD + "1,0,1000,a,sent,0\n", "line 2 (row 1): 6 words, and not 7"),
    (HEAD + "1,0,1000,a,gone,0,1\n", "line 2 (row 1): no fate: 'gone'"),
    (HEAD + "1,0,1000,a,dropped,0,1\n", "line 2 (row 1): a packet that was dropped has a start"),
    (HEAD + "1,0,1e3,a,sent,0,1\n", "line 2 (row 1): length is a float"),
    (HEAD + "1,0,1000,a,sent,0,1\n1,0,1000,a,sent,1,2\n", "line 3 (row 2): packet 1 has two fates"),
])
def test_faulty_journals(tmp_path, text, said):
    (tmp_path / "odd.csv").write_text(text)
    with pytest.raises(Refused) as fault:
        journals.read_journal(str(tmp_path / "odd.csv"))
    assert said in str(fault.value)


def test_other_arrivals(files, tmp_path, capsys):
    (tmp_path / "short.csv").write_text(OURS[:OURS.index("7,12500000")])
    assert main(["compare", files[0], str(tmp_path / "short.csv")]) == 2
    assert "packet 7 stands in one file alone" in capsys.readouterr().err


def skeleton(name, *words):
    """What a skeleton writes."""
    done = subprocess.run([sys.executable, os.path.join(SKELETONS, name), *map(str, words)], capture_output=True, text=True, check=True)
    return done.stdout


def order(text):
    """The numbers of the rows."""
    return [int(line.split(",")[0]) for line in text.splitlines()[1:]]


def waits(tmp_path, *packets):
    """Fates of packets that arrive at 0, each by class and length; skeletons look at arrivals alone."""
    name = str(tmp_path / "waits.csv")
    with open(name, "w", encoding="ascii") as file:
        file.write(HEAD + "".join(f"{at},0,{length},{cls},full,,\n" for at, (cls, length) in enumerate(packets, 1)))
    return name


def test_round_robin_takes_turns(tmp_path):
    """a has 1, 2 and 3, b has 4, c has 5 and 6: a b c, a c, a."""
    name = waits(tmp_path, ("a", 100), ("a", 100), ("a", 100), ("b", 900), ("c", 100), ("c", 100))
    assert order(skeleton("round_robin.py", 8000000, 50, name)) == [1, 4, 5, 2, 6, 3]


def test_deficit_pays(tmp_path):
    """Quantum 500: a's 300 leaves 200, which with the next turn's 500 pays 700 exactly; b's 501 needs a second turn."""
    name = waits(tmp_path, ("a", 300), ("a", 700), ("b", 501), ("b", 499))
    assert order(skeleton("drr.py", 8000000, 50, 500, name)) == [1, 2, 3, 4]
    name = waits(tmp_path, ("a", 300), ("a", 701), ("b", 500), ("b", 500))
    assert order(skeleton("drr.py", 8000000, 50, 500, name)) == [1, 3, 4, 2]


def test_deficit_is_spent(tmp_path):
    """Of 500 the first 300 leave 200, too little for the second: b's 100 come between."""
    name = waits(tmp_path, ("a", 300), ("a", 300), ("b", 100))
    assert order(skeleton("drr.py", 8000000, 50, 500, name)) == [1, 3, 2]


def test_limit_of_a_skeleton(tmp_path):
    """Of three packets of one moment two are kept."""
    name = waits(tmp_path, ("a", 1000), ("a", 1000), ("a", 1000))
    assert skeleton("fifo.py", 8000000, 2, name) == HEAD + "3,0,1000,a,full,,\n1,0,1000,a,share,0,1000000\n2,0,1000,a,share,1000000,2000000\n"


def test_skeletons_are_short():
    for name in os.listdir(SKELETONS):
        if name.endswith(".py"):
            with open(os.path.join(SKELETONS, name), encoding="utf-8") as file:
                assert len(file.readlines()) < 60


def frame(length):
    """Captured bytes of a frame."""
    return bytes(12) + b"\x08\x00" + bytes(min(length, 60) - 14)


@pytest.mark.parametrize("seed", range(5))
def test_fifo_is_one_queue_of_the_program(tmp_path, seed):
    """An interface without classes is FIFO with a limit of 50, so the skeleton writes the program's fates byte for byte."""
    try:
        program()
    except Missing:
        pytest.skip("there is no program")
    chance, at, packets = random.Random(seed), 0, []
    for _ in range(400):
        at += chance.choice([0] * 30 + [1, 266667, 1000000] * 10 + [60000000])
        length = chance.randint(60, 1500)
        packets.append(Record(at, frame(length), length, 1))
    (tmp_path / "fifo.conf").write_text("interface if0 bandwidth 3M hfsc\n")
    write_ethernet(str(tmp_path / "arrivals.pcap"), packets)
    made = play(str(tmp_path / "fifo.conf"), "if0", str(tmp_path / "arrivals.pcap"), str(tmp_path / "played"))
    with open(made.fates, encoding="ascii") as file:
        ours = file.read()
    theirs = skeleton("fifo.py", 3000000, 50, made.fates)
    assert theirs == ours and "full" in ours
    (tmp_path / "theirs.csv").write_text(theirs)
    assert main(["compare", "--first", "--foreign", "--config", str(tmp_path / "fifo.conf"), "--arrivals",
                 str(tmp_path / "arrivals.pcap"), made.fates, str(tmp_path / "theirs.csv")]) == 0

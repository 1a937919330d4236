"""`why`: a play with one decision changed is caught at its row, all decisions as rows, and what is refused."""

import pytest
from conftest import classic, udp
from worked import BURST, LIMIT, PACED, QUARTER, ROUNDS, VOICE, numbers, picked, with_words

from altqplay.workbench.play import play

# Plays in which a decision is changed by hand.
PLAYS = [(VOICE, "12x1000@0 2x200@3000000:5004"), (QUARTER, "3x1000@0:5004 6x1000@0"), (LIMIT, "3x1000@0"), (PACED, "5x1500@0"),
         (with_words(PACED, 2, "borrow"), "5x1500@0"), (ROUNDS, "3x1500@0 3x1500@0:5004"), (BURST, "6x1000@0 2x1000@8000000"),
         ([line.replace("qlimit 4 red", "qlimit 90 ecn") for line in BURST], "140x100@0")]
OTHER = {"realtime": "share", "share": "realtime", "own": "borrow", "borrow": "own", "full": "early", "early": "forced", "forced": "full"}


def changes(row):
    """A row with one decision changed: its rule, its start, its end, and whether it is sent at all."""
    words = row.split(",")
    found = [words[:4] + [OTHER[words[4]]] + words[5:]]
    if words[5]:
        found += [words[:5] + [str(int(words[5]) + 1), words[6]], words[:6] + [str(int(words[6]) + 1)], words[:4] + ["full", "", ""]]
    else:
        found += [words[:4] + ["share", words[1], str(int(words[1]) + 800000)]]
    return [",".join(one) for one in found]


@pytest.mark.parametrize("number", range(len(PLAYS)))
def test_a_changed_decision_is_caught_at_its_row(played, tmp_path, number):
    one = played(*PLAYS[number])
    with open(one.fates, encoding="ascii") as file:
        rows = file.read().splitlines()
    one.told()
    one.fates = str(tmp_path / "changed.csv")
    for at in range(1, len(rows), 1 + len(rows) // 12):
        for row in changes(rows[at]):
            (tmp_path / "changed.csv").write_text("\n".join(rows[:at] + [row] + rows[at + 1:]) + "\n")
            status, said, fault = one.why()
            assert (status, fault) == (1, "") and f"changed.csv: line {at + 1} (row {at}): {row}\nby the rules: " in said


def test_two_sendings_that_changed_places(played, tmp_path):
    one = played(QUARTER, "3x1000@0:5004 6x1000@0")
    with open(one.fates, encoding="ascii") as file:
        text = file.read()
    one.fates = str(tmp_path / "theirs.csv")
    (tmp_path / "theirs.csv").write_text(text.replace("2,0,1000,a,share,4", "X,0,1000,b,sent,4").replace("7,0,1000,b,share", "2,0,1000,a,sent").replace("X", "7"))
    status, said, _fault = one.why()
    assert status == 1 and "line 6 (row 5): 7,0,1000,b,sent,4000000,5000000\nby the rules: 2,0,1000,a,share,4000000,5000000\npacket 2 stands in line 7 (row 6)\n" in said
    assert "the children of root: a, virtual time 4000000; second b, virtual time 4000000, equal: a stands earlier in the file" in said


def test_words_of_another_program(played, tmp_path):
    one = played(BURST, "6x1000@0 2x1000@8000000")
    with open(one.fates, encoding="ascii") as file:
        text = file.read()
    one.fates = str(tmp_path / "theirs.csv")
    (tmp_path / "theirs.csv").write_text(text.replace(",share,", ",sent,").replace(",full,", ",dropped,"))
    one.told()


def test_rows_of_all_decisions(played, tmp_path):
    one = played(VOICE, "12x1000@0 1x200@10000000:5004")
    one.told("--csv", tmp_path / "d.csv")
    rows = [line.split(",") for line in (tmp_path / "d.csv").read_text().splitlines()]
    assert len(rows) == 1 + 2 * 13 and all(len(row) == len(rows[0]) for row in rows)
    row = dict(zip(rows[0], next(row for row in rows if row[1:5] == ["10000000", "13", "voice", "realtime"])))
    assert picked(row, "measure", "value", "second", "secondvalue", "by") == ["deadline", "10400000", "data", "17000000", "6600000"]
    assert picked(row, "eligible", "deadline", "count", "virtual") == ["10000000", "10400000", "0", "25000000"]
    assert [row[4] for row in rows[1:13]] == ["kept"] * 12


def test_states_between_decisions(played):
    one = played(QUARTER, "1x1000@0:5004 1x1000@5000000")
    lines = one.told("--at", 500_000, "--at", 2_000_000, "--at", 7_000_000).splitlines()
    assert [line for line in lines if "nothing is decided" in line] == [
        "500000: nothing is decided: the link is busy until 1000000", "2000000: nothing is decided: nothing waits", "7000000: nothing is decided: nothing waits"]
    assert numbers(lines[1:])["a"] == {"class": "a", "backlog": "0", "total": "8000000000000", "virtual": "4000000"}


def test_an_interface_among_others(altqwork, program, tmp_path):
    other = ["interface if1 bandwidth 1M cbq", "class cbq if1 root NULL", "class cbq if1 a root pbandwidth 10 default"]
    (tmp_path / "c.conf").write_text("\n".join(other + QUARTER) + "\n")
    (tmp_path / "a.pcap").write_bytes(classic(1, [(0, bytes(12) + b"\x08\x00" + udp(5004, 986), 1000)]))
    for name, rule in (("if0", "share"), ("if1", "own")):
        fates = play(str(tmp_path / "c.conf"), name, str(tmp_path / "a.pcap"), str(tmp_path)).fates
        status, said, _fault = altqwork("why", fates, tmp_path / "c.conf", "--interface", name, "--packet", 1)
        assert status == 0 and f"is sent by {rule}" in said


HEAD = "number,arrival,length,class,fate,start,end\n"


@pytest.mark.parametrize("rows, words, why", [
    ("1,0,60,b,share,0,60000\n1,0,60,b,full,,\n", [], "packet 1 has two fates"), ("2,0,60,b,share,0,60000\n", [], "packet 1 has no fate: a play that was cut off"),
    ("1,0,60,c,share,0,60000\n", [], "line 2 (row 1): c is no class of if0 that holds packets"), ("1,0,60,root,share,0,60000\n", [], "root is no class"),
    ("1,5,60,b,share,5,60005\n2,4,60,b,full,,\n", [], "line 3 (row 2): packet 2 arrives before packet 1"), ("1,0,0,b,share,0,0\n", [], "has no length"),
    ("1,0,60,b,late,0,60000\n", [], "no fate: 'late'"), ("1,0,60,b,share,0,60000\n", ["--packet", "2"], "no packet 2: it has 1"),
    ("1,0,60,b,share,0,60000\n", ["--arrivals", "A"], "record 1 arrives at 7 with 60 bytes, and the fates say otherwise"),
    ("1,7,60,b,share,7,60007\n2,7,60,b,share,60007,120007\n", ["--arrivals", "A"], "1 records, and packet 2 has a fate")])
def test_what_is_refused(altqwork, program, tmp_path, rows, words, why):
    (tmp_path / "c.conf").write_text("\n".join(QUARTER) + "\n")
    (tmp_path / "f.csv").write_text(HEAD + rows)
    (tmp_path / "A").write_bytes(classic(1, [(7, bytes(60), 60)]))
    status, said, fault = altqwork("why", tmp_path / "f.csv", tmp_path / "c.conf", *(tmp_path / word if word == "A" else word for word in words))
    assert (status, said) == (2, "") and why in fault


def test_what_looks_at_frames_needs_them(altqwork, program, tmp_path):
    (tmp_path / "c.conf").write_text("\n".join(BURST).replace("red", "ecn") + "\n")
    (tmp_path / "f.csv").write_text(HEAD)
    assert "class a has ecn, which looks at each frame: name the capture with --arrivals" in altqwork("why", tmp_path / "f.csv", tmp_path / "c.conf")[2]

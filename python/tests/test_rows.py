"""The readers of fates, statistics and configurations."""

import random

import pytest
from conftest import example
from hypothesis import given, settings
from hypothesis import strategies as some

from altqplay.workbench import conf, rows
from altqplay.workbench.faults import Refused

HEAD = "number,arrival,length,class,fate,start,end\n"
WHOLE = some.integers(0, 2**63 - 1) | some.integers(0, 9)


@settings(deadline=None)
@given(some.lists(some.tuples(WHOLE, WHOLE, some.sampled_from(["a", "b/1", "-"]), some.sampled_from(rows.SENT + rows.DROPPED), WHOLE, WHOLE), max_size=20))
def test_both_readers_agree(tmp_path_factory, drawn):
    text = "".join(f"{number},{at},{length},{name},{fate},{'' if fate in rows.DROPPED else start},{'' if fate in rows.DROPPED else end}\n"
                   for number, (at, length, name, fate, start, end) in enumerate(drawn, 1))
    path = tmp_path_factory.mktemp("rows") / "f.csv"
    path.write_text(HEAD + text)
    slow, fast = list(rows.fate_rows(path)), rows.read_fates(path)
    assert [tuple(one) for one in slow] == [
        (number, at, length, fast.classes[of], fast.fates[fate], start if is_sent else None, end if is_sent else None)
        for number, at, length, of, fate, start, end, is_sent in zip(*(values.tolist() for values in (
            fast.number, fast.arrival, fast.length, fast.of_class, fast.of_fate, fast.start, fast.end, fast.is_sent)))]


@pytest.mark.parametrize("text, why", [
    ("", "first row"), ("number,arrival\n", "first row"), (HEAD + "1,2,3,a,share,4\n", "line 2 (row 1): 6 words"), (HEAD + "1,2,3,a,share,4,5,6\n", "line 2 (row 1): 8 words"),
    (HEAD + "1,2,3,a,share,4,5\n1,2,x,a,share,4,5\n", "line 3 (row 2): length is no whole number below 2^63: 'x'"), (HEAD + "1,-2,3,a,share,4,5\n", "line 2 (row 1): arrival"),
    (HEAD + "1,2,3,a,lost,4,5\n", "no fate: 'lost'"), (HEAD + "1,2,3,a,full,4,5\n", "dropped has a start"), (HEAD + "1,2,3,a,share,,\n", "line 2 (row 1): start"),
    (HEAD + "1,2,3,a,share,-1,-1\n", "line 2 (row 1): start"), (HEAD + f"1,{2**63},3,a,share,4,5\n", "line 2 (row 1): arrival"), (HEAD + "1,2,3,a b,share,4,5\n", "no name of a class"),
    (HEAD + "1,2,3,a,share,4,5\n1,2,3,a,full,,\n", "packet 1 has two fates"), (HEAD + "1,2,3,a,share,4,5", "cut"), (HEAD + "1,2,3,a,full,,\n1,2,3,a,sh", "line 3 (row 2)"),
    *((HEAD + f"{number},2,3,a,share,4,5\n", "line 2 (row 1): number") for number in ("", " 5", "+5", "5.0", "1e3", "05", "1_0", "0x1", "True", "5 ")),
    (HEAD + '"5",2,3,a,share,4,5\n', "line 2 (row 1): fields stand in quotes"),
    (HEAD + "1,2,3,a,share,4,5\r\n", "line 2 (row 1): the line ends with CRLF"), (HEAD + "1,2,3,\u00e4,share,4,5\n", "no name of a class"), (HEAD + "\n", "line 2 (row 1): 1 words"),
    (HEAD + "1e3,2,3,a,share,4,5\n1001.,2,3,a,share,4,5\n", "line 2 (row 1): number")])
def test_what_is_no_fates(tmp_path, text, why):
    (tmp_path / "f.csv").write_text(text)
    with pytest.raises(Refused) as fault:
        rows.read_fates(tmp_path / "f.csv")
    assert why in str(fault.value)


def test_changed_bytes_are_read_alike_or_refused(tmp_path):
    text = (HEAD + "1,0,60,a,share,0,48000\n2,5,60,b,full,,\n3,5,60,a,realtime,48000,96000\n").encode()
    for seed in range(2000):
        chance, changed = random.Random(seed), bytearray(text)
        for _ in range(chance.choice([1, 1, 2])):
            changed[chance.randrange(len(changed))] = chance.choice(b"0159,.- \n\r\"abe\0\xff")
        (tmp_path / "f.csv").write_bytes(changed)
        try:
            slow = list(rows.fate_rows(tmp_path / "f.csv"))
        except Refused as fault:
            slow = str(fault)
        try:
            fast = rows.read_fates(tmp_path / "f.csv")
        except Refused as fault:
            assert str(fault) == slow or "two fates" in str(fault) and len({row.number for row in slow}) < len(slow)
        else:
            assert not isinstance(slow, str) and [row.number for row in slow] == fast.number.tolist()
            assert [-1 if row.end is None else row.end for row in slow] == fast.end.tolist()


def test_nineteen_digits_stay_whole(tmp_path):
    (tmp_path / "f.csv").write_text(HEAD + "1,4294967295999999999,60,a,full,,\n2,4294967295999999998,60,a,share,4294967295999999999,9223372036854775807\n")
    found = rows.read_fates(tmp_path / "f.csv")
    assert found.arrival.tolist() == [4294967295999999999, 4294967295999999998] and found.end.tolist() == [-1, 9223372036854775807]


def test_a_configuration(program):
    found = conf.read_conf(example("office.conf"))
    assert (found.name, found.bandwidth, found.discipline, found.fit) == ("if0", 4_000_000, "hfsc", "fits")
    assert list(found.classes) == ["root", "voice", "bulk", "rest"]
    assert found.classes["voice"] == conf.Class("voice", "root", conf.Curve(1_000_000, 10_000_000, 200_000), conf.Curve(200_000, 0, 200_000), None, False)
    assert found.classes["rest"].is_default and found.promised("rest") is None and found.promised("root") is None and found.promised("bulk")


def test_a_curve_that_promises_nothing(program, tmp_path):
    (tmp_path / "c.conf").write_text("interface if0 hfsc\nclass hfsc if0 root NULL\nclass hfsc if0 p root sc 4M 0 4M\n"
                                     "class hfsc if0 a p sc 1M 0 1M default\nclass hfsc if0 b p rt 1M 0 0 ls 1M 0 1M\nclass hfsc if0 c p rt 0 5 0 ls 1M 0 1M\n")
    found = conf.read_conf(str(tmp_path / "c.conf"))
    assert [name for name in found.classes if found.promised(name)] == ["a"]


@pytest.mark.parametrize("text, why", [
    ("interface if0 hfsc\ninterface if1 hfsc\n", "2 interfaces (if0, if1)"), ("# nothing\n", "0 interfaces"), ("interface if0 hfsc fast\n", "status 3")])
def test_a_configuration_that_is_refused(program, tmp_path, text, why):
    (tmp_path / "c.conf").write_text(text)
    with pytest.raises(Refused) as fault:
        conf.read_conf(str(tmp_path / "c.conf"))
    assert why in str(fault.value)

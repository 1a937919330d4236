"""`gap`: the gaps of siblings on plays reckoned by hand, their bounds, and the picture."""

import pytest

from altqplay.workbench import gap
from altqplay.workbench.conf import Interface
from altqplay.workbench.gap_picture import Axes, picture, step_of, steps
from altqplay.workbench.rows import Fate
from altqplay.workbench.texts import Times

HEAD = ["interface if0 bandwidth 8000000 hfsc", "class hfsc if0 root NULL ls 8000000 0 8000000 qlimit 50"]


def leaf(name, curve, more="", parent="root"):
    """The canonical line of a class."""
    return f"class hfsc if0 {name} {parent} ls {curve}{more} qlimit 50"


def interface(*lines):
    return Interface([*HEAD, *lines, "fits"], "if0")


def sent(order, length=1000, arrival=0):
    """Fates of packets that all come at a moment and are sent one after the other, by the letters of their classes."""
    one = length * 1000
    return [Fate(number, arrival, length, name, "share", arrival + (number - 1) * one, arrival + number * one) for number, name in enumerate(order, 1)]


QUARTER = interface(leaf("a", "2000000 0 2000000"), leaf("b", "6000000 0 6000000"))
HALVES = interface(leaf("a", "4000000 0 4000000"), leaf("b", "4000000 0 4000000"))


@pytest.mark.parametrize("found, order, line", [
    (QUARTER, "abbbabbba", "a b gap 4000000 bound 8000002"),
    (QUARTER, "aaa", "a b gap 0 bound 8000002"),
    (QUARTER, "", "a b gap 0 bound 2"),
    (HALVES, "abab", "a b gap 2000000 bound 4000002"),
    (HALVES, "aaabbb", "a b gap 4000000 bound 4000002"),
])
def test_gap_of_two_leaves(found, order, line):
    fates = sent(order)
    assert gap.line(found, fates, ("a", "b"), gap.longest_of(fates))[0] == line


def test_gap_begins_and_ends():
    assert gap.greatest(HALVES, sent("aaabbb"), ("a", "b")) == gap.Greatest(4000000, 0, 1000000)
    assert gap.greatest(HALVES, [], ("a", "b")) == gap.Greatest(0, None, None)


def test_stretch_begins_with_the_second_arrival():
    early, late = sent("aab"), sent("bbb", arrival=10000000)
    found = gap.stretches(HALVES, [*early, *(fate._replace(number=fate.number + 3) for fate in late)], ("a", "b"))
    assert [len(stretch) for stretch in found] == [2] and found[0][1] == (0, 4000000000)


def test_inner_classes_count_what_is_below_them():
    found = interface(leaf("x", "4000000 0 4000000"), leaf("y", "4000000 0 4000000"), leaf("a", "2000000 0 2000000", parent="x"), leaf("b", "2000000 0 2000000", parent="x"))
    assert gap.pairs(found) == [("x", "y"), ("a", "b")]
    fates = sent("aybyayby")
    assert [gap.line(found, fates, pair, 1000)[0] for pair in gap.pairs(found)] == ["x y gap 2000000 bound 4000002", "a b gap 4000000 bound 8000002"]


def test_where_there_is_no_bound():
    for more in (" ul 8000000 0 8000000", " rt 1000000 0 1000000"):
        found = interface(leaf("a", "2000000 0 2000000"), leaf("b", "6000000 0 6000000", more))
        assert gap.line(found, sent("ab"), ("a", "b"), 1000)[0].endswith("bound none")
    found = interface(leaf("a", "2000000 0 2000000"), leaf("b", "6000000 0 6000000", " rt 0 0 0"), leaf("c", "0 5 4000000"))
    assert gap.line(found, sent("ab"), ("a", "b"), 1000)[0] == "a b gap 0 bound 14000002"
    assert gap.line(found, sent("ab"), ("a", "c"), 1000) == ("a c bound none", None)


@pytest.mark.parametrize("found, order, text", [
    # at 8 of the 9 starts of QUARTER's play both wait: a is sent 2 of the 8 packets
    (QUARTER, "abbbabbba", "while both waited, a got 25 % of what the two were sent; its share is 25 %"),
    # at 4 of the 6 starts a and b wait, and at each of the 4 a goes
    (HALVES, "aaaabb", "while both waited, a got 100 % of what the two were sent; its share is 50 %"),
    (QUARTER, "aaa", "they never waited at one time"),
    (interface(leaf("a", "1000000 0 1000000"), leaf("b", "7000000 0 7000000")), "babbb", "while both waited, a got 50 % of what the two were sent; its share is 13 %"),
    (interface(leaf("a", "2000000 0 2000000"), leaf("b", "0 5 4000000")), "abb", "while both waited, a got 100 % of what the two were sent; one of their curves is bent, so neither has one share"),
])
def test_shares_in_a_sentence(found, order, text):
    assert gap.sentence(found, sent(order), ("a", "b")) == text


def test_packets_below_count_in_the_sentence():
    """By x and y: of `cybydycy` x is sent 4 of the 7 packets that start while both wait."""
    found = interface(leaf("x", "4000000 0 4000000"), leaf("y", "4000000 0 4000000"), leaf("a", "2000000 0 2000000", parent="x"), leaf("b", "2000000 0 2000000", parent="x"))
    assert gap.sentence(found, sent("aybyayby"), ("x", "y")) == "while both waited, x got 57 % of what the two were sent; its share is 50 %"


def test_lines_of_a_pair():
    """The play of docs/FAIRNESS.md, 3 s later: moments are those after the first arrival."""
    fates = sent("abbbabbba", arrival=3 * 10**9)
    for exact, text in ((False, "gap 4.000 ms, bound 8.000 ms, from 0.000 to 0.000 ms"), (True, "gap 4000000 ns, bound 8000002 ns, from 0 to 0 ns")):
        assert gap.told(QUARTER, fates, ("a", "b"), 1000, Times(exact))[1] == f"  {text}"
    for more, why in ((" ul 8000000 0 8000000", "an upper limit may hold a class back"), (" rt 1000000 0 1000000", "real time goes before shares")):
        found = interface(leaf("a", "2000000 0 2000000"), leaf("b", "6000000 0 6000000", more))
        assert gap.told(found, [], ("a", "b"), 0, Times())[1] == f"  gap 0.000 ms, no bound, since {why}"


def test_a_class_that_the_configuration_has_not(altqwork, program, tmp_path):
    """It was a traceback."""
    (tmp_path / "c.conf").write_text("interface if0 bandwidth 8M hfsc\nclass hfsc if0 root NULL pshare 100\nclass hfsc if0 a root pshare 50\nclass hfsc if0 b root pshare 50 default\n")
    (tmp_path / "f.csv").write_text("number,arrival,length,class,fate,start,end\n1,0,1000,a,share,0,1000000\n2,0,1000,web,share,1000000,2000000\n")
    assert altqwork("gap", "--config", tmp_path / "c.conf", "--fates", tmp_path / "f.csv") == (2, "", f"altqwork: {tmp_path}/f.csv: line 3 (row 2): web is no class of if0\n")
    (tmp_path / "c.conf").write_text("interface if0 bandwidth 8M hfsc\n")
    (tmp_path / "f.csv").write_text("number,arrival,length,class,fate,start,end\n1,0,1000,default,share,0,1000000\n")
    assert altqwork("gap", "--config", tmp_path / "c.conf", "--fates", tmp_path / "f.csv") == (0, "if0: no two classes of HFSC have one parent\n", "")


def test_cbq_has_no_pairs():
    lines = ["interface if0 bandwidth 8000000 cbq", "class cbq if0 root NULL exactbandwidth 8000000", "class cbq if0 a root exactbandwidth 1", "class cbq if0 b root exactbandwidth 1", "fits"]
    assert gap.pairs(Interface(lines, "if0")) == []


def test_picture():
    assert [step_of(most) for most in (1, 10, 11, 20, 21, 51, 209)] == [1, 1, 2, 2, 5, 10, 50]
    assert steps([(0, 1), (2, 3)]) == [(0, 1), (2, 1), (2, 3)]
    axes = Axes(9_000_000, 5_800_000)
    assert (axes.x(0), axes.y(0), axes.last, axes.most) == (70, 250, 9_000_000, 6_000_000)
    drawn = picture("a and b", [[(0, 0), (1_000_000, 2_000_000)]], 4_000_002, True)
    assert drawn.startswith("<svg ") and drawn.endswith("</svg>\n") and drawn.count("<path") >= 4 and ">bound<" in drawn

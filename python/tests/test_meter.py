"""`meter`: colours and buckets reckoned by hand, from the rules of docs/reference/METERS.md, and the picture."""

import pytest

from altqplay.workbench.conf import Interface
from altqplay.workbench.meter import colours_of, in_bytes, metered
from altqplay.workbench.meter_picture import lines_of, picture
from altqplay.workbench.rows import Fate
from altqplay.workbench.rules.meters import GREEN, RED, YELLOW, mark, rule_of
from altqplay.workbench.rules.units import BYTE

LETTERS = {GREEN: "G", YELLOW: "Y", RED: "R"}


def rule(words):
    """A meter, by the words of a conditioner with rates in bits per second."""
    return rule_of(words.split())


def fates(*packets, name="a"):
    """Fates of packets, each a length and a moment."""
    return [Fate(number, moment, length, name, "share", moment, moment + 1) for number, (length, moment) in enumerate(packets, 1)]


def each(length, *moments):
    return fates(*((length, moment) for moment in moments))


@pytest.mark.parametrize("words, found, colours", [
    ("srtcm 8000000 1500 1500 1", each(1000, 0, 0, 0, 1_000_000), "GYRG"),
    ("trtcm 16000000 2000 8000000 1000 1", each(1000, 0, 0, 0, 500_000), "GYRY"),
    ("srtcm 480000000000 60 0 1", each(60, 0, 1, 2), "GGG"),
    ("srtcm 479999999999 60 0 1", each(60, 0, 1, 2), "GRG"),
    ("srtcm 960000000000 60 60 1", each(60, 0, 0, 1, 1, 1), "GYGYR"),
    ("srtcm 959999999999 60 60 1", each(60, 0, 0, 1, 1, 1), "GYGRR"),
    ("trtcm 480000000000 60 479999999999 60 1", each(60, 0, 1, 2), "GYG"),
    ("trtcm 479999999999 60 479999999999 60 1", each(60, 0, 1, 2), "GRG"),
    ("srtcm 8000000 1000 1000 1", each(1000, 0, 3_000_000, 3_000_000, 3_000_000), "GGYR"),
    ("srtcm 8000000 1000 0 1", each(1000, 0, 0, 999_999, 1_000_000), "GRRG"),
    ("trtcm 8000000 2000 8000000 1000 1", each(1000, 0, 0, 0, 1_000_000), "GYRG"),
    ("srtcm 8000000 1000 1000 1", fates((1001, 0), (1000, 0), (1000, 0), (1, 0)), "RGYR"),
    ("trtcm 16000000 2000 8000000 1000 1", fates((1001, 0), (999, 0), (1, 0)), "YGR"),
])
def test_colours(words, found, colours):
    assert "".join(LETTERS[one.colour] for one in metered(rule(words), found)) == colours


def test_buckets():
    one, two = metered(rule("srtcm 479999999999 60 0 1"), each(60, 0, 1))
    assert (one.committed, one.committed_left, one.other) == (60 * BYTE, 0, 0)
    assert (in_bytes(two.committed), in_bytes(two.committed_left)) == ("59.999999999875", "59.999999999875")


def test_marks():
    one = rule("srtcm 1000 1 0 1")
    assert [mark(one, colour, 0) for colour in (GREEN, YELLOW, RED)] == [0x28, 0x30, 0x38]
    assert mark(rule("trtcm 1000 1 1000 1 4"), RED, 0xFF) == 155


def test_meters_of_a_text():
    text = ["interface if0 bandwidth 8000000 hfsc", "class hfsc if0 a NULL ls 8000000 0 8000000 qlimit 50 default", "conditioner if0 a srtcm 8000000 1000 0 1",
            "conditioner if1 b srtcm 8000000 1000 0 1", "fits"]
    found = Interface(text, "if0")
    assert found.meters == {"a": rule("srtcm 8000000 1000 0 1")}
    assert found.unmarked == "".join(line + "\n" for line in text[:2])
    assert [colour for _rule, colour in colours_of(found, each(1000, 0, 0)).values()] == [GREEN, RED]
    assert not colours_of(found, fates((1000, 0), name="b"))


def test_lines_bend_where_a_bucket_is_full():
    own = rule("srtcm 8000000 1000 500 1")
    committed, other = lines_of(own, metered(own, fates((1000, 0), (500, 0), (60, 3_000_000))))
    assert (1_000_000, 1000 * BYTE) in committed and (1_500_000, 500 * BYTE) in other
    assert committed[-1] == (3_000_000, 940 * BYTE)


def test_picture():
    own = rule("trtcm 16000000 2000 8000000 1000 1")
    text = picture("a", own, metered(own, each(1000, 0, 0, 0, 500_000)))
    assert text.count("<svg") == 1 and ">GYR<" in text and ">peak<" in text
    assert picture("a", own, []).count("<path") > 2

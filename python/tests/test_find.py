"""`find`: edges reckoned by hand, what fits, and what is refused."""

import pytest
from conftest import classic, udp

from altqplay.workbench import find
from altqplay.workbench.faults import Refused

CONF = """interface if0 bandwidth 8M hfsc
class hfsc if0 root NULL pshare 100
class hfsc if0 a root sc 1M 0 1M
class hfsc if0 b root ls 4M 0 4M default
filter if0 a 0 5004 0 0 udp
"""


@pytest.fixture
def asked(altqwork, program, tmp_path):
    """Asks for an option of a play of packets of 1,000 bytes to a port, each at a moment; answers status and lines."""
    def run(option, *wants, at=(0,), port=9000, words=(), conf=CONF):
        (tmp_path / "c.conf").write_text(conf)
        (tmp_path / "a.pcap").write_bytes(classic(1, [(moment, bytes(12) + b"\x08\x00" + udp(port, 986), 1000) for moment in at]))
        told = [word for want in wants for word in ("--want", want)]
        status, said, fault = altqwork("find", tmp_path / "c.conf", "--set", option, *told, "--jobs", 2, *words, tmp_path / "a.pcap")
        return status, said.splitlines(), fault
    return run


def test_least_bandwidth(asked):
    """1,000 bytes take 1 ms at 8 Mbit/s, so a delay below it needs one step more; up to it, 8 Mbit/s do."""
    for want, least, other in (("b delay<1ms", "8.001M", "8M"), ("b delay<=1ms", "8M", "7.999M")):
        status, lines, _fault = asked("bandwidth=?", want)
        assert status == 0 and lines[1].startswith(f"bandwidth={least} is the least that keeps it: {want} kept")
        assert lines[2].startswith(f"  bandwidth={other} does not: {want} broken: 1 of 1 packets, the slowest 1.000 ms")
        assert lines[3].startswith("bandwidth=80M keeps it, the greatest that was tried")


def test_least_queue(asked):
    """Five packets of one moment all wait then."""
    status, lines, _fault = asked("b qlimit=?", "b drop=0", at=(0,) * 5)
    assert (status, lines[1:3]) == (0, ["qlimit=5 is the least that keeps it: b drop=0 kept: 0 of 5 packets dropped",
                                        "  qlimit=4 does not: b drop=0 broken: 1 of 5 packets dropped"])


def test_limits_have_an_edge_to_either_side(asked):
    """Of two packets the second starts when the limit gave the first's 8,000 bits, and takes 1 ms: 4 ms at 2 Mbit/s."""
    status, lines, _fault = asked("ul=?", "b delay<=5ms", at=(0, 0), words=["--class", "b"])
    assert status == 0 and lines[1:3] == ["ul=2M is the least that keeps it: b delay<=5ms kept: 2 packets, the slowest 5.000 ms",
                                          "  ul=1.999M does not: b delay<=5ms broken: 1 of 2 packets, the slowest 5.002 ms"]
    assert asked("ul=?", "b delay<1s", at=(0, 0), words=["--class", "b"])[1][1].startswith("ul=9K is the least that keeps it")


def test_one_number_of_a_curve(asked):
    """The first slope gives 8,000 bits in its 2 ms at 4 Mbit/s; at 3.999 Mbit/s 2 bits are left, which take 2 us of the second. A slope
    below the second is refused by the program."""
    status, lines, _fault = asked("b ul=?/2/1M", "b delay<=3ms", at=(0, 0))
    assert status == 0 and lines[1:3] == ["ul=4M/2/1M is the least that keeps it: b delay<=3ms kept: 2 packets, the slowest 3.000 ms",
                                          "  ul=3.999M/2/1M does not: b delay<=3ms broken: 1 of 2 packets, the slowest 3.002 ms"]
    status, lines, _fault = asked("b ul=4M/?/1M", "b delay<=3ms", at=(0, 0))
    assert status == 0 and lines[1].startswith("ul=4M/2/1M is the least that keeps it") and lines[2].startswith("  ul=4M/1/1M does not")


def test_the_greatest_that_fits(asked):
    """`a` has 1 Mbit/s by real time on a link of 8."""
    status, lines, _fault = asked("rt=?", "b delay<2ms", words=["--class", "b"])
    assert (status, lines[-1]) == (0, "rt=7M is the greatest that fits")
    status, lines, _fault = asked("rt=?", "b delay<2ms", words=["--class", "b"], conf=CONF.replace("sc 1M 0 1M", "sc 9M 0 9M"))
    assert (status, lines[-1]) == (0, "no value fits: the curves of the others exceed the link")


def test_no_value_keeps_it(asked):
    status, lines, _fault = asked("rt=?", "b delay<1ms", words=["--class", "b"])
    assert status == 1 and lines[0] == "as it is: b delay<1ms broken: 1 of 1 packets, the slowest 1.000 ms"
    assert lines[1].startswith("none of 8 values from rt=1K to rt=8M keeps it; the fewest break it with rt=")


@pytest.mark.parametrize("option, words, why", [
    ("rt=1M", [], "not WORD=?"), ("rt=?/?/1M", [], "not WORD=?"), ("rt=?/1M", [], "a curve is a rate, or m1/d/m2"), ("colour=?", [], "not WORD=?"),
    ("rt=?", [], "name the class by --class"), ("bandwidth=?", ["--class", "a"], "the bandwidth is of no class"), ("c rt=?", [], "interface if0 has no class c")])
def test_what_is_refused(asked, option, words, why):
    status, lines, fault = asked(option, "b drop=0", words=words)
    assert (status, lines) == (2, []) and why in fault


def test_a_want_is_needed(asked):
    assert "name what is asked for by --want" in asked("rt=?", words=["--class", "a"])[2]
    assert "no configuration has a class c" in asked("rt=?", "c drop=0", words=["--class", "a"])[2]


@pytest.mark.parametrize("count, least, most", [(1, 0, 0), (10, 3, 9), (1000, 999, 999), (1000, 0, 0), (8000, 17, 4321), (3, 1, 1)])
@pytest.mark.parametrize("jobs", [1, 2, 7])
def test_edges_of_a_range(count, least, most, jobs):
    """Where a range keeps it, both edges are found if one value of it is played first, here its least and greatest power."""
    class Kept:
        def __init__(self, place):
            self.is_kept = least <= place <= most

    search = find.Search(count, jobs, lambda places: [Kept(place) for place in places])
    search.first()
    search.look([least, (least + most) // 2])
    assert search.edge(False) == (least, least - 1 if least else None)
    assert search.edge(True) == (most, most + 1 if most + 1 < count else None)


def test_greatest_fit():
    assert [find.greatest_fit(9, lambda place: place <= most) for most in (-1, 0, 4, 8)] == [None, 0, 4, 8]


def test_values_as_text():
    one = find.sought_of("rt=?", "a")
    assert [one.text(value) for value in (1000, 999_000, 10**6, 1_230_000, 12_003_000, 10**9)] == ["1K", "999K", "1M", "1.23M", "12.003M", "1000M"]
    assert one.values(20_000_000)[0] == 10_000 and one.values(9_999_000)[0] == 1000 and one.values(500)[-1] == 1000
    with pytest.raises(Refused):
        find.sought_of("rt=?", None)

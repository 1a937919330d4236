"""What is drawn over time, by rows that are counted by hand."""

import numpy
import pytest
from hypothesis import given, settings
from hypothesis import strategies as some

from altqplay.workbench import rows, series
from altqplay.workbench.conf import Interface
from altqplay.workbench.plays import Side

LINK = Interface(["interface if0 bandwidth 8000000 hfsc", "class hfsc if0 root NULL qlimit 50", "class hfsc if0 a root ls 8000000 0 8000000 qlimit 50 default", "fits"], "if0")
# Three packets of 1,000 bytes at 0, which take 1 ms each, a fourth at 2 ms that waits till 3 ms, one that is dropped, and one that finds a free link.
FATES = """number,arrival,length,class,fate,start,end
1,0,1000,a,share,0,1000000
2,0,1000,a,share,1000000,2000000
3,0,1000,a,share,2000000,3000000
5,2000001,1000,a,full,,
4,2000000,1000,a,share,3000000,4000000
6,9000000,500,a,share,9000000,9500000
"""


@pytest.fixture
def side(tmp_path):
    (tmp_path / "f.csv").write_text(FATES)
    return Side("play", LINK, rows.read_fates(tmp_path / "f.csv"))


def all_of(side):
    return numpy.arange(len(side))


@pytest.mark.parametrize("begin, end, most", [
    (0, 1, [2]), (999_999, 1_000_000, [2]), (1_000_000, 1_000_001, [1]), (2_000_000, 2_000_001, [1]), (1_999_999, 2_000_000, [1]),
    (3_000_000, 9_000_001, [0] * 1000), (2_999_999, 3_000_001, [1, 0])])
def test_waiting(side, begin, end, most):
    assert series.waiting(side, all_of(side), series.Steps(begin, end)).tolist()[:len(most)] == most


def test_drops_delays_and_rate(side):
    steps = series.Steps(0, 10_000_000)
    assert (steps.count, steps.size) == (1000, 10_000)
    drops = series.drops(side, all_of(side), steps)
    assert drops.sum() == 1 and drops[200] == 1
    delays = series.delays(side, all_of(side), steps)
    assert (delays[0], delays[1], delays[200], delays[900]) == (3_000_000, -1, 2_000_000, 500_000)
    rate = series.rate(side, all_of(side), steps)
    assert [round(rate[place]) for place in (0, 9, 399, 404, 410, 899, 904, 949, 959)] == [8e6, 8e6, 8e6, 4e6, 0, 0, 4e6, 8e6, 0]


@settings(deadline=None)
@given(some.lists(some.tuples(some.integers(0, 50), some.integers(0, 50)), max_size=20), some.integers(0, 60), some.integers(1, 60))
def test_waiting_by_counting(tmp_path_factory, packets, begin, size):
    at, start, text = 0, 0, "number,arrival,length,class,fate,start,end\n"
    moments = []
    for number, (wait, held) in enumerate(packets, 1):
        at += wait
        start = max(start, at) + held
        moments.append((at, start))
        text += f"{number},{at},1,a,share,{start},{start + 1}\n"
    path = tmp_path_factory.mktemp("series") / "f.csv"
    path.write_text(text)
    side = Side("play", LINK, rows.read_fates(path))
    waiting = [sum(came <= moment < left for came, left in moments) for moment in range(begin, begin + size)]
    assert series.waiting(side, all_of(side), series.Steps(begin, begin + size)).tolist() == waiting

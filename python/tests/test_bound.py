"""`altqwork bound` and `altqplay.bound`: least bursts, bounds of the proved examples, and the least curve for a target."""

import doctest
import os
import random

import altqplay
import numpy
import pandas
import pytest
from conftest import classic, example, udp
from hypothesis import HealthCheck, given, settings, strategies

from altqplay.workbench import bound, bound_picture, conforming, delay_bound
from altqplay.workbench.bound_target import Link, Search, curves_of
from altqplay.workbench.conf import Curve
from altqplay.workbench.delay_bound import amount, excess, first
from altqplay.workbench.rules.units import BYTE, time_of
from altqplay.workbench.texts import Times

MS = 10**6
ROOT = ["interface if0 bandwidth 8M hfsc", "class hfsc if0 root NULL pshare 100"]
TO_A, TO_B = ("filter if0 a 0 5004 0 0 17", "filter if0 b 0 5005 0 0 17")
EQUAL = [*ROOT, "class hfsc if0 a root rt 4M 0 4M pshare 50", "class hfsc if0 b root rt 4M 0 4M pshare 50 default", TO_A]
RISES = [*ROOT, "class hfsc if0 a root rt 8M 1 0 pshare 50", "class hfsc if0 b root rt 0 1 8M pshare 50 default", TO_A]
MISSED = [*ROOT, "class hfsc if0 a root rt 4M 0 4M pshare 30", "class hfsc if0 b root rt 4M 0 4M pshare 30", "class hfsc if0 c root pshare 40 default", TO_A, TO_B]
UNHURRIED = settings(deadline=None, suppress_health_check=[HealthCheck.too_slow])
TWO = [(0, 1000, 9000), (0, 1000, 5004)]

packets = strategies.lists(strategies.tuples(strategies.integers(0, 5), strategies.integers(1, 9)), min_size=1, max_size=12)
curves = strategies.builds(lambda one, d, other, rises: Curve(0 if rises else max(one, other), d, max(one, other, 1) if rises else min(one, other)),
                           strategies.integers(0, 30), strategies.integers(0, 20), strategies.integers(0, 30), strategies.booleans())


def files(folder, lines, arrivals):
    """A configuration and a capture of packets (at, length, port)."""
    (folder / "c.conf").write_text("\n".join(lines) + "\n")
    (folder / "a.pcap").write_bytes(classic(1, [(at, bytes(12) + b"\x08\x00" + udp(port, length - 14), length) for at, length, port in arrivals]))
    return folder / "c.conf", folder / "a.pcap"


def columns(pairs):
    """Arrivals and lengths of packets, each a pause and a length."""
    return numpy.cumsum([pause for pause, _length in pairs]), numpy.array([length for _pause, length in pairs])


def by_all_stretches(arrival, length, rate):
    """The least burst by the definition: over each stretch."""
    needs = [BYTE * int(length[i:k + 1].sum()) - rate * int(arrival[k] - arrival[i]) for i in range(len(arrival)) for k in range(i, len(arrival))]
    return max(1, -(-max(needs) // BYTE))


@pytest.mark.parametrize("module", [delay_bound, conforming, bound, bound_picture])
def test_examples_of_docstrings(module):
    assert doctest.testmod(module).failed == 0


def test_the_proved_rows():
    # crates/delay_bound/src/rows.rt
    rows = [((4, 5, 1), 8, 1000, 1, 1_002_000), ((4, 5, 1), 8, 1000, 200, 1_400_000), ((4, 5, 1), 8, 1000, 2500, 6_000_000), ((4, 5, 1), 8, 1000, 2501, 6_008_000),
            ((0, 10, 8), 8, 1000, 1, 11_001_000), ((0, 10, 8), 8, 1500, 1500, 13_000_000), ((1, 0, 1), 8, 1000, 1500, 13_000_000), ((3, 0, 3), 3, 100, 100, 533_334),
            ((8, 10, 0), 8, 1000, 10_000, 11_000_000), ((8, 10, 0), 8, 1000, 10_001, None)]
    for (m1, d, m2), rate, longest, burst, wanted in rows:
        assert delay_bound.bound(Curve(m1 * MS, d * MS, m2 * MS), rate * MS, longest, burst) == wanted


@UNHURRIED
@given(curves, strategies.integers(1, 1000))
def test_first_is_least(curve, wanted):
    time = first(curve, wanted)
    if time is None:
        assert curve.m2 == 0 and amount(curve, curve.d) < wanted
    else:
        assert amount(curve, time) >= wanted and (time == 0 or amount(curve, time - 1) < wanted)


@UNHURRIED
@given(strategies.lists(curves, min_size=1, max_size=3), strategies.integers(1, 60))
def test_excess_tells_whether_curves_fit(some, rate):
    over = max(sum(amount(curve, time) for curve in some) - rate * time for time in range(60))
    assert (excess(some, rate) <= 0) == (over <= 0 and sum(curve.m2 for curve in some) <= rate)


@UNHURRIED
@given(packets, strategies.integers(0, 3 * BYTE))
def test_the_burst_is_that_of_all_stretches(pairs, rate):
    arrival, length = columns(pairs)
    found = conforming.neediest(arrival, length, rate)
    assert found.burst == by_all_stretches(arrival, length, rate)
    part = slice(found.begin, found.end + 1)
    assert by_all_stretches(arrival[part], length[part], rate) == found.burst


@UNHURRIED
@given(packets, strategies.sampled_from([0, 1, 999_999_937, 10**12 - 1, 10**12]), strategies.sampled_from([1, 10**9, 10**15, 2**60]))
def test_the_burst_is_exact_where_64_bits_do_not_hold_it(pairs, rate, scale):
    # a rate of 10^12 carries 10^12 * 2^60 units in 2^60 ns; the last packet comes at 2^62 and more
    arrival, length = columns([(min(pause, 1) * scale // len(pairs), size * 262_144 // 9) for pause, size in pairs])
    assert conforming.least_burst(arrival + 2**61, length, rate) == by_all_stretches(arrival, length, rate)


def test_the_edge_of_64_bits():
    # 7 divides no unit of a byte, so nothing is shortened: 9 * 10^17 ns carry 6.3 * 10^18 units, above 2^62 and below 2^63
    arrival, length = numpy.array([0, 9 * 10**17]), numpy.array([800_000_000, 2])
    assert 2**62 < 7 * 9 * 10**17 < 2**63 and conforming.least_burst(arrival, length, 7) == 800_000_000
    assert conforming.least_burst(arrival, length, 1) == 800_000_000 and conforming.least_burst(arrival[:1], length[:1], 7) == 800_000_000


@pytest.mark.parametrize("lines, arrivals, delay, limit", [
    (EQUAL, TWO, 2_000_000, 3_000_000), (RISES, TWO, 2_000_000, 3_000_000),
    (MISSED, [(0, 1000, 9000), (1, 1000, 5004), (1, 1000, 5005)], 2_999_999, 3_000_000)])
def test_the_proved_plays(altqwork, program, tmp_path, lines, arrivals, delay, limit):
    # bound_is_reached_by_equal_lines, bound_is_reached_by_a_curve_that_rises and bound_is_missed_by_a_nanosecond of crates/worked_plays/stdin
    config, capture = files(tmp_path, lines, arrivals)
    status, said, _fault = altqwork("bound", "--ns", config, capture)
    row = next(words for words in map(str.split, said.splitlines()) if words[0] == "b")
    assert status == 0 and row == ["b", "1", "8000000" if lines is RISES else "4000000", "1000", str(limit), str(delay)]


def test_classes_without_a_bound(altqwork, program, tmp_path):
    config, capture = files(tmp_path, RISES, TWO)
    said = altqwork("bound", config, capture)[1].splitlines()
    assert said[0] == "if0: fits; longest packet 1000 bytes, 1.000 ms on the link"
    assert said[2:4] == ["a                  1        -      -   none     1.000", "  none: the second slope of its real-time curve is 0"]
    for lines, reason in ((MISSED, "it has no real-time curve"), ([line.replace("rt 4M 0 4M", "rt 5M 0 5M") for line in EQUAL], "the real-time curves do not fit the link: exceeds at 1 by 2000000"),
                          (["interface if0 bandwidth 8M cbq", "class cbq if0 root NULL pbandwidth 100 default"], "CBQ has no service curves")):
        said = altqwork("bound", *files(tmp_path, lines, TWO))[1]
        assert f"  none: {reason}\n" in said
    said = altqwork("bound", "--rate", "5M", "--class", "a", *files(tmp_path, EQUAL, TWO[:1]))[1]
    assert "none: no packet of it came" in said and "none: the rate is above the second slope of its curve, 4000000" in said


@pytest.mark.parametrize("words, why", [(["--class", "x"], "no class that holds packets"), (["--target", "10ms"], "2 classes have a real-time curve"),
                                        (["--target", "10"], "no number with one of"), (["--rate", "0"], "from 1 to 10^12"), (["--rate", "1.5"], "no whole number")])
def test_words_that_are_refused(altqwork, program, tmp_path, words, why):
    try:
        status, _said, fault = altqwork("bound", *words, *files(tmp_path, EQUAL, TWO))
    except SystemExit as end:
        status, fault = end.code, why
    assert status == 2 and why in fault


def test_a_packed_capture_and_several(altqwork, program, tmp_path):
    import gzip

    config, capture = files(tmp_path, EQUAL, TWO)
    (tmp_path / "a.pcap.gz").write_bytes(gzip.compress(capture.read_bytes()))
    _config, more = files(tmp_path / "..", EQUAL, [(0, 500, 5004)] * 3)
    said = altqwork("bound", "--ns", "--class", "a", config, tmp_path / "a.pcap.gz", more)[1].splitlines()
    assert said[-1].split()[:5] == ["a", "4", "4000000", "1500", "4000000"]


def tried(search):
    """The least curve by trying all, or None."""
    for m2 in range(search.begin * search.step, search.link.rate + 1, search.step):
        wanted = search.burst(m2) * BYTE
        for m1 in [0, *range(m2, search.link.rate + 1, search.step)]:
            for d in [0] if m1 == m2 else range(MS, search.time + 2 * MS, MS):
                curve = Curve(m1, d, m2)
                if amount(curve, search.time) >= wanted and search.link.excess(curve) <= 0:
                    return curve
    return None


@settings(UNHURRIED, max_examples=60)
@given(strategies.integers(0, 2**32))
def test_the_target_has_the_least_curve(seed):
    chance = random.Random(seed)
    rate = chance.choice([2, 3, 4]) * MS
    others = [Curve(chance.choice([0, 1, 2]) * MS, chance.randrange(0, 4) * MS, chance.randrange(0, 1_500_000)) for _ in range(chance.randrange(3))]
    arrival, length = columns([(chance.choice([0, 1, MS, chance.randrange(9 * MS)]), chance.randrange(100, 900)) for _ in range(chance.choice([1, 3, 9]))])
    search = Search(Link(rate, others), lambda m2: conforming.least_burst(arrival, length, m2), chance.randrange(MS, 8 * MS), chance.choice([1, 300_000]), rate // 40)
    found = search.least()
    assert (found and found.curve) == tried(search)


def test_a_target(altqwork, program, tmp_path):
    config, capture = files(tmp_path, EQUAL, [(at * MS, 200, 5004) for at in range(0, 100, 10)] + [(at * MS, 1000, 9000) for at in range(100)])
    status, said, _fault = altqwork("bound", "--ns", "--class", "a", "--rate", "160K", "--target", "2ms", config, capture)
    # 200 bytes each 10 ms are 160 kbit/s; 999,999 ns are left beside the longest packet of 1,000,000
    assert status == 0 and said.splitlines()[-1] == ("a: rt 1601000 1 160000 is the least curve with a bound below 2000000 ns: 1999376 ns, with a burst of 200 bytes; the curves fit")
    status, said, _fault = altqwork("bound", "--class", "a", "--target", "1ms", config, capture)
    assert status == 1 and said.splitlines()[-1] == "a: no curve has a bound below 1.000 ms: the longest packet alone takes 1.000 ms"
    status, said, _fault = altqwork("bound", "--class", "a", "--target", "1.01ms", config, capture)
    assert status == 1 and "fits beside the others" in said


def test_curves_of_a_slope_give_what_is_wanted():
    for m2, wanted, time in ((1000, 10**12, 10 * MS), (4 * MS, 8 * 10**12, 10 * MS), (10**6, 8 * 10**12, 7_654_321)):
        found = curves_of(m2, wanted, time, 1000)
        assert found == sorted(found, key=lambda curve: (curve.m1, curve.d))
        assert all(amount(curve, time) >= wanted and curve.d % MS == 0 for curve in found)


def test_pictures(altqwork, program, tmp_path):
    config, capture = files(tmp_path, EQUAL, [(at * MS, 200, 5004) for at in range(0, 100, 10)])
    words = ["--class", "a", "--rate", "200K", "--picture", tmp_path / "b.svg", "--reasons", tmp_path / "r.svg"]
    assert altqwork("bound", *words, config, capture)[0] == 0
    bursts, reasons = (tmp_path / "b.svg").read_text(), (tmp_path / "r.svg").read_text()
    assert bursts.count("<circle") == 3 and bursts.count(">200</text>") == 3 and bursts.endswith("</svg>\n")  # two dots, the key's, and an axis' number
    assert "a: at most 0.6 ms" in reasons and "first(S, B)" in reasons


def test_the_package(program):
    table = pandas.DataFrame({"time_ns": [0, 1, 1], "length": [1000, 1000, 1000], "port": [9000, 5004, 5005]})
    found = altqplay.bound("\n".join(MISSED), table, rates=[10**6])
    assert list(found.columns) == ["class", "packets", "rate", "burst", "bound", "greatest", "reason"]
    assert found[["class", "rate", "burst", "bound", "greatest"]].values.tolist()[:4] == [
        ["a", 4 * MS, 1000, 3 * MS, 1_999_999], ["a", MS, 1000, 3 * MS, 1_999_999], ["b", 4 * MS, 1000, 3 * MS, 2_999_999], ["b", MS, 1000, 3 * MS, 2_999_999]]
    assert pandas.isna(found["bound"].iloc[4]) and found["reason"].iloc[4] == "it has no real-time curve"
    assert altqplay.least_curve("\n".join(MISSED), table, "a", 10 * MS).m1 > 0
    assert altqplay.least_curve("\n".join(MISSED), table, "a", MS) is None
    with pytest.raises(altqplay.Refused):
        altqplay.least_curve("\n".join(MISSED), table, "x", MS)


def test_times_are_said_in_milliseconds():
    assert Times().text(time_of(1514, 4 * MS)) == "3.028 ms" and os.path.exists(example("office.conf"))

"""Wants: their grammar, verdicts reckoned by hand, and against the packets one by one."""

from fractions import Fraction

import numpy
import pytest
from hypothesis import given, settings
from hypothesis import strategies as some

from altqplay.workbench.faults import Refused
from altqplay.workbench.texts import Times
from altqplay.workbench.wants import BROKEN, KEPT, UNTESTED, Verdict, all_kept, judged, known, lines, want_of

MS = 10**6


@pytest.mark.parametrize("text, want", [
    ("voip delay<10ms", ("voip", "delay", "<", 10 * MS, False)), ("voip delay<=2.5ms", ("voip", "delay", "<=", 2_500_000, False)),
    (" a/b  delay <  30 us ", ("a/b", "delay", "<", 30_000, False)), ("x delay<1s", ("x", "delay", "<", 10**9, False)),
    ("x delay<1.5ns", ("x", "delay", "<", Fraction(3, 2), False)), ("voip drop=0", ("voip", "drop", "=", 0, False)),
    ("drop drop<5", ("drop", "drop", "<", 5, False)), ("voip drop<=0.1%", ("voip", "drop", "<=", Fraction(1, 1000), True)),
    ("bulk rate>=2M", ("bulk", "rate", ">=", 2 * MS, False)), ("bulk rate>64K", ("bulk", "rate", ">", 64_000, False)),
    ("bulk rate>=1.5G", ("bulk", "rate", ">=", 1_500_000_000, False)), ("bulk rate>=9", ("bulk", "rate", ">=", 9, False))])
def test_grammar(text, want):
    found = want_of(text)
    assert (found.of, found.measure, found.operator, found.bound, found.is_share) == want


@pytest.mark.parametrize("text, why", [
    ("", "not CLASS"), ("voip", "not CLASS"), ("delay<10ms", "not CLASS"), ("voip delay", "not CLASS"), ("voip delay<", "not CLASS"), ("voip delay<-1ms", "not CLASS"),
    ("voip lateness<1ms", "not CLASS"), ("voip delay<1e3ms", "not CLASS"), ("voip delay<10ms drop=0", "not CLASS"), ("v\x1b[31m delay<1ms", "not CLASS"),
    ("voip delay<10", "ns or us or ms or s"), ("voip delay<10 min", "ns or us"), ("voip delay=1ms", "delay takes < or <="), ("voip delay>1ms", "delay takes"),
    ("voip drop>=1", "drop takes = or < or <="), ("voip drop=1.5", "whole number"), ("voip drop<1ms", "nothing or %"),
    ("bulk rate<2M", "rate takes >= or >"), ("bulk rate>=2m", "K or M or G"), ("bulk rate>=2Mb", "K or M or G")])
def test_what_is_no_want(text, why):
    with pytest.raises(Refused, match="--want") as fault:
        want_of(text)
    assert why in str(fault.value) and fault.value.args[0].isprintable()


def verdict(text, packets):
    """The verdict on packets (arrival, end or None, length)."""
    arrival = numpy.array([packet[0] for packet in packets], dtype=numpy.int64)
    end = numpy.array([-1 if packet[1] is None else packet[1] for packet in packets], dtype=numpy.int64)
    length = numpy.array([packet[2] for packet in packets], dtype=numpy.int64)
    return judged(want_of(text), arrival, end, length, end >= 0)


# 1,000 bytes are 8,000 bits. The first two packets keep the class busy for 3 ms, the third for 1 ms; the fourth is dropped.
FOUR = [(0, 2 * MS, 1000), (MS, 3 * MS, 1000), (9 * MS, 10 * MS, 2000), (9 * MS, None, 1000)]


@pytest.mark.parametrize("text, state, breaking, packets, worst", [
    ("c delay<2ms", BROKEN, 2, 3, 2 * MS), ("c delay<=2ms", KEPT, 0, 3, 2 * MS), ("c delay<2000001ns", KEPT, 0, 3, 2 * MS),
    ("c delay<2000000.5ns", KEPT, 0, 3, 2 * MS), ("c delay<=1.999ms", BROKEN, 2, 3, 2 * MS), ("c delay<1ms", BROKEN, 3, 3, 2 * MS),
    ("c drop=0", BROKEN, 1, 4, 1), ("c drop=1", KEPT, 0, 4, 1), ("c drop<1", BROKEN, 1, 4, 1), ("c drop<=25%", KEPT, 0, 4, 1), ("c drop<25%", BROKEN, 1, 4, 1),
    # 4,000 bytes are 32,000 bits in 4 ms: 8 Mbit/s
    ("c rate>=8M", KEPT, 0, 3, 8 * MS), ("c rate>8M", BROKEN, 3, 3, 8 * MS), ("c rate>=8000000.1", BROKEN, 3, 3, 8 * MS)])
def test_verdicts(text, state, breaking, packets, worst):
    found = verdict(text, FOUR)
    assert (found.state, found.breaking, found.packets, found.worst) == (state, breaking, packets, worst)


@pytest.mark.parametrize("text, packets, state", [
    ("c delay<1s", [], UNTESTED), ("c delay<1s", [(0, None, 60)], UNTESTED), ("c drop=0", [], UNTESTED), ("c drop=0", [(0, None, 60)], BROKEN),
    ("c rate>=1", [], UNTESTED), ("c rate>=1", [(0, None, 60)], BROKEN)])
def test_a_want_that_no_packet_tests_is_not_kept(text, packets, state):
    found = verdict(text, packets)
    assert found.state == state and not all_kept([[found]])


def test_last_play_counts():
    kept, broken = verdict("c delay<3ms", FOUR), verdict("c delay<2ms", FOUR)
    assert all_kept([]) and all_kept([[broken, kept]]) and not all_kept([[kept, broken]]) and not all_kept([[broken, kept], [kept, broken]])


def test_a_class_that_is_not_there_is_refused():
    known([want_of("b drop=0")], ["a", "b"])
    with pytest.raises(Refused, match="no configuration has a class c; there are a, b"):
        known([want_of("c drop=0")], ["a", "b"])


@pytest.mark.parametrize("text, told", [
    ("c delay<2ms", "broken: 2 of 3 packets, the slowest 2.000 ms"), ("c delay<3ms", "kept: 3 packets, the slowest 2.000 ms"),
    ("c drop=0", "broken: 1 of 4 packets dropped"), ("c rate>8M", "broken: 8.000 Mbit/s over 3 packets")])
def test_words(text, told):
    assert verdict(text, FOUR).told(Times()) == told


def test_words_of_what_is_untested():
    assert verdict("c delay<1s", []).told(Times()) == "untested: no packet of c was sent"
    assert verdict("c drop=0", []).told(Times()) == "untested: no packet of c was there"


def test_lines():
    rows = [[verdict("c delay<2ms", FOUR[:1]), verdict("c delay<3ms", FOUR)]]
    assert lines(["before", "after"], rows, Times()) == [
        "wants:", "c delay<2ms", "  before  broken: 1 of 1 packets, the slowest 2.000 ms", "  after   kept: 3 packets, the slowest 2.000 ms"]
    assert lines(["play"], [], Times()) == []


TIMES = some.integers(0, 40)
PACKETS = some.lists(some.tuples(TIMES, some.none() | some.integers(1, 40), some.integers(1, 1514)), max_size=12)
WANT = some.sampled_from(["c delay<7ns", "c delay<=7ns", "c delay<6.5ns", "c drop=0", "c drop<2", "c drop<=40%", "c rate>=1G", "c rate>250G"])


@settings(max_examples=300, deadline=None)
@given(WANT, PACKETS)
def test_verdicts_are_those_of_the_packets(text, steps):
    """Packet by packet, and the busy time nanosecond by nanosecond."""
    packets = [(at, None if took is None else at + took, length) for at, took, length in steps]
    found, want = verdict(text, packets), want_of(text)
    sent = [packet for packet in packets if packet[1] is not None]
    if want.measure == "delay":
        late = [end - at for at, end, _length in sent if not {"<": end - at < want.bound, "<=": end - at <= want.bound}[want.operator]]
        if sent:
            assert found == Verdict(want, BROKEN if late else KEPT, len(late), len(sent), max(end - at for at, end, _length in sent))
    elif want.measure == "drop" and packets:
        share = Fraction(len(packets) - len(sent), len(packets) if want.is_share else 1)
        assert (found.state == KEPT) == {"<": share < want.bound, "<=": share <= want.bound, "=": share == want.bound}[want.operator]
    elif packets:
        busy = sum(any(at <= moment < end for at, end, _length in sent) for moment in range(100))
        rate = Fraction(8 * 10**9 * sum(length for _at, _end, length in sent), busy) if sent else 0
        assert found.worst == rate and (found.state == KEPT) == {">=": rate >= want.bound, ">": rate > want.bound}[want.operator]
    assert (found.state == UNTESTED) == (not (sent if want.measure == "delay" else packets))

"""The model of the rules: numbers of the pages, openings by their definition, and random plays of the program."""

import dataclasses
import random
from types import SimpleNamespace

import pytest
import random_plays
from hypothesis import example as row
from hypothesis import given, settings
from hypothesis import strategies as some

from altqplay.workbench.conf import Curve
from altqplay.workbench.rules.cbq import moved, needed
from altqplay.workbench.rules.classes import Queueing
from altqplay.workbench.rules.curves import Openings
from altqplay.workbench.rules.frames import is_capable, precedence, type_of_service
from altqplay.workbench.rules.queues import Red, idled, queue_of
from altqplay.workbench.rules.words import Words
from altqplay.workbench.why_replay import Replay

MBIT, MS, KB = 10**6, 10**6, 8 * 10**12


def amount(curve, time):
    """What a curve gives in a time, by its definition."""
    return curve.m1 * min(time, curve.d) + curve.m2 * max(0, time - curve.d) if time > 0 else 0


def over(curve, openings, time):
    """The least over some openings of the count and what the curve gives from there on."""
    return min(count + amount(curve, time - at) for at, count in openings)


def is_first(reaches, moment):
    """Whether a moment is the first of which something holds that goes on to hold."""
    return reaches(moment) and not reaches(moment - 1)


SLOPE, TIME = some.integers(1, 12), some.integers(0, 9)
CURVES = some.one_of(
    some.tuples(SLOPE, TIME, SLOPE).map(lambda c: Curve(max(c[0], c[2]), c[1], min(c[0], c[2]))), some.tuples(TIME, SLOPE).map(lambda c: Curve(0, *c)),
    some.tuples(SLOPE, TIME.filter(bool)).map(lambda c: Curve(*c, 0)))
OPENINGS = some.lists(some.tuples(TIME, some.integers(0, 30)), min_size=1, max_size=5)


@settings(max_examples=3000, deadline=None)
@given(CURVES, OPENINGS, some.integers(1, 60))
@row(Curve(12, 1, 1), [(0, 0), (5, 30), (1, 0)], 1)
def test_openings_are_those_of_the_definition(curve, steps, further):
    told, openings, at, count = Openings(curve), [], 0, 0
    for wait, sent in steps:
        at, count = at + wait, count + sent
        openings.append((at, count))
        told.begin(at, count)
    line = Curve(curve.m2, 0, curve.m2) if curve.m1 < curve.m2 else curve
    for curve, moment, wanted in ((curve, told.reaches(count + further), count + further), (line, told.soonest(count), count)):
        if moment is None:
            assert over(curve, openings, at + 10**6) < wanted
        else:
            assert is_first(lambda time: over(curve, openings, time) >= wanted, moment) or (wanted == count and moment <= at and over(curve, openings, at) >= wanted)
    assert told.eligible(at + further) == over(line, openings, at + further)


def test_worked_curves():
    """docs/reference/CURVES.md."""
    one = Openings(Curve(0, 20 * MS, 4 * MBIT))
    one.begin(0, 0)
    assert one.reaches(2 * KB) == 24 * MS
    one.begin(10 * MS + 1, KB)
    assert one.reaches(2 * KB) == 32 * MS + 1 and one.eligible(10 * MS + 1) == KB and one.soonest(KB) <= 10 * MS + 1
    two = Openings(Curve(8 * MBIT, 10 * MS, 2 * MBIT))
    two.begin(0, 0)
    two.begin(MS, 3 * KB)
    assert two.reaches(4 * KB) == 4 * MS
    three = Openings(Curve(8 * MBIT, 10 * MS, 0))
    three.begin(0, 0)
    assert three.reaches(10 * KB) == 10 * MS and three.reaches(10 * KB + 1) is None


def test_worked_averages():
    """docs/reference/CBQ.md and docs/reference/QUEUE-RULES.md: averages, verdicts and counts."""
    assert moved(12000000, -10500000, 12000000) == 1125000 and moved(-9410156, 9116089, 12000000) == 0 and needed(-9410156) == 9116089
    red = Red(50, 8 * MBIT, "red")
    red.waiting = [5]
    assert red.move(0, 0).after == 20480
    red.waiting = [6]
    assert red.move(0, 0).after == 45016 and idled(20971520, 3) == 20848880 and red.step == MS
    red.averages, red.counts, red.waiting = [20971520], [19], [10]
    verdict = red.arrive(10, 0, SimpleNamespace(precedence=0, is_capable=False), None)
    assert (verdict.word, verdict.count, verdict.drawn, verdict.spacing) == ("early", 0, None, 0)
    for before, after, word in ((31457280, 31457280, "forced"), (31457278, 31457279, "early")):
        red.averages, red.counts, red.waiting = [before], [10], [15]
        verdict = red.arrive(15, 0, SimpleNamespace(precedence=0, is_capable=False), None)
        assert (verdict.word, red.averages) == (word, [after])
    ecn = queue_of(Queueing(50, "ecn"), 8 * MBIT)
    for capable, word in ((True, "marked"), (False, "early")):
        ecn.averages, ecn.counts, ecn.waiting = [20971520], [19], [10]
        assert ecn.arrive(10, 0, SimpleNamespace(number=1, precedence=1, is_capable=capable), None).word == word and ecn.counts == [0]
    rio = queue_of(Queueing(50, "rio"), 8 * MBIT)
    for waiting, packet in enumerate(SimpleNamespace(precedence=n, is_capable=False) for n in range(3)):
        assert rio.arrive(waiting, 0, packet, None).word == "kept"
        rio.added(packet)
    assert rio.averages == [0, 4096, 12280] and rio.counts == [-1, -1, -1]


def test_words_and_frames():
    """docs/reference/FORMATS.md and docs/reference/FRAMES.md."""
    words = Words(42)
    assert [f"{words.draw():08x}" for _ in range(3)] == ["a15c02b7", "7b47f409", "ba1d3330"] and words.drawn == 3
    frame = bytes.fromhex("020000000002020000000001" "0800" "452800f800000000" "401100000a0000010a000002" "0403138900e40000")
    assert type_of_service(frame) == 0x28 and precedence(0x28) == 0
    tag, other = bytes.fromhex("81000001"), bytes.fromhex("88a80002")
    for tags, found in ((tag, 0x28), (tag + other, 0x28), (tag + other + tag, None)):
        assert type_of_service(frame[:12] + tags + frame[12:]) == found
    assert [type_of_service(frame[:size]) for size in (13, 33, 34)] == [None, None, 0x28]
    assert type_of_service(frame[:14] + b"\x44" + frame[15:]) is None and type_of_service(frame[:14] + b"\x55" + frame[15:]) is None
    assert type_of_service(bytes(12) + bytes.fromhex("86dd6b80") + bytes(38)) == 0xB8
    assert [precedence(4 * point) for point in (10, 12, 14, 34, 36, 38, 8, 11, 42, 46, 2, 4)] == [0, 1, 2, 0, 1, 2, 0, 0, 0, 0, 0, 0]
    assert [is_capable(tos) for tos in (None, 0, 1, 2, 3, 0x28)] == [False, False, True, True, True, False]


def test_random_plays(program, tmp_path):
    @settings(max_examples=80, deadline=None)
    @given(some.integers(0, 10**9))
    def holds(seed):
        replay = random_plays.replayed(random.Random(seed), seed, str(tmp_path))
        assert random_plays.difference(replay, str(tmp_path)) is None and replay.at == len(replay.question.rows)

    holds()


def altered(chance, rows):
    """The rows of some fates, of which one has another rule, another start, or is dropped and not sent, or sent and not dropped."""
    at = chance.randrange(len(rows))
    line, fate = rows[at]
    words = {"realtime": "share", "share": "realtime", "own": "borrow", "borrow": "own", "full": "early", "early": "full", "forced": "full"}
    if fate.start is None:
        change = chance.choice([{"fate": words[fate.fate]}, {"fate": "share", "start": fate.arrival, "end": fate.arrival + 1}])
    else:
        change = chance.choice([{"fate": words[fate.fate]}, {"start": fate.start + 1}, {"end": fate.end + 1}, {"fate": "full", "start": None, "end": None}])
    return line, rows[:at] + [(line, fate._replace(**change))] + rows[at + 1:]


@pytest.mark.parametrize("seed", range(30))
def test_one_changed_decision_of_a_random_play(seed, program, tmp_path):
    chance = random.Random(f"changed {seed}")
    question = random_plays.replayed(chance, seed, str(tmp_path)).question
    for _ in range(5 if question.rows else 0):
        line, rows = altered(chance, question.rows)
        replay = Replay(dataclasses.replace(question, rows=rows))
        replay.decisions(lambda _decision: None)
        assert replay.otherwise.row == line

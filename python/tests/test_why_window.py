"""`why` of a long play: the decisions that are asked for, from the state that the fates tell, are those of a replay of all."""

import os
import random
from types import SimpleNamespace

import pytest
import random_plays
from conftest import classic
from hypothesis import given, settings
from hypothesis import strategies as some
from worked import QUARTER

from altqplay.workbench import why, why_busy, why_state, why_virtual, why_window
from altqplay.workbench.conf import Curve
from altqplay.workbench.play import play
from altqplay.workbench.rules.classes import HfscClass, Queueing
from altqplay.workbench.rules.hfsc import Hfsc
from altqplay.workbench.rules.link import Link
from altqplay.workbench.why_history import Below

numpy = pytest.importorskip("numpy")
HEAD = "number,arrival,length,class,fate,start,end\n"


def drawn(chance, seed, folder):
    """Draws a play into a folder; answers the words that name it, and its rows."""
    config, arrivals = (os.path.join(folder, name) for name in ("c.conf", "a.pcap"))
    text, capture = random_plays.draw(chance)
    with open(config, "w", encoding="ascii") as file:
        file.write(text)
    with open(arrivals, "wb") as file:
        file.write(capture)
    fates = play(config, "if0", arrivals, folder, seed).fates
    with open(fates, encoding="ascii") as file:
        rows = [line.split(",") for line in file.read().splitlines()[1:]]
    return [fates, config, "--arrivals", arrivals, "--seed", seed], rows


def moments(rows):
    """Moments of a play, and such beside them."""
    found = [int(row[place]) for row in rows for place in (1, 5, 6) if row[place]]
    return sorted({max(0, moment + step) for moment in found for step in (-1, 0, 1)})


def both(altqwork, monkeypatch, words):
    """What `why` says by a replay of all, and of the decisions alone; the last line of each is left out."""
    found = []
    for long, near in ((10**9, 0), (-1, 0), (-1, 2000)):
        monkeypatch.setattr(why, "LONG", long)
        monkeypatch.setattr(why_window, "NEAR", near)
        status, said, fault = altqwork("why", *words)
        found.append((status, said.splitlines()[:-1] if status == 0 else said.splitlines(), fault))
    assert found[1] == found[2]
    return found[:2]


@pytest.mark.parametrize("few, last", [(16, 4096), (1, 2)])
def test_random_decisions(altqwork, program, tmp_path, monkeypatch, few, last):
    """The second time all busy periods are reckoned beside each other, and averages are sought from the last two idle times on."""
    monkeypatch.setattr(why_busy, "FEW", few)
    monkeypatch.setattr(why_state, "LAST", last)

    @settings(max_examples=60, deadline=None)
    @given(some.integers(0, 10**9))
    def holds(seed):
        chance = random.Random(seed)
        words, rows = drawn(chance, seed, str(tmp_path))
        if rows:
            packets = [chance.randrange(1, len(rows) + 1) for _ in range(chance.choice([0, 1, 1, 3]))]
            at = [chance.choice(moments(rows)) for _ in range(chance.choice([1, 2]) if not packets else chance.choice([0, 0, 1]))]
            asked = [word for number in packets for word in ("--packet", number)] + [word for moment in at for word in ("--at", moment)]
            whole, part = both(altqwork, monkeypatch, [*words, *asked])
            assert whole[0] == 0 and part == whole

    holds()


def test_each_packet_of_one_play(altqwork, program, tmp_path, monkeypatch):
    """Of some seeds, each packet and each moment."""
    for seed in (1, 2, 3):
        words, rows = drawn(random.Random(seed), seed, str(tmp_path))
        for number in range(1, min(len(rows), 60) + 1):
            whole, part = both(altqwork, monkeypatch, [*words, "--packet", number])
            assert whole[0] == 0 and part == whole
        for moment in moments(rows)[:60]:
            whole, part = both(altqwork, monkeypatch, [*words, "--at", moment])
            assert whole[0] == 0 and part == whole


@given(some.integers(0, 10**9), some.sampled_from([1, 3, 10**9]))
@settings(max_examples=150, deadline=None)
def test_busy_periods_beside_each_other(seed, few):
    """Virtual times, openings and the high mark are those that one event after the other gives, of any children whose curves do not fall."""
    found = []
    for family in (random_family(random.Random(seed)) for _ in range(2)):
        if not found:
            family.busy = lambda *_words: None
        with pytest.MonkeyPatch.context() as patch:
            patch.setattr(why_busy, "FEW", few)
            family.set()
        sharing = [node.sharing for node in family.nodes]
        found.append((family.parent.high, [node.virtual for node in family.nodes], family.highs.tolist(), [(one.first, one.last, one.steep, one.flat) for one in sharing]))
    assert found[0] == found[1]


def random_family(chance):
    """Some children with whole numbers of packets that come and go at random places of a play."""
    count = chance.choice([1, 2, 3, 6])
    classes = [HfscClass("root", None, Queueing())]
    for place in range(count):
        slope = chance.choice([1000, 777_777, 2_000_000, 10**9])
        classes.append(HfscClass(f"c{place}", 0, Queueing(), share=chance.choice([Curve(slope, 0, slope), Curve(0, 5_000_000, slope)])))
    waiting, events, sent = [0] * count, [[[], [], []] for _ in range(count)], chance.choice([[1], [60, 1514]])
    for at in range(chance.choice([0, 10, 100, 400])):
        one = chance.randrange(count)
        if waiting[one] and chance.random() < 0.6:
            waiting[one] -= 1
            events[one][1].append(at)
            events[one][2].append(chance.choice(sent))
        else:
            waiting[one] += 1
            events[one][0].append(at)
    nodes = Hfsc(classes, Link(10**9)).members
    return why_virtual.Family(nodes[0], {place + 1: below_of(*one) for place, one in enumerate(events)})


def below_of(came, went, lengths):
    """What came and went of a class, by places among all events."""
    columns = [numpy.array(values, dtype=numpy.int64) for values in (came, went, lengths)]
    history = SimpleNamespace(came_at=columns[0], went_at=columns[1], columns=SimpleNamespace(sent_length=columns[2]))
    return Below(history, numpy.arange(len(came)), numpy.arange(len(went)))


@given(some.lists(some.integers(-10**6, 10**6), max_size=200), some.integers(0, 10**6), some.sampled_from([1, 5, 4096]))
@settings(max_examples=200, deadline=None)
def test_averages_from_the_last_idle_times(idles, cap, last):
    """An average that is sought from the last idle times is that of all of them."""
    node = SimpleNamespace(cap=cap, given=SimpleNamespace(rate=8 * 10**9))
    ends = numpy.cumsum([0] + [idle + 1 for idle in idles])
    columns = SimpleNamespace(end=ends, sent_length=numpy.ones(len(ends), dtype=numpy.int64))
    with pytest.MonkeyPatch.context() as patch:
        patch.setattr(why_state, "LAST", last)
        assert why_state.average_of(node, columns, numpy.arange(len(ends))) == why_state.average_behind(cap, idles, cap)


def test_last_line_says_how_many(altqwork, played, monkeypatch):
    """The offer and the sending of packet 6 are two decisions of 18; between them 3 more offers and 3 sendings."""
    one = played(QUARTER, "3x1000@0:5004 6x1000@0")
    monkeypatch.setattr(why, "LONG", 8)
    for near, count in ((0, 2), (8, 8)):
        monkeypatch.setattr(why_window, "NEAR", near)
        assert altqwork("why", one.fates, one.config, "--packet", 6)[1].splitlines()[-1] == f"{one.fates}: 9 fates, of which {count} decisions were replayed, all of them those of the rules"
    monkeypatch.setattr(why, "LONG", 10)
    assert altqwork("why", one.fates, one.config, "--packet", 6)[1].splitlines()[-1] == f"{one.fates}: 9 fates, all of them those of the rules"


def test_a_changed_decision(altqwork, played, tmp_path, monkeypatch):
    """Packet 6 of the quarters' play starts at 3,000,000; with another rule it is not the rules', and its line is told."""
    one = played(QUARTER, "3x1000@0:5004 6x1000@0")
    monkeypatch.setattr(why, "LONG", 0)
    with open(one.fates, encoding="ascii") as file:
        text = file.read()
    (tmp_path / "x.csv").write_text(text.replace("6,0,1000,b,share", "6,0,1000,b,realtime"))
    status, said, _fault = altqwork("why", tmp_path / "x.csv", one.config, "--packet", 6)
    assert status == 1 and said.endswith(f"{tmp_path}/x.csv: line 5 (row 4): 6,0,1000,b,realtime,3000000,4000000\nby the rules: 6,0,1000,b,share,3000000,4000000\n")


@pytest.mark.parametrize("rows, why_not", [
    ("1,0,60,b,share,0,60000\n1,0,60,b,full,,\n", "packet 1 has two fates"), ("2,0,60,b,share,0,60000\n", "packet 1 has no fate"), ("1,0,60,c,share,0,60000\n", "c is no class"),
    ("1,5,60,b,share,5,60005\n2,4,60,b,full,,\n", "packet 2 arrives before packet 1"), ("1,0,60,b,late,0,60000\n", "no fate: 'late'"), ("1,0,60,b,share,0,60000\n", "no packet 9: it has 1")])
def test_what_is_refused(altqwork, program, tmp_path, monkeypatch, rows, why_not):
    monkeypatch.setattr(why, "LONG", 0)
    (tmp_path / "c.conf").write_text("\n".join(QUARTER) + "\n")
    (tmp_path / "f.csv").write_text(HEAD + rows)
    (tmp_path / "a.pcap").write_bytes(classic(1, []))
    status, said, fault = altqwork("why", tmp_path / "f.csv", tmp_path / "c.conf", "--packet", 9)
    assert (status, said) == (2, "") and why_not in fault


def test_fates_out_of_order_are_replayed_whole(altqwork, played, tmp_path, monkeypatch):
    """Two sendings that changed places say nothing of the state; the replay tells the row, as of few fates."""
    one = played(QUARTER, "3x1000@0:5004 6x1000@0")
    with open(one.fates, encoding="ascii") as file:
        lines = file.read().splitlines()
    lines[2], lines[3] = lines[3], lines[2]
    (tmp_path / "x.csv").write_text("\n".join(lines) + "\n")
    for long in (0, 100):
        monkeypatch.setattr(why, "LONG", long)
        status, said, _fault = altqwork("why", tmp_path / "x.csv", one.config, "--packet", 9)
        assert status == 1 and f"line 3 (row 2): {lines[2]}" in said

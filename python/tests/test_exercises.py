"""Exercises: each student has others, the same ones again; right answers computed here a second time; marks of answers and of schedulers."""

import altqplay
import pandas
import pytest
from altqplay import exercises

pytestmark = pytest.mark.usefixtures("program")
STUDENTS = [f"s{number}" for number in range(8)]


@pytest.mark.parametrize("kind", exercises.KINDS)
def test_an_exercise_is_drawn_again_as_it_was_and_its_solution_is_right(kind):
    drawn = []
    for student, course in [("s0", "2026"), ("s1", "2026"), ("s2", "2026"), ("s0", "2027"), ("s0", "2028")]:
        own, again = exercises.draw(kind, student, course), exercises.draw(kind, student, course)
        assert str(own) == str(again) and own.packets.equals(again.packets)
        assert own.mark(**own.solution())
        drawn.append(str(own) + own.packets.to_csv())
    assert len(set(drawn[:3])) > 1 and len({drawn[0], *drawn[3:]}) > 1


def test_numbers_that_are_drawn_never_change():
    # of another Python or another day the same students have the same exercises
    assert exercises.draw("full", "s1").text == "At 0 come 6 packets of 1,000 bytes, and 2 more at 1000000 ns, to a queue of 4 packets."
    assert exercises.draw("run", "s2").text.startswith("At 0 come 5 packets of 500 bytes. When does each leave the link of 9 Mbit/s")


@pytest.mark.parametrize("student", STUDENTS)
def test_runs(student):
    own = exercises.draw("run", student)
    rate = int(own.conf.split()[3].rstrip("M")) * 10**6
    lengths = own.packets["length"].tolist()
    assert own.solution() == {"ends": [-(-sum(lengths[:n]) * 8 * 10**9 // rate) for n in range(1, len(lengths) + 1)]}


@pytest.mark.parametrize("student", STUDENTS)
def test_full_queues(student):
    own = exercises.draw("full", student)
    limit, ends, dropped = int(own.conf.split("qlimit ")[1].split()[0]), [], []
    for number, at in enumerate(own.packets["time_ns"].tolist(), 1):
        starts = [end - 10**6 for end in ends]
        if sum(start >= at for start in starts) >= limit and not (number == 1):
            dropped.append(number)
        else:
            ends.append(max(at, ends[-1] if ends else 0) + 10**6)
    assert own.solution() == {"dropped": dropped, "last": ends[-1]}


@pytest.mark.parametrize("student", STUDENTS)
def test_due_moments(student):
    own = exercises.draw("due", student)
    m1, d, m2 = (int(word.rstrip("M")) for word in own.conf.splitlines()[2].split(" sc ")[1].split()[:3])
    bits = [8 * sum(own.packets["length"][:n]) for n in range(1, len(own.packets) + 1)]
    due = [-(-1000 * one // m1) if one <= 1000 * m1 * d else 10**6 * d + -(-1000 * (one - 1000 * m1 * d) // m2) for one in bits]
    assert own.solution()["due"] == due and max(bits) > 1000 * m1 * d


@pytest.mark.parametrize("student", STUDENTS)
def test_meters(student):
    own = exercises.draw("meter", student)
    words = own.conf.splitlines()[-1].split()
    rate, small, large = int(words[4].rstrip("M")), int(words[5]), int(words[6])
    committed, excess, before, counts = small, large, 0, {"green": 0, "yellow": 0, "red": 0}
    for at in own.packets["time_ns"].tolist():
        committed, excess, before = committed + (at - before) * rate // 8000, excess, at
        committed, excess = min(committed, small), min(large, excess + max(committed - small, 0))
        colour = "green" if committed >= 1000 else "yellow" if excess >= 1000 else "red"
        committed, excess = committed - 1000 * (colour == "green"), excess - 1000 * (colour == "yellow")
        counts[colour] += 1
    assert own.solution() == counts


@pytest.mark.parametrize("student", STUDENTS)
def test_first_packet_of_red(student):
    # no packet is dropped before it, and each average is 511/512 of the last and what waits, in units of 2^21 a packet
    own = exercises.draw("red", student)
    ends, average, first = [], 0, None
    for number, at in enumerate(own.packets["time_ns"].tolist(), 1):
        waiting = sum(end - 10**6 >= at for end in ends)
        assert waiting or number == 1
        average += 4096 * waiting - average // 512 if waiting else 0
        first = first or (number if average >= 5 * 2**21 else None)
        ends.append(max(at, ends[-1] if ends else 0) + 10**6)
    assert own.solution() == {"first": first}


def test_answers_in_several_forms():
    own = exercises.draw("full", "s1")
    right = own.solution()
    assert own.mark(dropped=" ".join(map(str, right["dropped"])), last=float(right["last"]))
    assert own.mark(dropped=tuple(right["dropped"])).points == 1
    marked = own.mark(reveal=True, dropped=[1], last=right["last"])
    assert not marked and (marked.points, marked.most) == (1, 2) and repr(marked).splitlines()[1] == "  dropped: [1] is wrong: 5 6 8 is right"
    assert own.mark(dropped=[1]).table["right"].isna().all() and "no answer" in repr(own.mark())
    with pytest.raises(altqplay.Refused, match="no answer what: dropped, last"):
        own.mark(what=1)
    with pytest.raises(altqplay.Refused, match="no exercise none"):
        exercises.draw("none", "s1")


def fifo(known, rate):
    """The fates of one queue for all classes."""
    free = run = sent = 0
    for row in known.itertuples(index=False):
        start = max(free, row.arrival)
        run, sent = (run, sent + row.length) if start == free else (start, row.length)
        free = run - (-8 * 10**9 * sent // rate)
        yield (*row, "sent", start, free)


def test_a_scheduler_of_ones_own():
    own = exercises.draw("scheduler", "s1")
    known = own.play().fates.sort_values("number")[["number", "arrival", "length", "class"]]
    theirs = pandas.DataFrame(fifo(known, 8_000_000), columns=["number", "arrival", "length", "class", "fate", "start", "end"])
    marks = own.mark(fates=theirs).table.set_index("answer")["is_right"]
    assert marks.to_dict() == {"rows": True, "link": True, "busy": True, "due": False, "causes": False, "hfsc": False}
    quick = own.mark(fates=theirs.assign(end=theirs["end"] - 1)).table.set_index("answer")["is_right"]
    assert not quick["link"] and quick["rows"]
    short = own.mark(fates=theirs[1:])
    assert short.points == 0 and "not compared" in repr(short)
    assert own.mark().points == 0


def test_a_class_is_marked(tmp_path):
    rows = [{"student": one, "kind": "shares", **exercises.draw("shares", one, "2027").solution()} for one in STUDENTS]
    rows[3]["order"] = "b b b"
    rows.append({"student": "s1", "kind": "full", "last": 5})
    table = exercises.mark(pandas.DataFrame(rows), "2027")
    assert table["points"].tolist() == [1, 1, 1, 0, 1, 1, 1, 1, 0] and table["most"].tolist()[-1] == 2
    assert exercises.mark(rows[:1], "2026")["points"].tolist() in ([0], [1])

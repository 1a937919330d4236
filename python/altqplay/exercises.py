"""Exercises that are drawn for each student, and marked.

    from altqplay import exercises
    own = exercises.draw("shares", "s1234567")
    print(own)
    own.mark(order="a b a b b a")

The numbers of an exercise follow from its kind, the student and the course, so each student has others, and has the same ones again.
The proved program computes what is right. KINDS has the kinds, each after an exercise of docs/teaching/COURSE.md.
"""

from __future__ import annotations

import random
import re
from dataclasses import dataclass, field
from typing import Any, Callable, Iterable, Mapping, NamedTuple, Optional, Union

import pandas

from .checking import check
from .comparing import compare
from .playing import Play, condition, play
from .verifying import verify
from .workbench.faults import Refused
from .workbench.figure_numbers import LEAST, red_averages
from .workbench.rows import fate_rows

MILLISECOND = 10**6
FILTER = "filter if0 a 0 5004 0 0 udp\n"
PORT_A, PORT_B = 5004, 9000
COLOURS = {10: "green", 12: "yellow", 14: "red"}  # code points of the drop precedences of AF1 (RFC 2597)
# What marks a scheduler of one's own: the tests of `verify` by their numbers, and what is said of them.
TESTS = {"rows": ((1, 2, 3), "each packet has one row, as it came"), "link": ((4, 5, 6), "one packet at a time, in order, each as long as the rate takes"),
         "busy": ((7,), "the link does not rest while a packet waits"), "due": ((9,), "real-time curves hold"), "causes": ((10,), "`full` only of a full queue")}


class Mark(NamedTuple):
    """What became of an answer: its name, what was given and what is right, whether they are the same, and what is said of it."""

    answer: str
    given: Any
    right: Any
    is_right: bool
    said: str


class Marked:
    """An exercise that was marked. It is true where all is right. `points` are those of `most`; `table` has a row for each answer."""

    def __init__(self, marks: Iterable[Mark]) -> None:
        self.marks = list(marks)

    def __bool__(self) -> bool:
        return self.points == self.most

    @property
    def points(self) -> int:
        """How many answers are right."""
        return sum(one.is_right for one in self.marks)

    @property
    def most(self) -> int:
        """How many answers there are."""
        return len(self.marks)

    @property
    def table(self) -> pandas.DataFrame:
        """A row for each answer: answer, given, right, is_right and said."""
        return pandas.DataFrame(self.marks, columns=list(Mark._fields))

    def __repr__(self) -> str:
        lines = [f"  {one.answer}: " + ("right" if one.is_right else "no answer" if one.given is None else f"{one.given!r} is wrong") + (f": {one.said}" if one.said else "") for one in self.marks]
        return "\n".join([f"{self.points} of {self.most}", *lines])


@dataclass
class Exercise:
    """An exercise as it was drawn: `text` is the question, `conf` and `packets` what it is of, and `asks` has the names of the answers,
    each with what it is. `solve` computes what is right."""

    text: str
    conf: str
    packets: pandas.DataFrame
    asks: dict[str, str]
    solve: Callable[["Exercise"], dict[str, Any]]
    kind: str = ""
    student: str = ""
    program: Optional[str] = field(default=None, repr=False)

    def __str__(self) -> str:
        asked = "\n".join(f"  {name}: {what}" for name, what in self.asks.items())
        return f"{self.text}\n\n{self.conf}\nAnswers:\n{asked}"

    def play(self) -> Play:
        """The play of the exercise; `.why(n)` says why a packet went as it did."""
        return play(self.conf, self.packets, program=self.program)

    def solution(self) -> dict[str, Any]:
        """What is right, by the names of the answers."""
        return self.solve(self)

    def mark(self, reveal: bool = False, **answers: Any) -> Marked:
        """Marks answers by their names: whole numbers, lists of them, or texts, as `order="a b b"`. What is right is told with `reveal`.
        `Refused` names an answer that is not asked for."""
        unknown = [name for name in answers if name not in self.asks]
        if unknown:
            raise Refused(f"{self.kind}: no answer {unknown[0]}: {', '.join(self.asks)}")
        if self.kind == "scheduler":
            return Marked(of_scheduler(self, answers.get("fates")))
        found = []
        for name, right in self.solution().items():
            given = answers.get(name)
            is_right = name in answers and plain(given) == plain(right)
            found.append(Mark(name, given, right if reveal else None, is_right, "" if is_right or not reveal else f"{shown(right)} is right"))
        return Marked(found)


def plain(answer: Any) -> list[str]:
    """An answer as words, so that `[1, 2]`, `(1, 2)`, `1 2` and `1,2` are one, and so are 5 and 5.0.

    >>> plain([1, 2.0]) == plain("1, 2"), plain("Yes") == plain(True), plain("none") == plain([])
    (True, True, True)
    """
    if isinstance(answer, bool):
        return ["yes" if answer else "no"]
    if isinstance(answer, str):
        words = re.split(r"[\s,;]+", answer.strip().lower())
        return [] if words in ([""], ["none"]) else words
    if isinstance(answer, Iterable):
        return [word for one in answer for word in plain(one)]
    if answer is None:
        return ["?"]
    return [str(int(answer)) if answer == int(answer) else str(answer)]


def shown(right: Any) -> str:
    """What is right, as it is written."""
    return " ".join(plain(right)) or "none"


def packets_of(*bursts: tuple[int, int, int, int]) -> pandas.DataFrame:
    """Packets in the order of their arrival: so many, of a length, at a moment in nanoseconds, to a port."""
    rows = [(at, length, port) for count, length, at, port in bursts for _n in range(count)]
    return pandas.DataFrame(rows, columns=["time_ns", "length", "port"]).sort_values("time_ns", kind="stable", ignore_index=True)


def by_number(own: Exercise) -> pandas.DataFrame:
    """The fates of an exercise's packets, in the order of arrival."""
    return own.play().fates.sort_values("number", ignore_index=True)


def run(draw: random.Random) -> Exercise:
    """After exercise 1: the ends of a run."""
    rate, count, length = draw.choice([6, 7, 9, 11, 13]), draw.randint(3, 6), draw.choice([100, 200, 500, 700])
    return Exercise(f"At 0 come {count} packets of {length} bytes. When does each leave the link of {rate} Mbit/s, in nanoseconds?", f"interface if0 bandwidth {rate}M hfsc\n",
                    packets_of((count, length, 0, PORT_B)), {"ends": "the end of each packet, in their order"}, lambda own: {"ends": by_number(own)["end"].tolist()})


def full(draw: random.Random) -> Exercise:
    """After exercise 2: who is dropped by a full queue."""
    limit, count, later = draw.randint(2, 5), draw.randint(6, 9), draw.choice([1, 2, 3])
    at = later * MILLISECOND + draw.choice([-1, 0, 1])
    conf = f"interface if0 bandwidth 8M hfsc\nclass hfsc if0 root NULL pshare 100\nclass hfsc if0 a root pshare 100 qlimit {limit} default\n"

    def solve(own: Exercise) -> dict[str, Any]:
        fates = by_number(own)
        return {"dropped": fates[fates["end"].isna()]["number"].tolist(), "last": int(fates["end"].max())}

    return Exercise(f"At 0 come {count} packets of 1,000 bytes, and 2 more at {at} ns, to a queue of {limit} packets.", conf, packets_of((count, 1000, 0, PORT_B), (2, 1000, at, PORT_B)),
                    {"dropped": "the numbers of the packets that are dropped, from 1 on", "last": "when the last packet has left, in nanoseconds"}, solve)


def halves(first: str, second: str, head: str = "interface if0 bandwidth 8M hfsc") -> str:
    """A configuration of two leaves with options."""
    return f"{head}\nclass hfsc if0 root NULL pshare 100\nclass hfsc if0 a root {first}\nclass hfsc if0 b root {second} default\n{FILTER}"


def due(draw: random.Random) -> Exercise:
    """After exercise 4: due moments by a curve of two slopes."""
    first, bend, second = draw.choice([4, 5, 6]), draw.choice([4, 5]), draw.choice([1, 2])
    count, length = draw.randint(5, 9), draw.choice([900, 1000])
    conf = halves(f"sc {first}M {bend} {second}M", f"sc 0 {bend} {10 - max(first, second)}M", "interface if0 bandwidth 10M hfsc")

    def solve(own: Exercise) -> dict[str, Any]:
        return {"due": own.play().late()["due"].tolist()[:count], "fits": check(own.conf, program=own.program).fits}

    return Exercise(f"At 0 come {count} packets of {length} bytes for `a`, and none before or after. When is each due, in nanoseconds?", conf,
                    packets_of((count, length, 0, PORT_A)), {"due": "the due moment of each packet", "fits": "whether the link can keep both curves: yes or no"}, solve)


def shares(draw: random.Random) -> Exercise:
    """After exercise 6: the order in which two classes share a link."""
    rates, counts = draw.choice([(1, 2), (2, 4), (1, 3), (2, 1), (3, 1)]), (draw.randint(2, 4), draw.randint(4, 6))
    conf = halves(*(f"ls {rate}M 0 {rate}M" for rate in rates))
    return Exercise(f"At 0 come {counts[0]} packets of 1,000 bytes for `a`, then {counts[1]} for `b`.", conf, packets_of((counts[0], 1000, 0, PORT_A), (counts[1], 1000, 0, PORT_B)),
                    {"order": "the class of each packet, in the order in which they leave, as `a b b`"}, lambda own: {"order": " ".join(own.play().departures["class"])})


def pace(draw: random.Random) -> Exercise:
    """After exercise 7: a class of CBQ that may not borrow."""
    rate, count, length = draw.choice([1, 2, 4]), draw.randint(3, 5), draw.choice([500, 1000])
    conf = (f"interface if0 bandwidth 8M cbq\nclass cbq if0 root NULL pbandwidth 100\n"
            f"class cbq if0 a root exactbandwidth {rate}M maxburst 1 packetsize {length} default\n")
    return Exercise(f"At 0 come {count} packets of {length} bytes for `a`, which may not borrow. When does each start, in nanoseconds?", conf, packets_of((count, length, 0, PORT_B)),
                    {"starts": "the start of each packet"}, lambda own: {"starts": by_number(own)["start"].tolist()})


def red(draw: random.Random) -> Exercise:
    """After exercise 8: from which packet on RED may drop early."""
    burst, apart = draw.randint(30, 60), draw.choice([200_000, 250_000, 500_000])
    conf = "interface if0 bandwidth 8M hfsc\nclass hfsc if0 root NULL pshare 100\nclass hfsc if0 a root pshare 100 qlimit 600 red default\n"
    packets = packets_of((burst, 1000, 0, PORT_B), *((1, 1000, n * apart, PORT_B) for n in range(1, 200)))

    def solve(own: Exercise) -> dict[str, Any]:
        plays = play(own.conf.replace(" red", ""), own.packets, program=own.program)
        averages = red_averages(list(fate_rows(plays.fates_file)))
        return {"first": next(number for number, one in enumerate(averages, 1) if one[2] >= LEAST)}

    return Exercise(f"{burst} packets of 1,000 bytes come at 0 to an empty queue with `red`, and then one each {apart} ns.", conf, packets,
                    {"first": "the number of the first packet that some seed could drop early"}, solve)


def meter(draw: random.Random) -> Exercise:
    """After exercise 14: the colours of a single-rate meter (RFC 2697)."""
    rate, small, large, count = draw.choice([4, 8]), draw.randint(2, 4) * 1000, draw.randint(0, 3) * 1000, draw.randint(6, 9)
    at = draw.choice([1, 2, 3]) * MILLISECOND
    conf = f"{halves('pshare 50', 'pshare 50')}conditioner if0 a srtcm {rate}M {small} {large} 1\n"

    def solve(own: Exercise) -> dict[str, Any]:
        colours = [COLOURS[int(tos) >> 2] for tos in condition(own.conf, own.packets, program=own.program)["tos"]]
        return {name: colours.count(name) for name in COLOURS.values()}

    return Exercise(f"At 0 come {count} packets of 1,000 bytes for `a`, and 3 more at {at} ns. Its meter is srtcm with CIR {rate} Mbit/s, CBS {small} and EBS {large} bytes.",
                    conf, packets_of((count, 1000, 0, PORT_A), (3, 1000, at, PORT_A)), {name: f"how many packets are {name}" for name in COLOURS.values()}, solve)


def scheduler(draw: random.Random) -> Exercise:
    """A scheduler of one's own: its fates are marked by `verify`, and compared with HFSC."""
    first, bend, limit = draw.choice([4, 5, 6]), draw.choice([5, 10]), draw.randint(4, 9)
    conf = halves(f"sc {first}M {bend} 1M", f"sc 0 {bend} {8 - first}M qlimit {limit}")
    moments = sorted(draw.randrange(0, 60 * MILLISECOND) for _n in range(12))
    voice = [(1, draw.choice([200, 300]), at, PORT_A) for at in moments]
    data = [(draw.randint(4, 8), draw.choice([500, 1000, 1500]), n * 10 * MILLISECOND, PORT_B) for n in range(6)]
    return Exercise("Write a scheduler that keeps the curve of `a`. Hand in its fates: number, arrival, length, class, fate (`sent` or `dropped` will do), start and end, "
                    "in the order of decision.", conf, packets_of(*voice, *data), {"fates": "a file or a DataFrame"}, lambda own: {"fates": own.play().fates})


def of_scheduler(own: Exercise, fates: Any) -> list[Mark]:
    """The marks of fates: one for each group of tests that none of its rows fails, and one where it decides as HFSC does."""
    try:
        found = None if fates is None else verify(own.conf, own.packets, fates, foreign=True, program=own.program)
    except Refused as fault:
        return [Mark(name, "", None, False, str(fault)) for name in [*TESTS, "hfsc"]]
    if found is None:
        return [Mark(name, None, None, False, "") for name in [*TESTS, "hfsc"]]
    marks: list[Mark] = []
    for name, (kinds, said) in TESTS.items():
        wrong = [one for one in found.failures if one.kind in kinds]
        is_tested = not any(one.kind <= 3 for one in found.failures) or name == "rows"
        text = f"line {wrong[0].line}, packet {wrong[0].packet}: {wrong[0].because}" if wrong else said if is_tested else "not tested: the rows are not those of the packets"
        marks.append(Mark(name, len(wrong), 0, not wrong and is_tested, text))
    is_like, text = like_hfsc(own, fates) if marks[0].is_right else (False, "not compared: the rows are not those of the packets")
    return [*marks, Mark("hfsc", None, None, is_like, text)]


def like_hfsc(own: Exercise, fates: Any) -> tuple[bool, str]:
    """Whether fates are those of HFSC but for the rules, and where they are first otherwise."""
    try:
        both = compare(own.play(), fates, rules=False)
    except Refused as fault:
        return False, str(fault)
    return bool(both), "as HFSC decides" if both else f"packet {both.first} is the first that HFSC decides otherwise"


KINDS: dict[str, Callable[[random.Random], Exercise]] = {"run": run, "full": full, "due": due, "shares": shares, "pace": pace, "red": red, "meter": meter, "scheduler": scheduler}


def draw(kind: str, student: object, course: object = "", *, program: Optional[str] = None) -> Exercise:
    """The exercise of a kind for a student of a course; a course whose name only the teacher knows keeps it from being drawn at home.

    >>> draw("full", "s1").text
    'At 0 come 6 packets of 1,000 bytes, and 2 more at 1000000 ns, to a queue of 4 packets.'
    """
    if kind not in KINDS:
        raise Refused(f"no exercise {kind}: {', '.join(KINDS)}")
    own = KINDS[kind](random.Random(f"{course} {kind} {student}"))
    own.kind, own.student, own.program = kind, str(student), program
    return own


def mark(answers: Union[pandas.DataFrame, Iterable[Mapping[str, Any]]], course: object = "", reveal: bool = True, *, program: Optional[str] = None) -> pandas.DataFrame:
    """Marks the answers of a class, each a mapping or a row of a table with `student`, `kind`, and the answers by name: a row for each
    with student, kind, points, most, and what is said.

    >>> right = draw("shares", "s1").solution()
    >>> mark([{"student": "s1", "kind": "shares", **right}, {"student": "s2", "kind": "shares", "order": "a"}])[["student", "points", "most"]].values.tolist()
    [['s1', 1, 1], ['s2', 0, 1]]
    """
    rows = []
    for given in answers.to_dict("records") if isinstance(answers, pandas.DataFrame) else answers:
        own = draw(str(given["kind"]), given["student"], course, program=program)
        marked = own.mark(reveal, **{name: value for name, value in given.items() if name in own.asks and not (isinstance(value, float) and value != value)})
        rows.append([own.student, own.kind, marked.points, marked.most, repr(marked)])
    return pandas.DataFrame(rows, columns=["student", "kind", "points", "most", "said"])

"""The page of a report: a line a class for those who decide, a picture a class over time, and folded below them every number.

It is HTML with nothing to load, whose pictures are SVG, so it is small, and fits a phone, a dark screen and paper.
"""

from __future__ import annotations

import html as markup
import os
from typing import Any, Iterable, Optional, Sequence

from . import late, over_time, plays, series, summary, wants
from .printable import printable
from .rows import DROPPED
from .texts import Times

STYLE = os.path.join(os.path.dirname(os.path.abspath(__file__)), "page.css")
STEPS = 300  # of a picture: as many as a phone has room for
MOST_DRAWN, MANY = 20, 5  # the most classes that are drawn, and from how many on their pictures are lower
CLASS_HEAD = ["packets", "sent", *DROPPED, "least", *late.DELAYS]
FLOW_HEAD = ["packets", "dropped", *late.DELAYS]
# Opens what is folded while the page is printed.
SCRIPT = """const folded = []; addEventListener('beforeprint', () => { for (const one of document.querySelectorAll('details:not([open])')) {
one.open = true; folded.push(one) } }); addEventListener('afterprint', () => { while (folded.length) folded.pop().open = false })"""


def said(text: str) -> str:
    """A text as HTML of printable characters."""
    return markup.escape(printable(text), quote=True)


def verdict_html(row: Sequence[wants.Verdict], times: Times) -> str:
    """What becomes of a want: its state in each play, and the last verdict in words."""
    last = row[-1]
    states, told = " → ".join(dict.fromkeys(verdict.state for verdict in row)), last.told(times).split(": ", 1)[1]
    return f'<small>{said(last.want.text.split(" ", 1)[1])}: <b class="{last.state}">{states}</b>, {said(told)}</small>'


def class_line(line: summary.Line, times: Times) -> str:
    """The line of a class. What a change made another is marked as changed, and what is not well by the line's colour."""
    states = [row[-1].state for row in line.verdicts]
    word = line.word or ("" if not states else wants.KEPT if set(states) == {wants.KEPT} else wants.BROKEN)
    is_well = not line.flags and all(state == wants.KEPT for state in states)
    slowest, dropped = summary.slowest_text(line, times), summary.dropped_text(line)
    parts = [("of", line.of), ("slowest" + " changed" * ("→" in slowest), slowest), (f"word {word}", word),
             ("dropped" + " changed" * ("→" in dropped), dropped)]
    told = "".join(f'<small class="flag">{said(flag)}</small>' for flag in line.flags) + "".join(verdict_html(row, times) for row in line.verdicts)
    body = "".join(f'<span class="{shade}">{said(text)}</span>' for shade, text in parts)
    return f'<li class="{word if is_well else "broken"}" data-of="{said(line.of)}">{body}<span class="wants">{told}</span></li>'


def cell(name: str, number: Optional[int], before: Optional[int], is_after: bool, times: Times) -> str:
    """A number in a table, bold where a change made it another. A time has its nanoseconds as its title."""
    is_time = name in late.TIMES
    text = "-" if number is None else times.number(number) if is_time else f"{number:,}"
    title = f' title="{number} ns"' if is_time and number is not None and not times.exact else ""
    return f"<td{title}>{f'<b>{text}</b>' if is_after and number != before else text}</td>"


def rows(name: str, head: Sequence[str], labels: Sequence[str], numbers: Sequence[Sequence[Optional[int]]], times: Times) -> list[str]:
    """The rows of what a table is of: one for each play."""
    found = []
    for place, (label, own) in enumerate(zip(labels, numbers)):
        cells = "".join(cell(what, number, before, place == 1, times) for what, number, before in zip(head, own, numbers[0]))
        of = said(name) if place == 0 else ""
        found.append(f'<tr{" class=head" if place == 0 else ""} data-of="{said(name)}" data-play="{label}"><td class="text">{of}</td>'
                     f'<td class="text">{label}</td>{cells}</tr>')
    return found


def table(name: str, head: Sequence[str], lines: Iterable[str]) -> str:
    """A table with its head, which is wider than a phone."""
    heads = "".join(f'<th{" class=text" if place < 2 else ""}>{word}</th>' for place, word in enumerate(head))
    return f'<div class="wide"><table id="{name}"><tr>{heads}</tr>{"".join(lines)}</table></div>'


def with_due(sides: Sequence[Any], head: Sequence[str]) -> list[str]:
    """The head of a table, with due moments where packets have any."""
    return [*head, *(late.LATENESS if late.has_due(sides) else [])]


def class_numbers(side: Any, own: Any) -> list[Optional[int]]:
    """A play's numbers of the packets at some places, as CLASS_HEAD names them, and of their due moments."""
    return [len(own), int(side.is_sent[own].sum()), *(side.count(own, fate) for fate in DROPPED), *late.delays(side, own), *late.lateness(side, own)]


def class_table(sides: Sequence[Any], times: Times) -> str:
    """The table by class, with the sum of all where there are several."""
    names, head, lines = plays.class_names(sides), with_due(sides, CLASS_HEAD), []
    for name in names + (["all"] if len(names) > 1 else []):
        owns = [plays.every(side) if name == "all" and name not in names else side.class_is(name) for side in sides]
        lines += rows(name, head, [side.label for side in sides], [class_numbers(side, own) for side, own in zip(sides, owns)], times)
    return table("classes", ["class", "play", *head], lines)


def flow_table(sides: Sequence[Any], flows: Any, most: int, times: Times) -> str:
    """The flows that lose most in the last play."""
    head, lines = with_due(sides, FLOW_HEAD), []
    for flow, owns in late.losing_flows(sides, flows, most):
        lines += rows(flows.names[flow], head, [side.label for side in sides], [late.counts(side, own) for side, own in zip(sides, owns)], times)
    return table("flows", ["flow", "play", *head], lines) if lines else ""


def changes(sides: Sequence[Any]) -> str:
    """Which packets of each class became late or are dropped now."""
    told = [f"{name}: {'; '.join(late.changed(sides[0], sides[1], plays.of_either(sides, name)))}" for name in plays.class_names(sides)]
    return f"<pre>{said_lines(told)}</pre>"


def said_lines(lines: Iterable[str]) -> str:
    """Lines as HTML."""
    return "\n".join(map(said, lines))


def most_packets(sides: Sequence[Any], names: Sequence[str]) -> list[str]:
    """The classes that are drawn: those with the most packets, in their order."""
    counts = {name: max(len(side.class_is(name)) for side in sides) for name in names}
    chosen = sorted(names, key=lambda name: counts[name], reverse=True)[:MOST_DRAWN]
    return [name for name in names if name in chosen]


def delay_picture(sides: Sequence[Any], name: str, steps: series.Steps, asked: Sequence[wants.Want]) -> over_time.Picture:
    """The greatest delays of a class over time, its drops, and its wants of a delay."""
    owns = [side.class_is(name) for side in sides]
    drawn = [[None if delay < 0 else delay / 10**6 for delay in series.delays(side, own, steps).tolist()] for side, own in zip(sides, owns)]
    lines = [(float(want.bound) / 10**6, f"want {want.operator} {float(want.bound) / 10**6:g} ms") for want in asked if want.of == name and want.measure == "delay"]
    return over_time.Picture(name, "greatest delay, ms", drawn, [series.drops(side, own, steps).tolist() for side, own in zip(sides, owns)], lines)


def load_pictures(sides: Sequence[Any], name: str, steps: series.Steps, asked: Sequence[wants.Want]) -> list[over_time.Picture]:
    """The packets of a class that wait, and the rate at which it is sent."""
    owns = [side.class_is(name) for side in sides]
    lines = [(float(want.bound) / 10**6, f"want {want.operator} {float(want.bound) / 10**6:g} Mbit/s") for want in asked if want.of == name and want.measure == "rate"]
    waits = [series.waiting(side, own, steps).tolist() for side, own in zip(sides, owns)]
    rates = [(series.rate(side, own, steps) / 10**6).tolist() for side, own in zip(sides, owns)]
    return [over_time.Picture(name, "packets that wait", waits), over_time.Picture(name, f"Mbit/s sent, each over {series.WIDE} steps", rates, wants=lines)]


class Drawing:
    """The pictures of a page, on one axis of seconds after the first arrival."""

    def __init__(self, sides: Sequence[Any], asked: Sequence[wants.Want], part: tuple[int, int]) -> None:
        self.sides, self.asked, self.steps = sides, asked, series.Steps(*part, STEPS)
        self.names = plays.class_names(sides)
        self.shown = most_packets(sides, self.names)
        origin = min((int(side.arrival.min()) for side in sides if len(side)), default=0)
        self.begin, self.size = (part[0] - origin) / 10**9, self.steps.size / 10**9

    def html(self, pictures: Sequence[over_time.Picture]) -> str:
        """Pictures below each other."""
        many = " many" if len(self.shown) > MANY else ""
        drawn = over_time.figures(pictures, [side.label for side in self.sides], self.begin, self.size)
        return drawn.replace('class="pictures"', f'class="pictures{many}"', 1)

    def delays(self) -> str:
        """A picture a class: what the page is for."""
        return self.html([delay_picture(self.sides, name, self.steps, self.asked) for name in self.shown])

    def loads(self) -> str:
        """Two pictures a class, folded."""
        return self.html([picture for name in self.shown for picture in load_pictures(self.sides, name, self.steps, self.asked)])

    def key(self, times: Times) -> str:
        """What the colours and the steps are."""
        shades = f'<i class="first"></i>{self.sides[0].label}<i class="last"></i>{self.sides[1].label}' if len(self.sides) == 2 else ""
        want = '<i class="asked"></i>wanted' if any(want.measure == "delay" for want in self.asked) else ""
        rest = f" Drawn are the {MOST_DRAWN} classes with the most packets." if len(self.shown) < len(self.names) else ""
        key = f'<p class="key">{shades}{want}</p>' if shades or want else ""
        return (f"{key}<p>Seconds after the first arrival. Each of {self.steps.count:,} steps of {times.text(self.steps.size)} shows its greatest delay,"
                f" and below it where packets are dropped.{rest}</p>")


def folded(title: str, body: str) -> str:
    """A part that opens by a click."""
    return f"<details><summary>{title}</summary>{body}</details>" if body else ""


def html(question: Any, verdicts: Sequence[Sequence[wants.Verdict]], times: Times, flows: Optional[str], part: tuple[int, int]) -> str:
    """The page of a question, drawn from and to two moments; `flows` is the table of flows, or None."""
    sides = question.sides
    title = " → ".join(os.path.basename(config) for _label, config in question.configs)
    lines = "".join(class_line(line, times) for line in summary.lines(sides, verdicts))
    compared = f"<p>Worse and better are changes by more than 1 in {summary.CHANGE}.</p>" if len(sides) == 2 else ""
    drawing = Drawing(sides, [row[0].want for row in verdicts], part)
    heads = [f"{label}: {config}: {late.heading(side, times).split(': ', 1)[1]}" for side, (label, config) in zip(sides, question.configs)]
    above = "".join(f"<p>{said(text)}</p>" for text in [*question.told, summary.share_text(sides) + "."])
    above += "".join(f'<p class="flag">{said(text)}</p>' for text in question.missing)
    unit = f"<p>Times are in {'nanoseconds' if times.exact else 'milliseconds; a time says its nanoseconds where the mouse rests on it'}.</p>"
    below = [folded("Numbers by class", unit + class_table(sides, times)), folded("Packets that wait, and rates, over time", drawing.loads()),
             folded("Flows that lose most", flows or ""), folded("Packets that became late or are dropped now", changes(sides) if len(sides) == 2 else ""),
             folded("What was played", f"<pre>{said_lines(heads)}</pre>")]
    with open(STYLE, encoding="ascii") as file:
        style = file.read()
    head = f'<meta charset="utf-8"><meta name="viewport" content="width=device-width, initial-scale=1"><title>altqplay: {said(title)}</title><style>{style}</style>'
    body = (f'<h1>{said(title)}</h1>\n{above}\n<ul class="classes">{lines}</ul>{compared}\n<h2>Delays over time</h2>{drawing.key(times)}\n{drawing.delays()}\n'
            + "\n".join(below) + f"\n<script>{SCRIPT}</script>")
    return f'<!DOCTYPE html>\n<html lang="en"><head>{head}</head><body>\n{body}\n</body></html>\n'

"""Draws the gap of two siblings over time as SVG, by text alone: the same numbers give the same bytes on every machine."""

from __future__ import annotations

from typing import Iterable, Iterator, Optional, Sequence, Union

Number = Union[int, float]
Point = tuple[Number, Number]

WIDE, HIGH = 720, 300
LEFT, RIGHT, TOP, BOTTOM = 70, 700, 40, 250
STEPS = (1, 2, 5)
MILLISECOND = 10**6


def step_of(most: int) -> int:
    """A step of an axis that makes four to ten of a number: 1, 2 or 5 with zeros."""
    size = 1
    while True:
        for step in STEPS:
            if most <= 10 * step * size:
                return step * size
        size *= 10


def text(x: Number | str, y: Number | str, words: object, anchor: str = "middle", colour: str = "#333") -> str:
    return f'<text x="{x}" y="{y}" text-anchor="{anchor}" fill="{colour}">{words}</text>\n'


def stroke(points: Iterable[Point], colour: str, more: str = "") -> str:
    return f'<path d="M{" L".join(f"{x:.1f} {y:.1f}" for x, y in points)}" fill="none" stroke="{colour}"{more}/>\n'


class Axes:
    """The places of moments and of what is drawn over them, gaps or other numbers. `last` and `most` are the greatest of them, `unit` is
    what the upright axis counts, and `label` names it. `along` is what the other axis counts, and `name` names that: moments in
    milliseconds, where it is not another."""

    def __init__(self, last: int, most: int, unit: int = MILLISECOND, label: str = "gap, ms", along: int = MILLISECOND, name: str = "time, ms") -> None:
        self.unit, self.label, self.along, self.name = unit, label, along, name
        self.across, self.up = step_of(max(1, -(-last // along))), step_of(max(1, -(-most // unit)))
        self.last = -(-max(1, last) // (self.across * along)) * self.across * along
        self.most = -(-max(1, most) // (self.up * unit)) * self.up * unit

    def x(self, moment: Number) -> float:
        return LEFT + (RIGHT - LEFT) * moment / self.last

    def y(self, value: Number) -> float:
        return BOTTOM - (BOTTOM - TOP) * value / self.most

    def lines(self) -> Iterator[str]:
        """The axes, with a number at each step."""
        for step in range(0, self.last // self.along + 1, self.across):
            yield text(f"{self.x(step * self.along):.1f}", BOTTOM + 18, step)
        for step in range(0, self.most // self.unit + 1, self.up):
            y = self.y(step * self.unit)
            yield text(LEFT - 8, f"{y + 4:.1f}", step, "end")
            yield stroke([(LEFT, y), (RIGHT, y)], "#ddd")
        yield stroke([(LEFT, TOP), (LEFT, BOTTOM), (RIGHT, BOTTOM)], "#333")
        yield text((LEFT + RIGHT) // 2, HIGH - 12, self.name)
        yield text(LEFT, TOP - 16, self.label, "middle")


def steps(points: Sequence[Point]) -> list[Point]:
    """A line that stays until the next event."""
    line = list(points[:1])
    for before, after in zip(points, points[1:]):
        line += [(after[0], before[1]), after]
    return line


def framed(title: str, parts: Iterable[str]) -> str:
    """A picture of some parts, with a title."""
    head = f'<svg xmlns="http://www.w3.org/2000/svg" width="{WIDE}" height="{HIGH}" viewBox="0 0 {WIDE} {HIGH}" font-family="sans-serif" font-size="13">\n'
    return "".join([head, f'<rect width="{WIDE}" height="{HIGH}" fill="#fff"/>\n', text(WIDE // 2, 20, title), *parts, "</svg>\n"])


def picture(title: str, stretches: Sequence[Sequence[tuple[int, int]]], bound: Optional[int], is_own: bool) -> str:
    """A picture of the stretches, each (moment, gap) by event; `bound` is a line, or None, and `is_own` says that it holds."""
    origin = min((at for stretch in stretches for at, _gap in stretch), default=0)
    last = max((at - origin for stretch in stretches for at, _gap in stretch), default=0)
    axes = Axes(last, max([gap for stretch in stretches for _at, gap in stretch] + [bound or 0]))
    parts = [*axes.lines()]
    if bound is not None:
        y, words = axes.y(bound), "bound" if is_own else "the bound without it"
        parts += [stroke([(LEFT, y), (RIGHT, y)], "#c00", ' stroke-dasharray="8 4"'), text(RIGHT - 4, f"{y - 6:.1f}", words, "end", "#c00")]
    for stretch in stretches:
        parts.append(stroke([(axes.x(at - origin), axes.y(gap)) for at, gap in steps(stretch)], "#06c", ' stroke-width="1.5"'))
    return framed(title, parts)

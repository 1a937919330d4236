"""Draws what changes over time as SVG that grows and shrinks with the page: a picture of one or two plays, on an axis of seconds.

Colours and widths are those of the page's style, by the classes of what is drawn: `first` is the play before a change, `last` the one
after it, or the only one.
"""

from __future__ import annotations

import html as markup
import math
from dataclasses import dataclass
from typing import Optional, Sequence

HIGH = 200  # units of a picture's height
STRIP = 10  # units of the height of a row of drops
MOST_TICKS, MOST_LEVELS = 8, 3

Values = Sequence[Optional[float]]


@dataclass
class Picture:
    """One picture: what it is of, what its values are, the values of each play, in steps, the drops of each, and lines at wants."""

    of: str
    what: str
    plays: Sequence[Values]
    drops: Sequence[Sequence[int]] = ()
    wants: Sequence[tuple[float, str]] = ()
    shown: str = "{:.3f}"


def nice(span: float, most: int) -> float:
    """The least of 1, 2 and 5, times a power of ten, of which a span has at most so many."""
    power = 10.0 ** math.floor(math.log10(span / most))
    return next(power * factor for factor in (1, 2, 5, 10) if span / (power * factor) <= most * (1 + 1e-9))


def ticks(low: float, high: float, most: int) -> list[tuple[float, str]]:
    """Round numbers from one number to another, at most about so many, each with its text."""
    step = nice(high - low, most)
    digits = max(0, -math.floor(math.log10(step) + 1e-9))
    places = range(math.ceil(low / step - 1e-9), math.floor(high / step + 1e-9) + 1)
    return [(place * step, f"{place * step:,.{digits}f}") for place in places]


def line_path(values: Values, top: float) -> str:
    """A line over steps, with a gap where a step has no value."""
    parts: list[str] = []
    last = None
    for x, value in enumerate(values):
        if value is None:
            last = None
            continue
        y = HIGH - round(HIGH * value / top)
        if last is None:
            parts += [f"M{x} {y}", f"H{x + 1}"]
        elif y == last:
            parts[-1] = f"H{x + 1}"
        else:
            parts += [f"V{y}", f"H{x + 1}"]
        last = y
    return "".join(parts)


def area_path(values: Values, top: float) -> str:
    """The area below a line over steps."""
    closed = line_path([value or 0 for value in values], top)
    return f"M0 {HIGH}L{closed[1:]}V{HIGH}Z" if closed else ""


def drops_path(counts: Sequence[int]) -> str:
    """A mark over the steps with a drop; steps side by side have one."""
    parts: list[str] = []
    begin = None
    for x, count in enumerate([*counts, 0]):
        if count and begin is None:
            begin = x
        elif not count and begin is not None:
            parts.append(f"M{begin} 0H{x}V{STRIP}H{begin}Z")
            begin = None
    return "".join(parts)


def greatest(picture: Picture) -> float:
    """The upper end of a picture's values."""
    values = [value for play in picture.plays for value in play if value is not None]
    return 1.08 * max([*values, *(at for at, _text in picture.wants)], default=0) or 1.0


def svg(count: int, high: int, drawn: Sequence[str], said: str) -> str:
    """Drawn parts as a picture as wide as the page."""
    return (f'<svg viewBox="0 0 {count} {high}" preserveAspectRatio="none" role="img" aria-label="{markup.escape(said, quote=True)}">'
            f'{"".join(drawn)}</svg>')


def drawn_lines(picture: Picture, top: float, grid: Sequence[float]) -> list[str]:
    """The grid, the plays and the wants of a picture."""
    count = max(map(len, picture.plays))
    upright = "".join(f"M{x:g} 0V{HIGH}" for x in grid)
    level = "".join(f"M0 {HIGH - HIGH * at / top:g}H{count}" for at, _text in ticks(0, top, MOST_LEVELS))
    parts = [f'<path class="grid" d="{upright}{level}"/>']
    if len(picture.plays) == 2:
        parts.append(f'<path class="first" d="{area_path(picture.plays[0], top)}"/>')
    parts.append(f'<path class="last" d="{line_path(picture.plays[-1], top)}"/>')
    return parts + [f'<path class="asked" d="M0 {HIGH - HIGH * at / top:g}H{count}"/>' for at, _text in picture.wants]


def strips(picture: Picture, labels: Sequence[str]) -> str:
    """A row of drops for each play, where one has any."""
    if not any(any(counts) for counts in picture.drops):
        return ""
    rows = []
    for place, (label, counts) in enumerate(zip(labels, picture.drops)):
        shade = "last" if place == len(labels) - 1 else "first"
        drawn = svg(len(counts), STRIP, [f'<path class="drop {shade}" d="{drops_path(counts)}"/>'], f"{picture.of}, drops, {label}: {sum(counts)}")
        rows.append(f'<div class="strip">{drawn}<span>{label if len(labels) == 2 else "drops"}</span></div>')
    return "".join(rows)


def figure(picture: Picture, labels: Sequence[str], grid: Sequence[float]) -> str:
    """A picture with its words, for a page."""
    top = greatest(picture)
    said = [f"{label} up to {picture.shown.format(max((value for value in play if value is not None), default=0))}"
            for label, play in zip(labels, picture.plays)]
    drawn = svg(max(map(len, picture.plays)), HIGH, drawn_lines(picture, top, grid), f"{picture.of}, {picture.what}: {', '.join(said)}")
    levels = "".join(f'<span class="level" style="bottom:{100 * at / top:.1f}%">{text}</span>' for at, text in ticks(0, top, MOST_LEVELS))
    wants = "".join(f'<span class="asked" style="bottom:{100 * at / top:.1f}%">{markup.escape(text)}</span>' for at, text in picture.wants)
    caption = f"<figcaption><b>{markup.escape(picture.of)}</b> {markup.escape(picture.what)}</figcaption>"
    return (f'<figure data-of="{markup.escape(picture.of, quote=True)}">{caption}<div class="plot">{drawn}{levels}{wants}</div>'
            f'{strips(picture, labels)}</figure>')


def figures(pictures: Sequence[Picture], labels: Sequence[str], begin: float, size: float) -> str:
    """Pictures on one axis: their steps take `size` seconds each from `begin` on."""
    if not pictures:
        return ""
    count = max(len(play) for picture in pictures for play in picture.plays)
    marks = ticks(begin, begin + count * size, MOST_TICKS)
    grid = [(at - begin) / size for at, _text in marks]
    texts = "".join(f'<span class="{"odd" if place % 2 else "even"}" style="left:{100 * x / count:.2f}%">{text}</span>'
                    for place, (x, (_at, text)) in enumerate(zip(grid, marks)))
    drawn = "".join(figure(picture, labels, grid) for picture in pictures)
    return f'<div class="pictures">{drawn}<div class="axis">{texts}<em>s</em></div></div>'

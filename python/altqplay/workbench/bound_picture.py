"""Draws the burst that a class needs over its rate, and why its delay is bounded, as SVG, by text alone."""

from __future__ import annotations

from typing import Optional, Sequence

from .conf import MILLISECOND, Curve
from .delay_bound import amount, first
from .gap_picture import BOTTOM, LEFT, RIGHT, TOP, Axes, Number, Point, framed, stroke, text
from .rules.units import BYTE, time_of

KILOBIT = 1000
BLUE, RED, GREY = "#06c", "#c00", "#888"
HALO = 'stroke="#fff" stroke-width="4" paint-order="stroke"'  # keeps lines off a text
WIDER, DASHED = ' stroke-width="1.5"', ' stroke-dasharray="8 4"'


def dot(x: Number, y: Number, colour: str) -> str:
    return f'<circle cx="{x:.1f}" cy="{y:.1f}" r="4" fill="{colour}"/>\n'


def bursts(name: str, points: Sequence[tuple[int, int]], own: Optional[tuple[int, int]], others: Sequence[tuple[int, int]]) -> str:
    """The least burst in bytes of a class over its rate in bits per second: points in rising order of rates, the one of its curve's
    second slope, and those of other rates."""
    marked = [*([own] if own else []), *others]
    axes = Axes(max(rate for rate, _burst in [*points, *marked]), max(burst for _rate, burst in [*points, *marked]), 1, "bytes", KILOBIT, "rate, kbit/s")
    parts = [*axes.lines(), stroke([(axes.x(rate), axes.y(burst)) for rate, burst in points], BLUE, WIDER)]
    for place, (rate, burst) in enumerate(marked):
        x, y, colour = axes.x(rate), axes.y(burst), RED if own is not None and place == 0 else BLUE
        parts += [dot(x, y, colour), text(f"{x + 6:.1f}", f"{y - 8:.1f}", f"{burst}", "start", colour)]
    if own is not None:
        parts += [dot(RIGHT - 196, TOP - 8, RED), text(RIGHT - 186, TOP - 4, "at the curve's second slope", "start")]
    return framed(f"{name}: the least burst by rate", parts)


def horizontal(axes: Axes, begin: int, end: int, height: int, words: str, above: int) -> list[str]:
    """A time between two moments, with a name above or below it."""
    y, x = axes.y(height), (axes.x(begin), axes.x(end))
    ends = [stroke([(at, y - 5), (at, y + 5)], "#333", WIDER) for at in x]
    name = text(f"{(x[0] + x[1]) / 2:.1f}", f"{y + above:.1f}", words).replace("<text", f"<text {HALO}", 1)
    return [stroke([(x[0], y), (x[1], y)], "#333", WIDER), *ends, name]


def legend(lines: Sequence[tuple[str, str, str]]) -> list[str]:
    """What each line is, beside each other above the picture: its colour, its dashes and its words."""
    parts = []
    for place, (colour, more, words) in enumerate(lines):
        x = LEFT + 80 + 190 * place
        parts += [stroke([(x, TOP - 8), (x + 28, TOP - 8)], colour, WIDER + more), text(x + 34, TOP - 4, words, "start")]
    return parts


def sums(packets: Sequence[tuple[int, int]]) -> list[Point]:
    """The bytes of some packets, each a moment and a length, with each of them."""
    line: list[Point] = [(0, 0)]
    for at, length in packets:
        line += [(at, line[-1][1]), (at, line[-1][1] + length)]
    return line


def reasons(name: str, curve: Curve, rate: int, burst: int, longest: tuple[int, int], packets: Sequence[tuple[int, int]]) -> str:
    """Why the delay of a class is bounded: its curve, the line of a rate and a burst, packets that come since the first of them, and
    the bound; `longest` is the longest packet of the link and the link's rate."""
    given = first(curve, burst * BYTE)
    assert given is not None
    bound = given + time_of(*longest)
    last = max(bound * 8 // 5, MILLISECOND)
    axes = Axes(last, max(burst + rate * last // BYTE, -(-amount(curve, last) // BYTE)), 1, "bytes")
    end = axes.last
    line: list[Point] = [(0, burst), (end, burst + rate * end / BYTE)]
    corners: list[Point] = [(at, amount(curve, at) / BYTE) for at in (0, min(curve.d, end), end)]
    came = [(at, total) for at, total in sums(packets) if at <= end]
    clip = f'<clipPath id="inside"><rect x="{LEFT}" y="{TOP}" width="{RIGHT - LEFT}" height="{BOTTOM - TOP}"/></clipPath>\n<g clip-path="url(#inside)">\n'
    styles: list[tuple[list[Point], str, str]] = [(came, GREY, ""), (line, RED, DASHED), (corners, BLUE, "")]
    drawn = [stroke([(axes.x(at), axes.y(total)) for at, total in points], colour, WIDER + more) for points, colour, more in styles]
    known = [(BLUE, "", "what the curve S gives"), (RED, DASHED, f"B + R t, B = {burst}"), (GREY, "", "packets that come")]
    parts = [*axes.lines(), clip, *drawn, "</g>\n", *horizontal(axes, 0, given, burst, "first(S, B)", -9),
             *horizontal(axes, given, bound, burst, "longest packet", 20), *legend(known)]
    return framed(f"{name}: at most {bound / MILLISECOND:g} ms", parts)

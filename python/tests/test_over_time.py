"""The pictures of a report: their lines, areas and marks, read back step by step."""

import re

import pytest
from hypothesis import given
from hypothesis import strategies as some

from altqplay.workbench.over_time import HIGH, STRIP, Picture, area_path, drops_path, figures, line_path, nice, ticks

VALUES = some.lists(some.none() | some.integers(0, 100), max_size=40)


def levels(path, count):
    """The height of a path of M, H, V and L in each step, None where it has none."""
    found, x, y = [None] * count, 0, 0
    for letter, text in re.findall(r"([MHVL])([\d ]+)", path):
        numbers = [int(word) for word in text.split()]
        if letter in "ML":
            x, y = numbers
        elif letter == "V":
            y = numbers[0]
        else:
            for step in range(x, numbers[0]):
                found[step] = HIGH - y
            x = numbers[0]
    return found


@given(VALUES)
def test_a_line_is_at_each_value_and_nowhere_else(values):
    assert levels(line_path(values, 100), len(values)) == [None if value is None else round(HIGH * value / 100) for value in values]


@given(VALUES)
def test_an_area_is_0_where_there_is_no_value(values):
    path = area_path(values, 100)
    assert (path == "") == (not values) and (not values or path.endswith("Z"))
    assert levels(path, len(values)) == [round(HIGH * (value or 0) / 100) for value in values]


@given(some.lists(some.integers(0, 3), max_size=40))
def test_a_mark_stands_over_each_step_with_a_drop(counts):
    marked = [False] * len(counts)
    for begin, end, back in re.findall(rf"M(\d+) 0H(\d+)V{STRIP}H(\d+)Z", drops_path(counts)):
        assert begin == back
        for step in range(int(begin), int(end)):
            assert not marked[step]
            marked[step] = True
    assert marked == [count > 0 for count in counts]


@pytest.mark.parametrize("low, high, most, texts", [
    (0, 60, 8, ["0", "10", "20", "30", "40", "50", "60"]), (0, 493, 8, ["0", "100", "200", "300", "400"]), (0, 1.9, 8, ["0.0", "0.5", "1.0", "1.5"]),
    (0.48, 0.4815, 8, ["0.4800", "0.4802", "0.4804", "0.4806", "0.4808", "0.4810", "0.4812", "0.4814"]), (0, 3.4, 3, ["0", "2"]),
    (0, 2200, 3, ["0", "1,000", "2,000"])])
def test_ticks(low, high, most, texts):
    assert [text for _at, text in ticks(low, high, most)] == texts


@given(some.floats(1e-9, 1e12), some.integers(1, 10))
def test_steps_of_a_scale_are_as_many_as_fit(span, most):
    step = nice(span, most)
    assert span / step <= most * 1.001 and f"{step:e}"[:8] in ("1.000000", "2.000000", "5.000000")


def test_a_picture_says_what_it_shows():
    one = Picture("a<b", "greatest delay, ms", [[1.0, None], [2.0, 3.0]], [[0, 1], [0, 0]], [(2.5, "want < 2.5 ms")])
    page = figures([one, Picture("c", "packets", [[0, 0], [0, 0]], [[0, 0], [0, 0]])], ["before", "after"], 0.0, 0.5)
    assert 'aria-label="a&lt;b, greatest delay, ms: before up to 1.000, after up to 3.000"' in page and "want &lt; 2.5 ms" in page
    assert 'aria-label="a&lt;b, drops, before: 1"' in page and "c, drops" not in page and page.count('class="axis"') == 1


def test_no_pictures():
    assert figures([], ["play"], 0.0, 1.0) == ""

"""The figures as functions: their numbers are those of docs/teaching/FIGURES.md, parameters change them, and what is no parameter is refused."""

import os
import re

import pytest
from altqplay import Refused, figures
from altqplay.workbench.figure_plays import FIGURES, plays_of, rate_of
from conftest import ROOT

pytestmark = pytest.mark.usefixtures("program")


def page_numbers(figure):
    """The numbers that the page shows of a figure, line by line."""
    with open(os.path.join(ROOT, "docs", "teaching", "FIGURES.md"), encoding="utf-8") as file:
        shown = re.search(rf"\$ python3 example/figures/draw.py {figure}\n(.*?)drawn in", file.read(), re.S)[1]
    return [[float(word) for word in re.findall(r"(?<![\w.-])\d+(?:\.\d+)?(?![\w.-])", line)] for line in shown.splitlines()[1:]]


@pytest.mark.parametrize("name", ["hfsc-delay", "hfsc-return", "cbq-borrowing"])
def test_the_numbers_are_those_of_the_page(name):
    table = getattr(figures, name.replace("-", "_"))().table
    assert table.select_dtypes("number").values.tolist() == page_numbers(name)


def test_the_drops_of_rio_are_those_of_the_page():
    assert figures.rio_drops([110, 170]).table.values.tolist() == [row for row in page_numbers("rio-drops") if row[0] in (110, 170)]


def test_a_smaller_window_drops_less():
    usual, small = (figures.red_average(most=most).table.iloc[0] for most in (19, 12))
    assert usual[["early", "forced"]].tolist() == [367, 28] and usual["disagree"] == small["disagree"] == 0
    assert small["early"] < usual["early"] and small["forced"] == 0


def test_a_frame_that_is_due_later_comes_later():
    # 64,000 bits at 4 Mbit/s take 16 ms, and one longest packet 1 ms
    found = figures.hfsc_delay(video="4M 20 2M")
    assert found.table["greatest"].tolist()[1] == 15_600_000 <= 17_000_000
    assert found.plays["two-slopes"].delays().set_index("class").loc["video", "greatest"] == 15_600_000


def test_rates_that_are_not_halves():
    # From 100 ms on HFSC shares 50 packets 3 to 1. The least deadline first: packet k of a is due at 4k/3 ms, packet k of b at 100 + 4k;
    # a had 100, so 8 of b go before its next, due at 134.7 ms; of the 42 behind them, 32 of a and 10 of b are due before the others.
    table = figures.hfsc_return("6M", "2M").table
    assert table.iloc[0, 3:5].tolist() == [37, 13] and table.iloc[1, 3:5].tolist() == [32, 18]


@pytest.mark.parametrize("name", [name for name in FIGURES if name != "rio-drops"])
def test_each_figure_is_drawn(name):
    pytest.importorskip("plotly")
    found = getattr(figures, name.replace("-", "_"))()
    drawn = found.picture()
    assert len(drawn.data) == len(found.lines) and all(len(line.x) == len(line.y) > 0 for line in drawn.data)
    assert repr(found).startswith(found.title + "\n")


@pytest.mark.parametrize("figure, word, why", [("hfsc-delay", "vido=1M 0 1M", "no parameter of hfsc-delay"), ("hfsc-delay", "video=4M", "a curve is m1 d m2"),
                                               ("red-average", "most=many", "whole numbers"), ("red-average", "most=5", "windows from 9 to 5"),
                                               ("cbq-borrowing", "c1=2M", "no parameter"), ("rio-drops", "inside=10", "tenths")])
def test_words_that_are_refused(figure, word, why):
    with pytest.raises(Refused, match=re.escape(why)):
        plays_of(figure, [word])


def test_parameters_as_words():
    assert [play.name for play in plays_of("rio-drops", ["loads=90,120"])] == ["red-90", "rio-90", "red-120", "rio-120"]
    assert "a1 a exactbandwidth 1M" in plays_of("cbq-borrowing", ["a1=1M"])[0].configuration
    assert rate_of("1.5K") == 1500
    with pytest.raises(Refused, match="no rate"):
        rate_of("M")
    with pytest.raises(Refused, match="line 3"):
        figures.hfsc_delay(video="0.1K 10 2M")

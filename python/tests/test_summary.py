"""The line of a class: whether a change makes it worse, and its words."""

import pytest

from altqplay.workbench import summary
from altqplay.workbench.texts import Times

MS = 10**6


@pytest.mark.parametrize("slowest, dropped, word", [
    ((2_500_000, 24_000_000), (0, 0), "worse"), ((24 * MS, 2_500_000), (0, 0), "better"), ((10 * MS, 10 * MS), (5, 5), "same"),
    # by more than 1 in 20: 10.5 ms is no more than that over 10 ms, and 21 drops than 20
    ((10 * MS, 10_500_000), (0, 0), "same"), ((10 * MS, 10_600_000), (0, 0), "worse"), ((10 * MS, 9_400_000), (0, 0), "better"), ((MS, MS), (20, 21), "same"),
    ((MS, MS), (20, 22), "worse"), ((MS, MS), (0, 1), "worse"), ((MS, MS), (1, 0), "better"),
    # 0.04 and 0.08 ms are 0.0 and 0.1, 0.06 and 0.12 ms both 0.1: what the line does not show is no change
    ((40_000, 80_000), (0, 0), "worse"), ((60_000, 120_000), (0, 0), "same"),
    ((MS, 2 * MS), (5, 0), "mixed"), ((2 * MS, MS), (0, 5), "mixed"), ((MS, None), (0, 9), "worse"), ((None, MS), (9, 0), "better"), ((None, None), (3, 3), "same")])
def test_words(slowest, dropped, word):
    assert summary.word_of(slowest, dropped) == word


@pytest.mark.parametrize("slowest, dropped, exact, told", [
    ((2_500_000, 24_000_000), (0, 0), False, ("slowest 2.5 → 24.0 ms", "0 dropped")), ((2_500_000, 2_540_000), (3, 3), False, ("slowest 2.5 ms", "3 dropped")),
    ((2_500_000,), (1234,), False, ("slowest 2.5 ms", "1,234 dropped")), ((None, 24_000_000), (9, 0), False, ("slowest none sent → 24.0 ms", "9 → 0 dropped")),
    ((None,), (2,), False, ("slowest none sent", "2 dropped")), ((1_000_000_000, 1_000_000_001), (0, 0), True, ("slowest 1,000,000,000 → 1,000,000,001 ns", "0 dropped"))])
def test_texts(slowest, dropped, exact, told):
    line = summary.Line("a", slowest, dropped, "", [], [])
    assert (summary.slowest_text(line, Times(exact)), summary.dropped_text(line)) == told

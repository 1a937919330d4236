"""How tables say times, by hand, and against decimal numbers."""

import decimal

import pytest
from hypothesis import given
from hypothesis import strategies as some

from altqplay.workbench.texts import Times, aligned


@pytest.mark.parametrize("ns, text", [
    (0, "0.000"), (1_704_000, "1.704"), (-8_656_000, "-8.656"), (499, "0.000"), (500, "0.001"), (-499, "0.000"), (-500, "-0.001"),
    (999_500, "1.000"), (9_999_999, "10.000"), (441_120_000, "441.120"), (2**63 - 1, "9223372036854.776"), (None, "-")])
def test_milliseconds(ns, text):
    assert Times().number(ns) == text
    assert Times().text(ns) == ("-" if ns is None else text + " ms")


def test_exact():
    times = Times(exact=True)
    assert (times.number(-8_656_001), times.text(5), times.number(None)) == ("-8656001", "5 ns", "-")


@given(some.integers(-2**63, 2**63))
def test_rounding_is_that_of_decimals(ns):
    with decimal.localcontext() as context:
        context.prec = 40
        found = (decimal.Decimal(ns) / 10**6).quantize(decimal.Decimal("0.001"), rounding=decimal.ROUND_HALF_UP)
    assert Times().number(ns) == str(found if found else abs(found))


def test_columns_end_below_each_other():
    assert aligned([["", "packets", "worst"], ["voice, which is long"], ["  play", "200", "1.704"]]) == [
        "        packets  worst", "voice, which is long", "  play      200  1.704"]
    assert aligned([["alone"]]) == ["alone"]
    assert aligned([]) == []

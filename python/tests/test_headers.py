"""Groups of rows that agree in columns, whatever the columns hold."""

import numpy
import pytest
from hypothesis import given, strategies

from altqplay.workbench import headers
from altqplay.workbench.headers import Headers, first_rows

COLUMNS = {"a": strategies.sampled_from([0, 1, 2**63, 2**64 - 1]), "b": strategies.integers(-1, 1), "c": strategies.booleans(), "d": strategies.just(0),
           "e": strategies.sampled_from([0, 2**32 - 1])}
KINDS = {"a": numpy.uint64, "b": numpy.int64, "c": bool, "d": numpy.uint64, "e": numpy.uint64}


@pytest.mark.parametrize("mixer", [0, 0x9E3779B97F4A7C15])
@given(strategies.lists(strategies.fixed_dictionaries(COLUMNS), max_size=12))
def test_groups(mixer, rows):
    """Also where all groups are mixed into one number."""
    was, headers.MIXER = headers.MIXER, numpy.uint64(mixer)
    try:
        columns = {name: numpy.array([row[name] for row in rows], dtype=kind) for name, kind in KINDS.items()}
        columns["family"] = columns["b"]
        found = Headers(columns).groups(tuple(KINDS))
    finally:
        headers.MIXER = was
    seen = {}
    assert found.tolist() == [seen.setdefault(tuple(sorted(row.items())), len(seen)) for row in rows]
    assert [found[row] for row in first_rows(found).tolist()] == list(range(len(seen)))

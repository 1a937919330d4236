#!/usr/bin/env python3
"""Writes the departures that go with fates, as `altqplay verify` reads them: python3 departures.py ARRIVALS FATES DEPARTURES

ARRIVALS is the capture that was played, FATES the rows of a scheduler in the order of decision. Each packet that was sent becomes a
record with the bytes that came, stamped with its end. A scheduler that changes frames writes its own.
"""

import os
import sys

sys.dont_write_bytecode = True
sys.path.insert(0, os.path.dirname(os.path.dirname(os.path.abspath(__file__))))

from altqplay.workbench.captures import records, write_ethernet  # noqa: E402
from altqplay.workbench.rows import fate_rows  # noqa: E402


def main(arrivals, fates, departures):
    """Writes the record of each sending, in the order of the rows."""
    frames = list(records(arrivals))
    write_ethernet(departures, [frames[fate.number - 1]._replace(at=fate.end) for fate in fate_rows(fates) if fate.end is not None])


if __name__ == "__main__":
    main(*sys.argv[1:])

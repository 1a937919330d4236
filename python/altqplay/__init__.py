"""Plays the output queueing of one network interface over packets, after ALTQ: HFSC and CBQ with RED, RIO, filters and conditioners.

    import altqplay
    played = altqplay.play("altq.conf", "monday.pcap")
    played.delays()

The program altqplay, of which every function is proved, makes each play; this package, of which nothing is proved, gives it packets
and gives its results as tables. Moments are whole nanoseconds since 1970-01-01 00:00:00 UTC, lengths bytes, rates bits per second,
and all are exact. What is refused is `Refused`, and what is not on this machine `Missing`.
"""

import importlib
from typing import TYPE_CHECKING, Any

from .workbench import __version__
from .workbench.faults import Missing, Refused

if TYPE_CHECKING:
    from . import exercises, figures, senders
    from .bounding import bound, least_curve
    from .checking import Checked, check
    from .comparing import Compared, Found, compare, find
    from .playing import Chain, Play, chain, condition, make, play, shares
    from .running import Program, program
    from .sweeping import sweep
    from .tables import capture, fates
    from .verifying import Verified, verify

# The module of each name. It is imported when the name is first asked for: numpy and pandas, which the command line can do without, take half a second.
_MODULES = {
    "bounding": ("bound", "least_curve"),
    "checking": ("Checked", "check"),
    "comparing": ("Compared", "Found", "compare", "find"),
    "playing": ("Chain", "Play", "chain", "condition", "make", "play", "shares"),
    "running": ("Program", "program"),
    "sweeping": ("sweep",),
    "tables": ("capture", "fates"),
    "verifying": ("Verified", "verify"),
}
_MODULE = {name: module for module, names in _MODULES.items() for name in names}
_PARTS = ("exercises", "figures", "senders")  # modules that are used by their names

__all__ = ["Chain", "Checked", "Compared", "Found", "Missing", "Play", "Program", "Refused", "Verified", "__version__", "bound", "capture", "chain", "check",
           "compare", "condition", "exercises", "fates", "figures", "find", "least_curve", "make", "play", "program", "senders", "shares", "sweep",
           "verify"]


def __getattr__(name: str) -> Any:
    """A name of this package that was not asked for before."""
    if name in _PARTS:
        return importlib.import_module(f".{name}", __name__)
    if name not in _MODULE:
        raise AttributeError(f"module {__name__} has no attribute {name}")
    found = getattr(importlib.import_module(f".{_MODULE[name]}", __name__), name)
    globals()[name] = found
    return found


def __dir__() -> list[str]:
    return sorted({*globals(), *__all__})

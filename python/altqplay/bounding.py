"""How long a packet of each class takes at most, by what is offered to a play, and the least curve that keeps a target."""

from __future__ import annotations

from typing import Optional, Sequence

import pandas

from .workbench.bound import Measured, confirmed, holders
from .workbench.conf import Curve
from .workbench.faults import Refused

from . import tables
from .inputs import Conf, Packets, text_of
from .playing import Play, play


def bound(conf: Conf, packets: Packets, rates: Sequence[int] = (), *, seed: int = 42, interface: Optional[str] = None, program: Optional[str] = None) -> pandas.DataFrame:
    """The bound on the delay of each class that holds packets, and of those with a real-time curve a further row for each of `rates`.

    `burst` is the least number of bytes with which the packets that the play is offered conform to `rate`, which is the second slope of
    the class's real-time curve where it is not one of `rates`. `bound` is the most nanoseconds from a packet's arrival to its end, in
    every capture in which the class conforms to that rate and burst and no packet is longer than the longest here; `greatest` is the
    greatest delay of the play. Where there is no bound, `reason` says why, and the numbers are `<NA>`. docs/teaching/BOUND.md has the
    theorem.

    >>> conf = "interface if0 bandwidth 8M hfsc\\nclass hfsc if0 root NULL pshare 100\\nclass hfsc if0 a root sc 4M 0 4M default"
    >>> bound(conf, pandas.DataFrame({"time_ns": [0, 0], "length": [1000, 500]}))[["rate", "burst", "bound", "greatest"]].values.tolist()
    [[4000000, 1500, 4000000, 1500000]]
    """
    made = play(conf, packets, seed, interface=interface, program=program)
    rows = measured(made, program).rows(holders(made.interface), rates)
    return pandas.DataFrame({
        "class": [row.of for row in rows], "packets": [row.packets for row in rows], "rate": tables.numbers([row.rate for row in rows]),
        "burst": tables.numbers([row.burst for row in rows]), "bound": tables.numbers([row.bound for row in rows]),
        "greatest": tables.numbers([row.greatest for row in rows]), "reason": [row.reason for row in rows]})


def measured(made: Play, program: Optional[str] = None) -> Measured:
    """The classes of a play as it is offered them; to be asked while the play is there, as the program reads its configuration."""
    return Measured(made.interface, [made.columns], made.config, program)


def least_curve(conf: Conf, packets: Packets, of: str, target: int, rate: int = 1, *, seed: int = 42, interface: Optional[str] = None,
                program: Optional[str] = None) -> Optional[Curve]:
    """The least real-time curve of a class, (m1, d, m2) in bits per second and nanoseconds, for which the bound is below `target`
    nanoseconds and the curves fit: the least m2, at least `rate`, then the least m1, then the least d. None where there is none."""
    made = play(conf, packets, seed, interface=interface, program=program)
    if of not in holders(made.interface) or made.interface.discipline == "cbq":
        raise Refused(f"interface {made.interface.name} has no class {of} that may have a real-time curve")
    least = measured(made, program).least(of, target, rate)
    if least is not None and (fit := confirmed(text_of(conf), made.config, made.interface, of, least.curve, program)) != "fits":
        raise Refused(f"check says {fit} of {least.curve}")
    return None if least is None else least.curve

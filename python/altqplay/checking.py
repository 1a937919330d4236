"""What a configuration means, as the program says it."""

from __future__ import annotations

import re
from dataclasses import dataclass
from typing import Optional

import pandas

from .workbench.conf import Interface

from .inputs import Conf, conf_file, interface_name
from .playing import Room
from .running import run


@dataclass(frozen=True)
class Checked:
    """A configuration that is accepted: `text`, the canonical one, `interface` and its classes, and whether the link can keep all
    real-time curves at once. Where it cannot, they exceed it `exceeds_at` nanoseconds after all classes become busy, by `exceeds_by`
    units, of which a byte has 8,000,000,000."""

    text: str
    interface: Interface
    fits: bool
    exceeds_at: Optional[int] = None
    exceeds_by: Optional[int] = None

    @property
    def classes(self) -> pandas.DataFrame:
        """A row for each class: name, parent, curves as (m1, d, m2) in bits per second and nanoseconds or None, and whether it is the
        default class."""
        return pandas.DataFrame([one._asdict() for one in self.interface.classes.values()], columns=["name", "parent", "realtime", "share", "limit", "is_default"])


def check(conf: Conf, interface: Optional[str] = None, *, program: Optional[str] = None) -> Checked:
    """Checks a configuration; `Refused` has the line, the word and the kind of its first fault (docs/reference/CONFIGURATION.md).

    >>> check("interface if0 bandwidth 8M hfsc").fits
    True
    >>> from altqplay import Refused
    >>> try:
    ...     check("interface if0 bandwidth 999 hfsc")
    ... except Refused as fault:
    ...     print(fault.status, fault.line, fault.word, fault.kind, fault.name)
    3 1 4 4 RateRange
    """
    room = Room()
    config = conf_file(conf, room.folder)
    name = interface_name(config, interface)
    lines = run(["check", "--config", config, "--interface", name], program)[1].splitlines()
    match = re.fullmatch(r"exceeds at (\d+) by (\d+)", lines[-1])
    exceeds = (int(match[1]), int(match[2])) if match else (None, None)
    return Checked("".join(f"{line}\n" for line in lines[:-1]), Interface(lines, name), match is None, *exceeds)

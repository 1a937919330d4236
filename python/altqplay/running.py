"""The program: where it is, which version, and how it is run.

The program is the one that is named, else that of the variable ALTQPLAY, else that of the repository (by release/program) or of the
wheel, else the one on the path.
"""

from __future__ import annotations

import re
import subprocess
from dataclasses import dataclass
from typing import Optional, Sequence

from .workbench import play as finding
from .workbench.conf import Interface
from .workbench.faults import refusal

ROOM = re.compile(r"\S*/altqplay-[a-z0-9_]{8}/")  # a folder of a play, which is gone when its message is read


@dataclass(frozen=True)
class Program:
    """The program that is run: its path, and the version that it says, empty where it says none."""

    path: str
    version: str

    def __str__(self) -> str:
        return f"altqplay {self.version or '(it says no version)'} at {self.path}"


def program(named: Optional[str] = None) -> Program:
    """The program that the functions of this package run. `Missing` where there is none."""
    path = finding.program(named)
    done = subprocess.run([path, "--version"], stdout=subprocess.PIPE, stderr=subprocess.PIPE, stdin=subprocess.DEVNULL, check=False)
    match = re.search(r"altqplay (\d[\w.]*)", done.stderr.decode("ascii", "replace"))
    return Program(path, match[1] if match else "")


def run(words: Sequence[str], named: Optional[str] = None, allowed: tuple[int, ...] = (0,)) -> tuple[int, str, str]:
    """Runs the program with some words: its status, and what it says on standard output and on standard error. `Refused` where the
    status is none of those allowed."""
    done = subprocess.run([finding.program(named), *words], stdout=subprocess.PIPE, stderr=subprocess.PIPE, stdin=subprocess.DEVNULL, check=False)
    said, hint = done.stdout.decode("ascii", "replace"), done.stderr.decode("ascii", "replace")
    if done.returncode not in allowed:
        raise refusal(done.returncode, said, named_alone(hint))
    return done.returncode, said, hint


def interface_of(config: str, name: str, named: Optional[str] = None) -> Interface:
    """What a configuration file means for an interface of it. `Refused` as the program refuses it."""
    return Interface(run(["check", "--config", config, "--interface", name], named)[1].splitlines(), name)


def named_alone(said: str) -> str:
    """What was said, with the files of a play by their names alone."""
    return ROOM.sub("", said)

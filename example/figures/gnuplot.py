"""Drawing by gnuplot, for the figures: data, colours and shapes, and the call of gnuplot."""

import os
import shutil
import subprocess
import sys
from collections import Counter

sys.dont_write_bytecode = True
sys.path.insert(0, os.path.join(os.path.dirname(os.path.abspath(__file__)), "..", "..", "python"))

from altqplay.workbench.faults import Refused  # noqa: E402
from altqplay.workbench.rows import fate_rows  # noqa: E402

# Tellable apart by the colour-blind (Okabe and Ito), with shapes for those who print in black and white.
COLOURS = ["#0072b2", "#d55e00", "#009e73", "#cc79a7", "#000000", "#56b4e9"]
SHAPES = [7, 4, 9, 2, 12, 1]  # of gnuplot: disc, square, full triangle, cross, diamond, plus
DASHES = ["1", "(6,3)", "(2,3)", "(12,3,3,3)"]
TERMINALS = {".svg": "svg size {},{} dynamic font 'sans-serif,14' background '#ffffff'",
             ".png": "pngcairo size {},{} font 'sans-serif,11' background '#ffffff'"}


class NoPicture(Exception):
    """Why nothing was drawn."""


def read_fates(name):
    """The fates of a file, of which there is at least one."""
    try:
        rows = list(fate_rows(name))
    except (OSError, Refused) as fault:
        raise NoPicture(f"{fault}, so nothing was drawn") from None
    if not rows:
        raise NoPicture(f"{name} has no packets, so nothing was drawn")
    return rows


def written(picture, commands, size):
    """Has gnuplot draw a picture of this size in pixels, whose ending says the format."""
    if shutil.which("gnuplot") is None:
        raise NoPicture("gnuplot was not found on this machine, so nothing was drawn")
    terminal = f"set terminal {TERMINALS[os.path.splitext(picture)[1]].format(*size)}\n"
    with open(picture, "wb") as file:
        done = subprocess.run(["gnuplot", "-"], input=(terminal + commands).encode(), stdout=file, check=False)
    if done.returncode != 0:
        raise NoPicture(f"gnuplot ended with status {done.returncode}")


def milliseconds(time):
    """A time in nanoseconds, written in milliseconds without loss."""
    return f"{time // 10**6}.{time % 10**6:06}"


def backlog(sent):
    """How many packets wait, as the corners of a line: (moment, count), two where the count changes."""
    changes = Counter()
    for fate in sent:
        changes[fate.arrival] += 1
        changes[fate.start] -= 1
    waiting, corners = 0, []
    for moment in sorted(changes):
        corners.append((moment, waiting))
        waiting += changes[moment]
        if changes[moment]:
            corners.append((moment, waiting))
    return corners


def block(name, rows):
    """Data for gnuplot under a name."""
    return "\n".join([f"${name} << END", *rows, "END", ""])

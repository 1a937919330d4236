"""The libraries that the workbench stands on. Run by itself, it names those that this Python does not see, or those of its words,
one a line, and ends with 0 where none is missing, else 1."""

import importlib.util
import os
import sys

# What installs libraries, in the repository; a package has none.
SETUP = os.path.join(os.path.dirname(os.path.dirname(os.path.dirname(os.path.abspath(__file__)))), "setup")
NEEDED = ["numpy", "pandas", "plotly"]


def missing(names):
    """The libraries of some names that this Python does not see."""
    return [name for name in names if importlib.util.find_spec(name) is None]


def advice(what, option=""):
    """How to get what is missing, for a message: by python/setup in the repository, else by the means of who installed the package."""
    return f"run python/setup{option}" if os.path.isfile(SETUP) else f"install {what}"


if __name__ == "__main__":
    found = missing(sys.argv[1:] or NEEDED)
    print("\n".join(found))
    sys.exit(1 if found else 0)

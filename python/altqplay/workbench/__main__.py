"""Lets `python3 altqplay/workbench` and `python3 -m altqplay.workbench` run the command line."""

import os
import signal
import sys

if not __package__:
    sys.path[0] = os.path.dirname(os.path.dirname(os.path.dirname(os.path.abspath(__file__))))

from altqplay.workbench import cli  # noqa: E402


def main():
    """Runs the words of this process; a signal that ends it has what it began end too, as Ctrl-C does."""
    signal.signal(signal.SIGTERM, lambda number, _frame: sys.exit(128 + number))
    return cli.main()


if __name__ == "__main__":
    sys.exit(main())

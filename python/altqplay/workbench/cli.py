"""The command line: finds the subcommand, runs it, and turns faults into a line and a status.

A subcommand is a module with NAME, HELP, `add_arguments(parser)` and `run(args)`, which answers the exit status. 0 and 1
are the subcommand's own answers, 2 says that the words or an input were refused, 77 that a tool or a library is missing, 130 that it was
interrupted.
"""

import argparse
import contextlib
import importlib
import os
import sys
from typing import TextIO, cast

from . import __version__
from .faults import Foreign, Missing, Refused
from .libraries import advice
from .play import usage
from .printable import Printed

# Each subcommand's module. One whose module is not here is no subcommand.
MODULES = {
    "bound": "bound",
    "convert": "convert",
    "late": "late",
    "report": "report",
    "delays": "delays",
    "import": "importing",
    "compare": "compare",
    "why": "why",
    "verify": "verify",
    "sweep": "sweep",
    "find": "find",
    "chain": "chain",
    "gap": "gap",
    "meter": "meter",
    "path": "path",
    "try": "trying",
}
REFUSED, MISSING, INTERRUPTED = 2, 77, 130


def load(name):
    """The module of a subcommand, or None where this package has none. A library that is missing is `Missing`."""
    path = f"{__package__}.{MODULES[name]}"
    try:
        return importlib.import_module(path)
    except ModuleNotFoundError as fault:
        if fault.name == path:
            return None
        raise Missing(lacking(fault)) from None


def lacking(fault):
    """What to say of a library that is not there."""
    return f"the Python library {fault.name} is not installed: {advice(fault.name)}"


def add_command(commands, name, module):
    """Adds a subcommand to those of a parser, where its module is here."""
    if module is not None:
        command = commands.add_parser(name, help=module.HELP, description=module.__doc__, formatter_class=argparse.RawDescriptionHelpFormatter)
        module.add_arguments(command)
        command.set_defaults(run=module.run)


def how_to_play():
    """How the program is called, for the end of the help."""
    said = usage()
    return f"the program:\n{said}" if said else ""


def parser_of(words):
    """The parser: of the subcommand that the words name alone, or of all of them for help."""
    is_named = bool(words) and words[0] in MODULES
    parser = argparse.ArgumentParser(prog="altqwork", description="Captures, plays and reports around altqplay.",
                                     epilog="" if is_named else how_to_play(), formatter_class=argparse.RawDescriptionHelpFormatter)
    parser.add_argument("--version", action="version", version=f"altqwork {__version__}")
    commands = parser.add_subparsers(metavar="SUBCOMMAND", required=True)
    for name in words[:1] if is_named else MODULES:
        try:
            add_command(commands, name, load(name))
        except Missing as fault:
            if is_named:
                raise
            commands.add_parser(name, help=str(fault))
    return parser


def main(words=None):
    """Runs the words of a command line, those of this process where none are given, and answers the exit status. All that is said is printable text."""
    words = sys.argv[1:] if words is None else words
    said, complained = (cast(TextIO, Printed(stream)) for stream in (sys.stdout, sys.stderr))
    with contextlib.redirect_stdout(said), contextlib.redirect_stderr(complained):
        return answered(words)


def answered(words):
    """Runs the words of a command line and answers the exit status."""
    args = None
    try:
        args = parser_of(words).parse_args(words)
        status = args.run(args)
        sys.stdout.flush()
        return status
    except BrokenPipeError:  # who reads wants no more: nothing is said of it, and nothing more written
        os.dup2(os.open(os.devnull, os.O_WRONLY), sys.stdout.fileno())
        return 0
    except KeyboardInterrupt:
        print("altqwork: interrupted", file=sys.stderr)
        return INTERRUPTED
    except (Refused, OSError) as fault:
        can_take = isinstance(fault, Foreign) and hasattr(args, "foreign")
        print(f"altqwork: {fault}" + ("; --foreign takes it" if can_take else ""), file=sys.stderr)
        return REFUSED
    except Missing as fault:
        print(f"altqwork: {fault}", file=sys.stderr)
        return MISSING
    except ModuleNotFoundError as fault:
        print(f"altqwork: {lacking(fault)}", file=sys.stderr)
        return MISSING

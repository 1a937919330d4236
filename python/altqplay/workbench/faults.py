"""What ends a question before its answer: the input is refused, or a tool is missing (status 77 of the command line).

`status`, `kind`, `line`, `word` and `place` are those of docs/reference/MANUAL.md, "Statuses".
"""

from __future__ import annotations

import re
from typing import Optional

# The names that a configuration's and a capture's faults have, in the order of their kinds from 1 on (docs/reference/CONFIGURATION.md and MANUAL.md).
CONFIGURATION = ("UnknownWord MissingWord BadNumber RateRange BadAddress BadByte TooLong InterfaceTwice NoInterface WrongDiscipline NameTaken NoParent"
                 " TwoRoots TooDeep TooManyClasses TooManyFilters TooManyInterfaces ConvexFirst NoShare RealTimeInside InnerQueue TwoDefaults NoDefault"
                 " NoClass ConditionerTwice").split()
CAPTURE = ("ShortHead BadMagic BadVersion BadLink ShortRecord EmptyRecord LongRecord BadBlock ShortBlock UnknownInterface BadStamp BadResolution"
           " OldPacket").split()
READ = ("configuration", "arrivals", "departures", "fates")
WRITTEN = ("departures", "fates", "statistics", "arrivals", "marked arrivals", "second departures", "second fates", "second statistics", "path", "result")
NUMBERED = re.compile(r"altqplay: (?:words refused, kind (?P<kind>\d+)|limit (?P<limit>\d+) reached|not verified, row (?P<row>\d+) kind (?P<test>\d+))")
OF_CONFIGURATION = re.compile(r"altqplay: configuration line (\d+) word (\d+): (\w+)")
OF_CAPTURE = re.compile(r"altqplay: capture byte (\d+): (\w+)")
OF_FILE = re.compile(r"altqplay: (reading|writing) (.+) failed")


class Refused(Exception):
    """An input is not what it should be; the text names the file, the line or record, and what is wrong.

    `status` is the program's exit status, 2 for what the package itself refuses. `kind` is the fault's number there, and `name` its name. `line` and `word`
    are the place in a configuration, both from 1 on; `line` is also the row of fates that are not verified. `place` is the byte of a
    capture. `message` is what the program says on standard output, `hint` what it says on standard error. What is not known is None, or empty.

    >>> fault = refusal(3, "altqplay: configuration line 1 word 4: RateRange", "slow.conf:1: 999: out of range")
    >>> fault.line, fault.word, fault.kind, fault.name, fault.hint
    (1, 4, 4, 'RateRange', 'slow.conf:1: 999: out of range')
    """

    def __init__(self, text: str, status: int = 2, kind: Optional[int] = None, name: str = "", line: Optional[int] = None,
                 word: Optional[int] = None, place: Optional[int] = None, message: str = "", hint: str = "") -> None:
        super().__init__(text)
        self.status, self.kind, self.name, self.line, self.word, self.place = status, kind, name, line, word, place
        self.message, self.hint = message, hint

    def brief(self) -> str:
        """The text in one line: of what the program says the message and the first line, without the picture of the place."""
        lines = [self.message, self.hint.splitlines()[0]] if self.message and self.hint else str(self).splitlines()
        return ": ".join(line.strip() for line in lines)

    def __reduce__(self) -> tuple:
        return type(self), (str(self), self.status, self.kind, self.name, self.line, self.word, self.place, self.message, self.hint)


class Foreign(Refused):
    """A row that another program wrote otherwise than `altqplay` does, but that says the same."""


class Missing(Exception):
    """A program or a library is not on this machine; the text names it."""


def refusal(status: int, message: str, hint: str, text: str = "") -> Refused:
    """What the program refused, from its status and what it said on standard output and standard error; `text` is its text, else what was said."""
    message, hint = message.strip(), hint.strip()
    about: dict[str, object] = {}
    if match := OF_CONFIGURATION.search(message):
        about = {"line": int(match[1]), "word": int(match[2]), "name": match[3], "kind": kind_of(CONFIGURATION, match[3])}
    elif match := OF_CAPTURE.search(message):
        about = {"place": int(match[1]), "name": match[2], "kind": kind_of(CAPTURE, match[2])}
    elif match := OF_FILE.search(message):
        about = {"name": match[2], "kind": kind_of(READ if match[1] == "reading" else WRITTEN, match[2])}
    elif match := NUMBERED.search(message):
        about = {"kind": int(match["kind"] or match["limit"] or match["test"]), "line": int(match["row"]) if match["row"] else None}
    text = text or "\n".join(part for part in (message, hint) if part) or f"altqplay ends with status {status}"
    return Refused(text, status, message=message, hint=hint, **about)  # type: ignore[arg-type]


def kind_of(names: tuple[str, ...] | list[str], name: str) -> Optional[int]:
    """The kind of a fault by its name, counted from 1; None for one that is not known."""
    return names.index(name) + 1 if name in names else None

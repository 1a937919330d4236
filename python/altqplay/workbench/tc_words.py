"""Reads lines of tc, commands or what tc shows, into commands of words, and the units of tc(8)."""

from __future__ import annotations

import re
from fractions import Fraction
from typing import Iterable, Iterator, Mapping

from .altq_text import Notes, Word

TOKEN = re.compile(r'(?:"[^"]*"|\'[^\']*\'|[^\s"\';|&])+|;|\|\|?|&&?')
VARIABLE = re.compile(r"\$(?:\{(\w+)\}|(\w+|[@*#?]|\())")
ASSIGNED = re.compile(r"(?:(?:export|local|readonly)\s+)?([A-Za-z_]\w*)=(.*)\Z")
NUMBER = re.compile(r"(\d+(?:\.\d*)?|\.\d+)([A-Za-z%]*)\Z")
# Bits per second of each unit of a rate; nanoseconds of each unit of time; bytes of each unit of size.
RATES = {"": 1, "bit": 1, "bps": 8}
RATES.update({f"{prefix}{unit}": 10**power * times for prefix, power in zip("kmgt", (3, 6, 9, 12)) for unit, times in (("bit", 1), ("bps", 8))})
RATES.update({f"{prefix}i{unit}": 2**power * times for prefix, power in zip("kmgt", (10, 20, 30, 40)) for unit, times in (("bit", 1), ("bps", 8))})
TIMES = {"": 1000, "s": 10**9, "sec": 10**9, "secs": 10**9, "ms": 10**6, "msec": 10**6, "msecs": 10**6, "us": 1000, "usec": 1000,
         "usecs": 1000}
SIZES = {"": 1, "b": 1, "k": 1024, "kb": 1024, "m": 1024**2, "mb": 1024**2, "g": 1024**3, "gb": 1024**3, "kbit": 128,
         "mbit": 1024 * 128, "gbit": 1024**2 * 128}
LOOPS = ("for", "while", "until", "case", "function")
OBJECTS = ("qdisc", "class", "filter")
# What begins a line of counts in what `tc -s` shows.
COUNTS = ("Sent", "backlog", "period", "rate")


def quantity(word: Word, units: Mapping[str, int | Fraction], what: str, notes: Notes) -> Fraction:
    """A number with a unit, in the units' common one."""
    match = NUMBER.match(word.text)
    if match is None or match[2].lower() not in units:
        notes.refuse(word, f"no {what} of tc(8)")
    return Fraction(match[1]) * units[match[2].lower()]


def whole(word, base, notes):
    """A whole number: in base 16, or for base 0 with 0x for 16, a leading 0 for 8, else 10."""
    try:
        octal = base == 0 and re.fullmatch(r"0\d+", word.text)
        return int(word.text, 8 if octal else base)
    except ValueError:
        return notes.refuse(word, "no number of tc")


def stripped(token):
    """A word without quotes."""
    return re.sub(r"\"([^\"]*)\"|'([^']*)'", lambda match: match[1] if match[1] is not None else match[2], token)


def logical_lines(text):
    """Each line's words: a line that ends with a backslash goes on, and a word keeps the number of the first line."""
    number, held = 0, ""
    for at, line in enumerate(text.split("\n"), 1):
        number = number if held else at
        line = line.rstrip("\r")
        is_open = line.endswith("\\")
        held += (line[:-1] if is_open else line) + " "
        if not is_open:
            yield number, re.sub(r"(^|\s)#.*", " ", held)
            held = ""
    if held:
        yield number, held


class Script:
    """The commands of a script of tc, with the values of its variables."""

    def __init__(self, notes):
        self.notes, self.values, self.passed = notes, {}, 0

    def value(self, word):
        """The text of a word with each variable's value in its place."""
        def of(match):
            name = match[1] or match[2]
            if name == "(":
                self.notes.refuse(word, "the shell computes this: write its value")
            if name not in self.values:
                self.notes.refuse(word, f"no line above gives {name} a value")
            return self.values[name]
        return VARIABLE.sub(of, word.text)

    def words(self, command):
        """The words of a command, variables and quotes replaced, redirections left out."""
        found = [word for at, word in enumerate(command) if not is_redirection(command, at)]
        return [Word(stripped(text), word.line, word.place) for word in found for text in self.value(word).split()]

    def assign(self, command):
        """Keeps what a command gives to a variable, if that is all it does."""
        match = ASSIGNED.match(" ".join(word.text for word in command))
        if match is None or command[-1].text in ("tc",):
            return False
        value = stripped(match[2])
        self.values[match[1]] = VARIABLE.sub(lambda found: self.values.get(found[1] or found[2], found[0]), value)
        if "$" in self.values[match[1]] or "`" in value:
            del self.values[match[1]]
        return True

    def command(self, command):
        """A command of tc without its `tc`, or None."""
        if self.assign(command):
            return None
        if command[0].text in LOOPS:
            self.notes.refuse(command[0], "loops of the shell are not read: give what tc shows, by `tc -d class show`")
        first = stripped(command[0].text)
        is_call = first in OBJECTS or first == "sudo" or first.split("/")[-1] == "tc" or re.match(r"\$\{?\w", first)
        words = self.words(command) if is_call else []
        while words and (words[0].text == "sudo" or words[0].text.split("/")[-1] == "tc" or words[0].text.startswith("-")):
            words = words[1:]
        if not words or words[0].text not in OBJECTS:
            self.passed += 1
            return None
        return words


def commands(text: str, notes: Notes) -> list[list[Word]]:
    """The commands on qdiscs, classes and filters. What tc shows of one filter on several lines is joined."""
    script, goes_on = Script(notes), False
    found: list[list[Word]] = []
    for number, line in logical_lines(text):
        pieces = [Word(match[0], number, place) for place, match in enumerate(TOKEN.finditer(line), 1)]
        if goes_on and line[:1].isspace() and pieces and pieces[0].text not in OBJECTS + ("tc",):
            found[-1] += [] if pieces[0].text in COUNTS else without_counts(pieces)
            continue
        goes_on = False
        for command in split(pieces):
            words = script.command(command)
            if words is not None:
                goes_on = words[0].text == "filter" and not is_change(words)
                found.append(words if is_change(words) else without_counts(words))
    if script.passed:
        notes.say(f"{script.passed} commands that are none of tc's qdiscs, classes and filters were passed over")
    return found


def is_redirection(command, at):
    """Whether a word is a redirection of the shell, or the file of one."""
    return command[at].text[:2].lstrip("12").startswith(">") or (at > 0 and re.fullmatch(r"\d?>>?", command[at - 1].text) is not None)


def is_change(words):
    """Whether the words are a command and not what tc shows."""
    return len(words) > 1 and words[1].text in ("add", "replace", "change", "del", "delete", "link")


def without_counts(words):
    """Words of what tc shows, without the counts that stand in parentheses."""
    found, depth = [], 0
    for word in words:
        depth += word.text.count("(")
        found += [word] if depth == 0 else []
        depth -= word.text.count(")")
    return found


def split(pieces: Iterable[Word]) -> Iterator[list[Word]]:
    """The commands of a line, which `;`, `&&`, `||` and `|` part."""
    command: list[Word] = []
    for word in pieces:
        if word.text in (";", "&&", "||", "|", "&"):
            if command:
                yield command
            command = []
        else:
            command.append(word)
    if command:
        yield command

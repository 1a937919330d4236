"""Reads pf.conf into statements of words: comments, continued lines, lists over several lines, macros."""

import re

from .altq_text import Notes, Word

TOKEN = re.compile(r'"[^"]*"|<[A-Za-z_][\w.:-]*>|><|<>|!=|>=|<=|[{}(),=!<>]|[^\s{}(),"=!<>]+')
MACRO = re.compile(r"\$(\w+)(.*)\Z")
MOST_NESTED = 20


def bare(text):
    """A physical line without its comment."""
    inside = False
    for place, char in enumerate(text):
        if char == '"':
            inside = not inside
        elif char == "#" and not inside:
            return text[:place]
    return text


def logical_lines(text):
    """Each statement's text with its first line's number: lines that end with a backslash or inside a list go on."""
    number, held = 0, ""
    for at, line in enumerate(text.split("\n"), 1):
        number = number if held else at
        line = bare(line.rstrip("\r"))
        is_open = line.rstrip().endswith("\\")
        held += (line.rstrip()[:-1] if is_open else line) + " "
        is_block = held.split()[:1] in (["anchor"], ["nat-anchor"], ["rdr-anchor"], ["binat-anchor"])
        if not is_open and (is_block or held.count("{") <= held.count("}")):
            yield number, held
            held = ""
    if held:
        yield number, held


def words_of(number, text):
    """The words of a statement. A word's place counts what blanks part."""
    starts = [match.start() for match in re.finditer(r"\S+", text)]
    for match in TOKEN.finditer(text):
        yield Word(match[0], number, sum(start <= match.start() for start in starts))


def expanded(words, macros, notes, depth=0):
    """Words with each macro in its place; what comes of one stands where its name stands, and what follows the name behind it."""
    for word in words:
        match = MACRO.match(word.text)
        if match is None:
            yield word
        elif match[1] not in macros:
            notes.refuse(word, "no line above defines this macro")
        elif depth == MOST_NESTED:
            notes.refuse(word, "this macro stands inside of itself")
        else:
            inner = [Word(text, word.line, word.place) for text in macros[match[1]]]
            for one in expanded(inner, macros, notes, depth + 1):
                yield one if one.text in ("{", "}", ",", "(", ")") else one._replace(text=one.text + match[2])


def value_of(words):
    """The texts of a macro's value: what stands in quotes is read as words."""
    for word in words:
        if word.text.startswith('"'):
            yield from TOKEN.findall(word.text[1:-1])
        else:
            yield word.text


def statements(text, notes):
    """The statements of a pf.conf as lists of words, with macros expanded."""
    macros = {}
    for number, line in logical_lines(text):
        words = list(words_of(number, line))
        if len(words) > 2 and words[1].text == "=":
            macros[words[0].text] = list(value_of(words[2:]))
        elif words:
            yield list(expanded(words, macros, notes))


class Cursor:
    """Goes through the words of a statement."""

    def __init__(self, words, notes):
        self.words, self.at = words, 0
        self.notes: Notes = notes

    def has(self, *texts):
        """Whether the next word is there, and is one of some texts where any are given."""
        return self.at < len(self.words) and (not texts or self.words[self.at].text in texts)

    def take(self, what):
        """The next word; its absence is refused as that of `what`."""
        if not self.has():
            last = self.words[-1]
            self.notes.refuse(Word("end of the line", last.line, last.place + 1), f"{what} is missing")
        self.at += 1
        return self.words[self.at - 1]

    def skip(self, *texts):
        """Passes the next word if it is one of some texts, and says whether it was."""
        found = self.has(*texts)
        self.at += found
        return found

    def expect(self, text):
        word = self.take(text)
        if word.text != text:
            self.notes.refuse(word, f"{text} is wanted here")

    def listed(self, what):
        """One word, or those of a list; a list inside of a list is part of it."""
        if not self.skip("{"):
            return [self.take(what)]
        found, depth = [], 1
        while depth:
            word = self.take("}")
            depth += {"{": 1, "}": -1}.get(word.text, 0)
            if word.text not in ("{", "}", ","):
                found.append(word)
        return found

    def group(self):
        """Passes what stands in parentheses, if it does, and answers its words."""
        found = []
        if self.skip("("):
            while not self.skip(")"):
                found.append(self.take(")"))
        return found

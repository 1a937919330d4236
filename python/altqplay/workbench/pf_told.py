"""What of a pf.conf besides its rules decides about packets and is not read, or is taken for granted."""

from __future__ import annotations

from typing import List

from .altq_text import Notes, Word

TRANSLATIONS = {"nat", "rdr", "binat"}


def names_in(words: List[Word]) -> set:
    """The words of a statement without lists' signs and quotes."""
    return {word.text.strip('"') for word in words if word.text not in ("{", "}", ",")}


def tell_anchor(words: List[Word], notes: Notes) -> None:
    """An anchor: its rules stand in the file, or elsewhere."""
    if words[-1].text != "{":
        notes.say("rules of an anchor that the file does not show (anchor without a body) are not read")
        return
    notes.say("rules of an anchor are read as if they stood outside of it")
    asked = [word for word in words[1:-1] if not word.text.startswith('"')]
    if len(asked) > 1 or (asked and asked[0].text in ("in", "out", "on", "quick", "proto", "from", "to", "inet", "inet6")):
        notes.add(asked[0], "what an anchor asks for is not asked of its rules")


def tell_set(words: List[Word], interfaces: List[str], notes: Notes) -> None:
    """`set skip`: pf asks no rules there."""
    if len(words) > 2 and words[1].text == "skip":
        for word in words[2:]:
            if word.text.strip('"') in interfaces:
                notes.add(word, "pf asks no rules on an interface that is skipped, and here they are asked")


def tell_statements(lines: List[List[Word]], interfaces: List[str], notes: Notes) -> None:
    """Notes what of the statements that are no rules, queues or tables has an effect."""
    for words in lines:
        kind = words[0].text
        if kind in TRANSLATIONS:
            notes.say("addresses are translated (nat, rdr, binat): rules and filters see them as the capture has them")
        elif kind == "anchor":
            tell_anchor(words, notes)
        elif kind in ("include", "load"):
            notes.add(words[0], "the rules of another file are not read")
        elif kind == "set":
            tell_set(words, interfaces, notes)
        elif kind == "scrub" and "set-tos" in names_in(words):
            notes.add(next(word for word in words if word.text == "set-tos"), "the type of service is the one that the capture has")

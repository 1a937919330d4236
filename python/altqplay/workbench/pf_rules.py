"""Reads the rules of pf.conf(5) that pass, match or block packets: what each asks for, and the queues that it names."""

from __future__ import annotations

import re
from dataclasses import dataclass, field
from typing import Dict, List, Optional, Tuple

from . import services
from .altq_text import Address, Word
from .asked import EVERYONE, Entry, Hosts, Span, entry_of
from .pf_queues import OPENBSD
from .pf_words import Cursor

ACTIONS = ("pass", "block", "match")
OTHERS = {"set", "scrub", "nat", "rdr", "binat", "no", "table", "nat-anchor", "rdr-anchor", "binat-anchor", "anchor", "load",
          "antispoof", "include", "ether", "}"}
# What a rule may ask for that the file and a capture do not tell.
CONDITIONS = {"user", "group", "os", "probability", "received-on", "prio", "fragment"}
# Words of a rule that change no queue, with how many words stand behind each, parentheses counting as one.
PASSED = {"label": 1, "rtable": 1, "tracker": 1, "ridentifier": 1, "allow-opts": 0, "drop": 0, "return": 0,
          "return-rst": 0, "return-icmp": 0, "return-icmp6": 0, "route-to": 1, "reply-to": 1, "dup-to": 1, "log": 0, "round-robin": 0,
          "random": 0, "sticky-address": 0, "source-hash": 0, "bitmask": 0}
# What changes when packets of a rule come to the queue, or whether they do.
SHAPERS = {"dnpipe", "dnqueue", "max-pkt-rate"}
FLAGS = {letter: 1 << place for place, letter in enumerate("FSRPAUEW")}
NOT_IN_FILE = "what addresses it stands for is not in the file: give them by --address {0}=ADDRESS[,..]"
ONE_PORT = "a filter has one port, and these are more than 64"


@dataclass
class Rule:
    """A rule; what it leaves open is empty or None.

    `unsaid` is the first thing that no filter can say, and `unknown` the first that nothing here tells.
    """

    word: Word
    direction: Optional[str] = None
    is_quick: bool = False
    interfaces: List[str] = field(default_factory=list)
    is_not_on: bool = False
    family: Optional[int] = None
    protocols: List[int] = field(default_factory=lambda: [0])
    src: List[Hosts] = field(default_factory=lambda: [EVERYONE])
    dst: List[Hosts] = field(default_factory=lambda: [EVERYONE])
    sport: Optional[List[Span]] = None
    dport: Optional[List[Span]] = None
    tos: Optional[Address] = None
    flags: Optional[Tuple[int, int]] = None
    flags_word: Optional[Word] = None
    icmp: Optional[List[Tuple[int, Optional[int]]]] = None
    tag: Optional[str] = None
    tagged: Optional[Tuple[str, bool]] = None
    queues: List[Word] = field(default_factory=list)
    queue_word: Optional[Word] = None
    has_state: bool = True
    unsaid: Optional[tuple] = None
    unknown: Optional[tuple] = None

    def strange(self, word, text):
        """Keeps the first thing that no filter can say."""
        self.unsaid = self.unsaid or (word, text)

    def untold(self, word, text):
        """Keeps the first thing that nothing here tells; no filter can say it either."""
        self.unknown = self.unknown or (word, text)
        self.strange(word, text)


def named_hosts(word, text, tables, rule):
    """The addresses of a name of the file or of --address."""
    if text not in tables:
        rule.untold(word, NOT_IN_FILE.format(text))
        return []
    return [Hosts(tuple(tables[text]), is_table=text.startswith("<"))]


def host(cursor, tables, rule):
    """The addresses of one item behind `from` or `to`, also with `!`."""
    is_not = cursor.skip("!")
    if is_not:
        rule.strange(cursor.words[cursor.at - 1], "no filter can say this")
    if cursor.has("("):
        word = cursor.words[cursor.at]
        found = named_hosts(word, "(" + " ".join(one.text for one in cursor.group()) + ")", tables, rule)
    else:
        word = cursor.take("an address")
        if cursor.has("-"):
            rule.strange(cursor.take("an address"), "a filter has no ranges of addresses")
            word = word._replace(text=f"{word.text}-{cursor.take('an address').text}")
        entry = entry_of(word.text)
        found = ([EVERYONE] if word.text == "any" else [Hosts((entry,))] if entry
                 else named_hosts(word, word.text, tables, rule))
        if entry and entry.address() is None:
            rule.strange(word, "a filter has no ranges of addresses")
    return [one._replace(is_not=is_not) for one in found]


def hosts(cursor, tables, rule):
    """The addresses behind `from` or `to`."""
    if cursor.has("port"):
        return [EVERYONE]
    if not cursor.skip("{"):
        return host(cursor, tables, rule)
    found, depth = [], 1
    while depth:
        if cursor.has("{", "}", ","):
            depth += {"{": 1, "}": -1, ",": 0}[cursor.take("}").text]
        else:
            found += host(cursor, tables, rule)
    return found


def span(least, most, word, rule):
    """The ports from one to another."""
    ends = [services.port_number(text) for text in (least, most)]
    if None in ends or not 0 <= ends[0] <= ends[1] <= 65535:
        rule.untold(word, "no port that is known: write its number")
        return []
    return [Span(*ends)]


# The spans of an operator with a port.
UNARY = {"=": lambda n: [(n, n)], "!=": lambda n: [(0, n - 1), (n + 1, 65535)], "<": lambda n: [(0, n - 1)], "<=": lambda n: [(0, n)],
         ">": lambda n: [(n + 1, 65535)], ">=": lambda n: [(n, 65535)]}
BINARY = {"><": lambda a, b: [(a + 1, b - 1)], "<>": lambda a, b: [(0, a - 1), (b + 1, 65535)]}


def spans(found):
    """Spans without those that are empty."""
    return [Span(least, most) for least, most in found if least <= most]


def port(cursor, rule):
    """The ports of one item behind `port`."""
    operator = cursor.take("a port") if cursor.has(*UNARY) else None
    if operator is not None and operator.text != "=":
        rule.strange(operator, "a filter has one port")
    word = cursor.take("a port")
    if cursor.has(*BINARY):
        between, other = cursor.take("a port"), cursor.take("a port")
        numbers = [services.port_number(one.text) for one in (word, other)]
        if between.text == "<>":
            rule.strange(between, "a filter has one port")
        if None in numbers or numbers[0] > numbers[1]:
            rule.untold(word._replace(text=between.text), "no port that is known: write its number")
            return []
        found = spans(BINARY[between.text](*numbers))
        if not found:
            rule.strange(word, "no port stands between these")
    elif operator is not None:
        found = [one for least in span(word.text, word.text, word, rule) for one in spans(UNARY[operator.text](least.least))]
    else:
        least, _, most = word.text.partition(":")
        found = span(least, most or least, word, rule)
    if any(one.most - one.least >= 64 for one in found):
        rule.strange(word, ONE_PORT)
    return found


def ports(cursor, rule):
    """The ports behind `port`, or None for any."""
    if not cursor.skip("port"):
        return None
    if not cursor.skip("{"):
        return port(cursor, rule)
    found, depth = [], 1
    while depth:
        if cursor.has("{", "}", ","):
            depth += {"{": 1, "}": -1, ",": 0}[cursor.take("}").text]
        else:
            found += port(cursor, rule)
    return found


def protocols(cursor, rule):
    """The protocols behind `proto`."""
    found = []
    for word in cursor.listed("a protocol"):
        number = services.protocol_number(word.text)
        if number is None:
            rule.untold(word, "no protocol that is known: write its number")
        else:
            found.append(number)
    return found


def tos(cursor, rule):
    """The type of service behind `tos` or `dscp`."""
    word = cursor.take("a type of service")
    found = services.tos_of(word.text)
    if found is None:
        rule.untold(word, "no type of service that is known: write its number")
    return Address(*found) if found else None


def flag_bits(text):
    """The bits of flags of TCP, or None."""
    return sum(FLAGS[letter] for letter in set(text)) if set(text) <= set(FLAGS) else None


def tcp_flags(cursor, rule):
    """The flags behind `flags`: the bits that are set, of those that are looked at."""
    word = cursor.take("flags of TCP")
    if word.text == "any":
        return (0, 0)
    wanted, _, of = word.text.partition("/")
    bits = (flag_bits(wanted), flag_bits(of) if of else 0xFF)
    if None in bits:
        rule.untold(word, "no flags of TCP that are known")
        return None
    return bits


def icmp_types(cursor, rule, word):
    """The types of ICMP behind `icmp-type` or `icmp6-type`, each with its code or None."""
    rule.strange(word, "no filter can ask for this")
    table = services.ICMP if word.text == "icmp-type" else services.ICMP6
    found, kinds = [], cursor.listed("a type of ICMP")
    codes = cursor.listed("a code of ICMP") if cursor.skip("code") else [None]
    for kind in kinds:
        for code in codes:
            numbers = services.number_in(table, kind.text, 255), code and services.number_in({}, code.text, 255)
            if numbers[0] is None or (code and numbers[1] is None):
                rule.untold(kind, "no type of ICMP that is known: write its number")
            else:
                found.append(numbers)
    return found


def where(cursor, rule, word):
    """The interfaces behind `on`."""
    if cursor.skip("!"):
        rule.is_not_on = True
        rule.strange(word, "no filter can say this")
    found = cursor.listed("an interface")
    if [one.text for one in found] != ["any"]:
        rule.interfaces = [one.text for one in found]
    for one in found:
        if one.text == "!" or not re.search(r"\d\Z", one.text) and one.text not in ("any", "egress"):
            rule.untold(one, "which interfaces are of this group is not in the file: write their names")


def part(cursor, rule, word, tables):
    """Reads one part of a rule, which begins with a word; False where it is none."""
    text = word.text
    if text in ("in", "out"):
        rule.direction = text
    elif text == "quick":
        rule.is_quick = True
    elif text == "on":
        where(cursor, rule, word)
    elif text in ("inet", "inet6"):
        rule.family = 4 if text == "inet" else 6
    elif text == "proto":
        rule.protocols = protocols(cursor, rule)
    elif text == "from":
        rule.src, rule.sport = hosts(cursor, tables, rule), ports(cursor, rule)
    elif text == "to":
        rule.dst, rule.dport = hosts(cursor, tables, rule), ports(cursor, rule)
    elif text in ("tos", "dscp"):
        rule.tos = tos(cursor, rule)
    elif text == "queue":
        rule.queue_word = word
        rule.queues = [one for one in cursor.group() if one.text != ","] if cursor.has("(") else [cursor.take("a queue")]
    else:
        return other_part(cursor, rule, word)
    return True


def other_part(cursor, rule, word):
    """Reads a part of a rule that is rarer; False where there is none of the kind."""
    if word.text in ("keep", "modulate", "synproxy", "no"):
        rule.has_state = word.text != "no"
        cursor.expect("state")
        cursor.group()
    elif word.text == "flags":
        rule.flags, rule.flags_word = tcp_flags(cursor, rule), word
    elif word.text in ("icmp-type", "icmp6-type"):
        rule.icmp = icmp_types(cursor, rule, word)
    elif word.text == "tag":
        rule.tag = cursor.take("a tag").text
    elif word.text == "tagged" or (word.text == "!" and cursor.skip("tagged")):
        rule.strange(word, "no filter can ask for this")
        rule.tagged = (cursor.take("a tag").text, word.text == "!")
    elif word.text in SHAPERS:
        cursor.notes.add(word, "it delays or drops packets before they come to the queue, and is not played")
        cursor.group() if cursor.has("(") else cursor.take("a value")
    elif word.text in CONDITIONS:
        rule.untold(word, "neither the file nor a capture tells this")
        cursor.listed("a value")
    elif word.text in PASSED:
        for _ in range(PASSED[word.text]):
            if not cursor.has("(", "{"):
                cursor.take("a value")
        cursor.listed("a value") if cursor.has("{") else cursor.group()
    elif word.text == "set":
        pass_set(cursor)
    else:
        return word.text in ("all", ",")
    return True


def pass_set(cursor):
    """Passes a `set` of a rule, but that of a queue, which is of another language."""
    if cursor.has("queue"):
        cursor.notes.refuse(cursor.take("queue"), OPENBSD)
    cursor.group() if cursor.has("(") else (cursor.take("what is set"), cursor.take("a value"))


def rule_of(words, tables, notes):
    """The rule of a statement. A word that is not known makes it one that nothing here tells, and is passed."""
    cursor = Cursor(words, notes)
    rule = Rule(cursor.take("a rule"))
    rule.has_state = rule.word.text != "block"
    while cursor.has():
        word = cursor.take("a part of a rule")
        if not part(cursor, rule, word, tables):
            rule.untold(word, "no part of a rule that is known here")
            cursor.group()
    if rule.flags and rule.flags[1] and not rule.has_state:
        rule.strange(rule.flags_word, "a filter looks at no flags of TCP")
    if len(rule.queues) > 2:
        notes.refuse(rule.queues[2], "a rule names one queue, or two")
    return rule


def table_entries(words):
    """The addresses of a table, or None where one of them is not in the file."""
    found: List[Entry] = []
    is_out = False
    for word in words:
        if word.text in ("{", "}", ",", "const", "counters", "persist"):
            continue
        if word.text == "!":
            is_out = True
            continue
        entry = entry_of(word.text, is_out)
        if entry is None:
            return None
        found.append(entry)
        is_out = False
    return found


def tables_of(lines, given=()) -> Dict[str, List[Entry]]:
    """The addresses of each `table` whose addresses stand in the file, and of the names that --address gives."""
    found = {}
    for words in lines:
        if words[0].text == "table" and any(word.text == "{" for word in words) and all(word.text != "file" for word in words):
            entries = table_entries(words[2:])
            if entries is not None:
                found[words[1].text] = entries
    found.update(given)
    return found


def rules_of(lines, tables, notes):
    """The rules in order, those that block with the others."""
    found = []
    for words in lines:
        kind = words[0].text
        if kind in ACTIONS:
            found.append(rule_of(words, tables, notes))
        elif kind not in OTHERS and kind not in ("altq", "queue"):
            notes.refuse(words[0], "no statement of pf.conf that is known")
    return found


def settle_groups(rules, interfaces, notes):
    """Reads `on egress`: the group of the interfaces to which the default route leads, which the file does not tell."""
    names = [one.name for one in interfaces]
    for rule in rules:
        if "egress" not in rule.interfaces:
            continue
        if len(names) == 1:
            notes.say(f"`on egress` is read as `on {names[0]}`, the only interface with queues")
            rule.interfaces = [names[0] if one == "egress" else one for one in rule.interfaces]
        else:
            rule.untold(rule.word, f"egress may be any of {', '.join(names)}: write the interface's name")

"""Writes the queues and rules of pfSense's config.xml as the lines of pf.conf that pf is given of them, each with its line in the file.

Read are the elements `interfaces`, `aliases`, `shaper` and `filter`. Floating rules stand before those of interfaces, which are quick
and for what comes in, as in /tmp/rules.debug. An element of a rule that is not known here and says something is noted.
"""

from __future__ import annotations

import ipaddress
from dataclasses import dataclass, field
from typing import Dict, List, Optional, Tuple
from xml.parsers import expat

from .altq_text import Notes, Word
from .faults import Refused

MOST_NESTED = 64
# Elements of a rule that place no packet.
PASSED = {"id", "tracker", "descr", "label", "log", "created", "updated", "associated-rule-id", "gateway", "max", "max-src-nodes", "max-src-conn",
          "max-src-states", "max-src-conn-rate", "max-src-conn-rates", "statetimeout", "sched", "vlanprioset", "nopfsync", "allowopts", "nosync",
          "dnpipe", "pdnpipe", "disablereplyto", "separator", "floating", "set-prio", "vlanprio_set", "category"}
KNOWN = {"type", "interface", "ipprotocol", "tag", "tagged", "direction", "quick", "statetype", "protocol", "source", "destination", "icmptype",
         "dscp", "ackqueue", "defaultqueue", "disabled", "tcpflags1", "tcpflags2", "tcpflags_any"}
FLAGS = {"fin": "F", "syn": "S", "rst": "R", "psh": "P", "ack": "A", "urg": "U", "ece": "E", "cwr": "W"}


@dataclass
class Element:
    """An element with the line on which it begins."""

    name: str
    line: int
    text: str = ""
    children: List["Element"] = field(default_factory=list)

    def all(self, name: str) -> List["Element"]:
        return [child for child in self.children if child.name == name]

    def one(self, name: str) -> Optional["Element"]:
        return next(iter(self.all(name)), None)

    def has(self, name: str) -> bool:
        """Whether a switch is on: the element is there and does not say no."""
        found = self.one(name)
        return found is not None and found.text.strip().lower() not in ("no", "off", "0", "disabled")

    def value(self, name: str) -> str:
        """The text of a child, "" where there is none."""
        found = self.one(name)
        return " ".join(found.text.split()) if found else ""


def tree_of(name: str, text: str) -> Element:
    """The elements of a text. `Refused` where it is no XML or declares a document type, which config.xml never does."""
    top = Element("", 0)
    stack = [top]
    parser = expat.ParserCreate()

    def begin(tag, _attributes):
        if len(stack) > MOST_NESTED:
            raise Refused(f"{name}: line {parser.CurrentLineNumber}: elements stand {MOST_NESTED} deep")
        element = Element(tag, parser.CurrentLineNumber)
        stack[-1].children.append(element)
        stack.append(element)

    def doctype(*_words):
        raise Refused(f"{name}: line {parser.CurrentLineNumber}: a document type is declared, which a config.xml does not do")

    def data(part):
        stack[-1].text += part

    parser.StartElementHandler, parser.EndElementHandler = begin, lambda _tag: stack.pop()
    parser.CharacterDataHandler, parser.StartDoctypeDeclHandler = data, doctype
    try:
        parser.Parse(text, True)
    except expat.ExpatError as fault:
        raise Refused(f"{name}: {fault}") from None
    return top.children[0]


class Writer:
    """Writes the lines, with the line of the file that each comes from."""

    def __init__(self, root: Element, notes: Notes):
        self.root, self.notes = root, notes
        self.lines: List[Tuple[int, str]] = []
        interfaces = root.one("interfaces") or Element("interfaces", 0)
        self.interfaces = {one.name: one for one in interfaces.children}
        self.aliases = {one.value("name"): one for holder in root.all("aliases") for one in holder.all("alias")}

    def write(self, element: Element, text: str) -> None:
        self.lines.append((element.line, text))

    def device(self, name: str, element: Element) -> str:
        """The device of an interface's name; a name that config.xml does not define stays."""
        found = self.interfaces.get(name)
        if found is None and name not in ("any", "openvpn", "enc0"):
            self.notes.add(Word(name, element.line, 1), "no interface of this name is defined in the file")
        return found.value("if") if found is not None and found.value("if") else name

    def curve(self, queue: Element, name: str) -> str:
        """A curve of HFSC, or ""."""
        m1, d, m2 = (queue.value(f"{name}{part}") for part in (1, 2, 3))
        if not queue.has(name) or not m2:
            return ""
        return f"{name} ({m1} {d} {m2})" if m1 and d else f"{name} {m2}"

    def queue(self, queue: Element, device: str, scheduler: str) -> None:
        """A queue and those below it."""
        rate = queue.value("bandwidth")
        words = f"queue {queue.value('name')} on {device}" + (f" bandwidth {rate}{queue.value('bandwidthtype')}" if rate else "")
        words += f" qlimit {queue.value('qlimit')}" * bool(queue.value("qlimit"))
        words += f" priority {queue.value('priority')}" * bool(queue.value("priority") and scheduler != "hfsc")
        inside = [word for word in ("red", "rio", "ecn", "codel", "default", "borrow") if queue.has(word) and queue.value(word)]
        if scheduler == "hfsc":
            inside += [text for text in (self.curve(queue, name) for name in ("linkshare", "realtime", "upperlimit")) if text]
        below = [one for one in queue.all("queue") if self.is_enabled(one)]
        names = ", ".join(one.value("name") for one in below)
        self.write(queue, words + f" {scheduler} ( {' , '.join(inside)} )" * bool(inside) + (f" {{ {names} }}" if names else ""))
        for one in below:
            self.queue(one, device, scheduler)

    def is_enabled(self, queue: Element) -> bool:
        return queue.value("enabled") in ("on", "yes", "1")

    def queues(self) -> None:
        """The queues of each interface."""
        for holder in self.root.all("shaper"):
            for queue in holder.all("queue"):
                if not self.is_enabled(queue):
                    continue
                device, scheduler = self.device(queue.value("interface"), queue), queue.value("scheduler").lower()
                below = [one for one in queue.all("queue") if self.is_enabled(one)]
                rate, limit = queue.value("bandwidth"), queue.value("tbrconfig")
                self.write(queue, f"altq on {device} {scheduler}" + (f" bandwidth {rate}{queue.value('bandwidthtype')}" if rate else "")
                           + f" tbrsize {limit}" * bool(limit) + f" queue {{ {', '.join(one.value('name') for one in below)} }}")
                for one in below:
                    self.queue(one, device, scheduler)

    def tables(self) -> None:
        """The tables of aliases of hosts and networks."""
        for name, alias in self.aliases.items():
            words = [word for word in alias.value("address").split() if word]
            if alias.value("type") in ("host", "network") and words and not set(words) & set(self.aliases):
                self.write(alias, f"table <{name}> {{ {', '.join(words)} }}")

    def ports(self, end: Element) -> str:
        """The ports of an end of a rule: those of an alias, one or a range."""
        text = end.value("port")
        alias = self.aliases.get(text)
        words = alias.value("address").split() if alias is not None else [text]
        return f" port {{ {', '.join(word.replace('-', ':') for word in words)} }}" if text else ""

    def network(self, text: str) -> str:
        """The addresses of a network's name."""
        own = self.interfaces.get(text[:-2] if text.endswith("ip") else text)
        address, size = (own.value("ipaddr"), own.value("subnet")) if own is not None else ("", "")
        try:
            ipaddress.ip_interface(f"{address}/{size or 32}")
        except ValueError:
            return f"{text}:network" if own is not None else text
        return address if text.endswith("ip") else f"{address}/{size}"

    def end(self, rule: Element, name: str) -> str:
        """The source or the destination of a rule."""
        end = rule.one(name) or Element(name, rule.line)
        address, network = end.value("address"), end.value("network")
        if address:
            host = f"<{address}>" if address in self.aliases else address
        else:
            host = self.network(network) if network else "any"
        return f"{'! ' * (end.one('not') is not None)}{host}{self.ports(end)}"

    def protocol(self, rule: Element) -> str:
        text = rule.value("protocol").lower()
        family = {"inet": " inet", "inet6": " inet6"}.get(rule.value("ipprotocol"), "")
        return family + (f" proto {{ {', '.join(text.split('/'))} }}" if text and text != "any" else "")

    def flags(self, rule: Element) -> str:
        """The flags of TCP of a rule."""
        if rule.has("tcpflags_any"):
            return " flags any"
        wanted, of = ("".join(FLAGS.get(word, word) for word in rule.value(name).lower().split(",") if word) for name in ("tcpflags1", "tcpflags2"))
        return f" flags {wanted}/{of}" if of else ""

    def rule(self, rule: Element) -> None:
        """A rule."""
        is_floating = rule.has("floating")
        action = {"reject": "block"}.get(rule.value("type") or "pass", rule.value("type") or "pass")
        direction = rule.value("direction") if is_floating else "in"
        devices = [self.device(name, rule) for name in rule.value("interface").split(",") if name and name != "any"]
        words = action + (f" {direction}" if direction in ("in", "out") else "") + " quick" * (rule.has("quick") if is_floating else True)
        words += (f" on {{ {', '.join(devices)} }}" if devices else "") + self.protocol(rule)
        words += f" from {self.end(rule, 'source')} to {self.end(rule, 'destination')}" + self.flags(rule)
        if rule.value("icmptype"):
            words += f" {'icmp6-type' if rule.value('ipprotocol') == 'inet6' else 'icmp-type'} {{ {rule.value('icmptype')} }}"
        for name in ("dscp", "tag", "tagged"):
            words += f" {name} {rule.value(name)}" * bool(rule.value(name))
        if action == "pass":
            words += " no state" if rule.value("statetype") == "none" else " keep state"
        queue, bare = rule.value("defaultqueue"), rule.value("ackqueue")
        named = queue and queue != "none"
        words += (f" queue ({queue}, {bare})" if bare and bare != "none" else f" queue {queue}") if named else ""
        for child in rule.children:
            if child.name not in KNOWN | PASSED and child.text.strip() and action != "block":
                self.notes.add(Word(child.name, child.line, 1), "this element of a rule is not known here, and is passed over", has_effect=bool(named))
        self.write(rule, words)

    def rules(self) -> None:
        """The rules, floating ones first; before them pfSense lets out what comes from the machine or through it."""
        self.write(self.root.one("filter") or self.root, "pass out all keep state")
        rules = [rule for holder in self.root.all("filter") for rule in holder.all("rule") if rule.one("disabled") is None]
        for rule in sorted(rules, key=lambda rule: not rule.has("floating")):
            self.rule(rule)


def pf_lines(text: str, notes: Notes) -> Tuple[str, Dict[int, int]]:
    """The lines of pf.conf of a config.xml, and for each the line of the file."""
    root = tree_of(notes.name, text)
    writer = Writer(root, notes)
    writer.tables()
    writer.queues()
    writer.rules()
    if not any(line.startswith("altq") for _number, line in writer.lines):
        raise Refused(f"{notes.name}: no queue of an interface is enabled in it (shaper)")
    clean = [line.replace("\n", " ").replace("#", " ").replace("\\", " ") for _number, line in writer.lines]
    return "\n".join(clean) + "\n", {place: number for place, (number, _line) in enumerate(writer.lines, 1)}

"""Turns the rules of pf.conf(5) that name a queue into filters, as far as a filter can say what they ask for."""

from .altq_text import Address, Filter, rank
from .asked import listed

LOWDELAY = Address(0x10, 0xFF)
MOST_OF_A_RULE = 256


def families(rule, src, dst, protocol):
    """The families of a combination of a rule; none where they contradict each other."""
    named = {family for family in (rule.family, src[0], dst[0], {1: 4, 58: 6}.get(protocol)) if family}
    return sorted(named) if len(named) == 1 else [] if named else [4, 6]


def filters_of(rule, owner, service):
    """The filters of a rule for packets in the direction of the rule."""
    sources, targets = ([one for some in ends for one in some.addresses() or []] for ends in (rule.src, rule.dst))
    return [Filter(owner, family, dst[1], dport, src[1], sport, protocol, service)
            for protocol in rule.protocols for src in sources for dst in targets
            for family in families(rule, src, dst, protocol) for sport in listed(rule.sport) for dport in listed(rule.dport)]


def turned(filters):
    """The filters of the answers."""
    return [Filter(one.owner, one.family, one.src, one.sport, one.dst, one.dport, one.protocol, one.tos) for one in filters]


class Placer:
    """Gives one interface the filters of the rules.

    A packet is looked at where it comes in and again where it goes out, and a queue that is named where it goes out counts
    more. Of the rules of one place the first that is quick, else the last holds. Answers are placed by the rule of their state.
    """

    def __init__(self, interface, rules, notes):
        self.interface, self.rules, self.notes = interface, rules, notes
        self.names = {one.name for one in interface.classes}
        self.inner = {one.parent for one in interface.classes} if interface.discipline == "hfsc" else set()
        self.default = next(one.name for one in interface.classes if one.is_default)

    def sides(self, rule):
        """For each place where a rule sees this interface's packets: whether they go out here, and whether they are answers."""
        here = not rule.interfaces or self.interface.name in rule.interfaces
        elsewhere = not rule.interfaces or set(rule.interfaces) != {self.interface.name}
        goes_out, comes_in = rule.direction in (None, "out"), rule.direction in (None, "in")
        if rule.direction is None and not rule.interfaces:
            elsewhere = False
        ways = [(here and goes_out, (True, False)), (elsewhere and comes_in, (False, False)),
                (here and comes_in and rule.has_state, (True, True)), (elsewhere and goes_out and rule.has_state, (False, True))]
        return [side for is_so, side in ways if is_so]

    def owners(self, rule):
        """The class of a rule's packets by type of service: those of low delay first where there are two queues."""
        second = [(rule.queues[1].text, LOWDELAY)] if len(rule.queues) == 2 and rule.tos in (None, LOWDELAY) else []
        found = second if second and rule.tos else second + [(rule.queues[0].text, rule.tos)]
        return [(name, service) for name, service in found if name in self.names and name not in self.inner]

    def row(self, at, rule, side):
        """The key and the filters of a rule at a place: what goes out counts more, then quick rules, the first most."""
        goes_out, is_answer = side
        owners = self.owners(rule) if rule.queues else [(self.default, rule.tos)]
        filters = [one for name, service in owners for one in filters_of(rule, name, service)]
        key = (rule.word.text != "match", goes_out, rule.is_quick, -at if rule.is_quick else at)
        return key, turned(filters) if is_answer else filters

    def rows(self):
        """The rows of all rules, those of rules without a queue where they take packets back to the default class.

        What a `match` says of a queue holds until another rule names one, so a rule without a queue takes packets of a `pass` alone.
        """
        seen = [(at, rule, side) for at, rule in enumerate(self.rules) for side in self.sides(rule)]
        rows = [self.row(at, rule, side) for at, rule, side in seen if rule.unsaid is None and rule.queues and self.owners(rule)]
        places = {key[:2] for key, _ in rows}
        least = min((key for key, _ in rows if key[0]), default=None)
        for at, rule, side in seen if least else []:
            key, filters = self.row(at, rule, side)
            if rule.queues or rule.word.text == "match" or key < least:
                continue
            if rule.unsaid is not None:
                self.notes.add(rule.unsaid[0], f"{rule.unsaid[1]}: what this rule without a queue takes from rules with one stays theirs")
            elif len(places) == 1 and key[:2] in places:
                rows.append((key, filters))
            else:
                self.notes.add(rule.word, "a rule without a queue: what it takes from rules with one is not told by filters")
        return sorted(rows, key=lambda row: abs(row[0][3]))


def told(rule, interfaces, notes):
    """Notes what of a rule with a queue becomes no filter."""
    names = {one.name for interface in interfaces for one in interface.classes}
    inner = {one.parent for interface in interfaces if interface.discipline == "hfsc" for one in interface.classes}
    if rule.unsaid is not None:
        notes.add(rule.unsaid[0], f"{rule.unsaid[1]}, so its rule is left out")
        return
    if len(filters_of(rule, "", None)) > MOST_OF_A_RULE:
        rule.strange(rule.word, "")
        notes.add(rule.word, f"the rule would be more than {MOST_OF_A_RULE} filters, and is left out")
    for word in rule.queues:
        if word.text in inner:
            notes.add(word, "it has classes below it, and HFSC has packets in others alone: the rule is left out")
        elif word.text not in names:
            notes.add(word, "no queue of the interfaces that are imported has this name")
    if len(rule.queues) == 2:
        notes.add(rule.queues[1], "it takes the packets of low delay; that it takes TCP's bare acknowledgements has no equivalent")


def add_filters(rules, interfaces, notes):
    """Gives each interface the filters of the rules."""
    if any(rule.word.text == "block" for rule in rules):
        notes.say("what a block rule stops is no arrival of the queue: leave it out of the capture")
    passing = [rule for rule in rules if rule.word.text != "block"]
    for rule in rules:
        if rule.queues and rule.word.text == "block":
            notes.add(rule.queue_word, "what is blocked never comes to a queue, so the rule is left out", has_effect=False)
        elif rule.queues:
            told(rule, interfaces, notes)
    for interface in interfaces:
        rank(Placer(interface, passing, notes).rows(), interface)

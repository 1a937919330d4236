"""A slow, plain reading of pf's rules, packet by packet with a table of states, to which the classifier is held; and frames by hand.

It shares nothing with the workbench. pf.conf(5): of the rules that match the last decides, or the first that is quick; a packet is
looked at where it comes in and where it goes out; what a rule passes with a state is passed by it from then on, answers too; a state
for TCP is made by a SYN; a tag stays until another rule changes it; the second queue takes low delay and acknowledgements
without data. The machine stands between an inside network on em1 and em0, where the queues are.
"""

import struct
from collections import namedtuple

# A rule; None or "" leaves a part open. `sport` and `dport` are (operator, number, number), `src` and `dst` (is_not, net, bits).
Rule = namedtuple("Rule", "action direction quick on proto src sport dst dport tos flags state tag tagged queues")
# A packet of IPv4: where it goes, "out" to em0 or "in" from there, addresses as numbers, the flags of TCP in letters, its payload in bytes.
Packet = namedtuple("Packet", "way proto src sport dst dport tos flags payload")
NUMBERS, BITS = {"tcp": 6, "udp": 17}, {"F": 1, "S": 2, "R": 4, "P": 8, "A": 16}
BARE, STARTS, EVER = "A", "S", ""


def dotted(address):
    return ".".join(str(address >> shift & 255) for shift in (24, 16, 8, 0))


def port_text(asked):
    operator, least, most = asked
    if operator in ("><", "<>"):
        return f" port {least} {operator} {most}"
    return f" port {least}:{most}" if operator == ":" else f" port {operator} {least}"


def end_text(word, net, port):
    host = "any" if net is None else f"{'! ' * net[0]}{dotted(net[1])}/{net[2]}"
    return f" {word} {host}" + (port_text(port) if port else "")


def text_of(rule):
    """The line of a rule."""
    words = f"{rule.action} {rule.direction} {'quick ' * rule.quick}{f'on {rule.on} ' * bool(rule.on)}inet{f' proto {rule.proto}' * bool(rule.proto)}"
    words += end_text("from", rule.src, rule.sport) + end_text("to", rule.dst, rule.dport)
    words += f" tos {rule.tos}" * bool(rule.tos) + f" flags {rule.flags}" * bool(rule.flags) + f" tag {rule.tag}" * bool(rule.tag)
    words += (f" {'! ' * rule.tagged[0]}tagged {rule.tagged[1]}" if rule.tagged else "") + {True: " keep state", False: " no state", None: ""}[rule.state]
    if rule.queues and rule.action != "block":
        words += f" queue {rule.queues[0]}" if len(rule.queues) == 1 else f" queue ({rule.queues[0]}, {rule.queues[1]})"
    return words + "\n"


def port_is(asked, port):
    if not asked:
        return True
    operator, least, most = asked
    return {"=": port == least, "!=": port != least, ">": port > least, "<": port < least, ":": least <= port <= most, "><": least < port < most,
            "<>": port < least or port > most}[operator]


def net_is(asked, address):
    if asked is None:
        return True
    is_not, net, bits = asked
    return (address >> (32 - bits) == net >> (32 - bits)) != is_not


def letters(flags):
    return sum(BITS[letter] for letter in flags)


def flags_are(rule, packet):
    if packet.proto != "tcp" or rule.flags == "any":
        return True
    asked = rule.flags or ("S/SA" if rule.action == "pass" and rule.state is not False else "")
    if not asked:
        return True
    wanted, of = asked.split("/")
    return letters(packet.flags) & letters(of) == letters(wanted)


def matches(rule, packet, direction, interface, tag):
    return (rule.direction == direction and rule.on in ("", interface) and rule.proto in ("", packet.proto) and net_is(rule.src, packet.src)
            and net_is(rule.dst, packet.dst) and port_is(rule.sport, packet.sport) and port_is(rule.dport, packet.dport)
            and (not rule.tos or packet.tos == int(rule.tos, 0)) and flags_are(rule, packet)
            and (not rule.tagged or (tag == rule.tagged[1]) != rule.tagged[0]))


def verdict(rules, packet, direction, interface, tag):
    """The rule that decides, the match whose queue holds, and the tag."""
    last = match = None
    for rule in rules:
        if not matches(rule, packet, direction, interface, tag):
            continue
        if rule.action == "match":
            match = rule if rule.queues else match
        else:
            last = rule
        tag = rule.tag or tag
        if rule.quick and rule.action != "match":
            break
    return last, match, tag


def queue_of(rule, packet):
    """The queue that a rule names for a packet, or None."""
    if rule is None or not rule.queues or rule.action == "block":
        return None
    is_second = packet.tos == 16 or (packet.proto == "tcp" and "A" in packet.flags and packet.payload == 0)
    return rule.queues[1] if len(rule.queues) == 2 and is_second else rule.queues[0]


class Machine:
    """A machine of pf: each packet that goes out on em0 has a queue there, "blocked", or never came so far."""

    def __init__(self, rules, default):
        self.rules, self.default, self.states = rules, default, {}

    def look(self, packet, direction, interface, tag):
        flow = (packet.proto, packet.src, packet.sport, packet.dst, packet.dport)
        answered = (packet.proto, packet.dst, packet.dport, packet.src, packet.sport)
        for key in ((direction, flow), ({"in": "out", "out": "in"}[direction], answered)):
            if key in self.states:
                return self.states[key]
        found = verdict(self.rules, packet, direction, interface, tag)
        if found[0] is not None and found[0].action == "pass" and found[0].state is not False:
            self.states[direction, flow] = found
        return found

    def passed(self, packet):
        """None where a rule of the first interface stops a packet, else its queue, or "blocked"."""
        first, second = ("em1", "em0") if packet.way == "out" else ("em0", "em1")
        queue, tag = None, ""
        for direction, interface in (("in", first), ("out", second)):
            rule, match, tag = self.look(packet, direction, interface, tag)
            if rule is not None and rule.action == "block":
                return "blocked" if direction == "out" else None
            queue = queue_of(rule, packet) or queue_of(match, packet) or queue
        return queue or self.default


def frame(packet):
    """The bytes of a packet in Ethernet."""
    head = struct.pack(">HHI4sBBH", packet.sport, packet.dport, 1, bytes(4), 80, letters(packet.flags), 0) + bytes(4) if packet.proto == "tcp" else (
        struct.pack(">HHHH", packet.sport, packet.dport, 8 + packet.payload, 0))
    ip = struct.pack(">BBHIBBHII", 0x45, packet.tos, 20 + len(head) + packet.payload, 0, 64, NUMBERS[packet.proto], 0, packet.src, packet.dst)
    return bytes(6) + bytes.fromhex("020000000001") + b"\x08\x00" + ip + head + bytes(packet.payload)

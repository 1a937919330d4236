"""Makes an altq.conf of the queues of pf.conf (FreeBSD, pfSense) or of tc (Linux).

FILE is a pf.conf(5) with altq and queue lines, pfSense's /tmp/rules.debug, or its config.xml; or a script of tc(8) commands, or what
`tc qdisc show`, `tc -d class show` and `tc filter show` print, one behind the other. Of tc hfsc is read, with u32, flower
and matchall. What has no equivalent, or means something else here, is a comment at the head of the altq.conf with its line
and word; docs/operators/PF-TC.md has the table. What has an effect that the altq.conf does not have is counted in the last line. The exit
status is 0 where nothing has, 3 where something has, 2 where FILE is refused and nothing is written.
"""

import re
import sys
import tempfile
from fractions import Fraction

from . import pf_filters, pf_queues, pf_rules, play, tc_classes, tc_filters
from .altq_text import Notes, try_all, text_of
from .asked import entry_of
from .config_kinds import NAMES, kind_of
from .faults import Missing, Refused
from .pf_told import tell_statements
from .pf_words import statements
from .pfsense_xml import pf_lines
from .printable import printable
from .tc_words import commands
from .written import new_file

NAME = "import"
HELP = "make an altq.conf of the queues of pf.conf or tc"
HAS_EFFECT = 3


def add_arguments(parser):
    parser.add_argument("file", help="pf.conf, config.xml of pfSense, or lines of tc; - is standard input")
    parser.add_argument("--as", dest="kind", choices=["pf", "pfsense", "tc"], help="what FILE is, where its words do not tell")
    parser.add_argument("--to", metavar="CONF", help="the altq.conf to write; else it is printed")
    parser.add_argument("--interface", metavar="NAME", help="the device of what tc shows without one")
    parser.add_argument("--bandwidth", metavar="RATE", help="the link's bandwidth where FILE does not say it, as 10mbit or 10Mb")
    parser.add_argument("--default", metavar="CLASS", help="the default class where FILE names none")
    parser.add_argument("--address", action="append", default=[], metavar="NAME=ADDRESS[,..]",
                        help="the addresses of a name that FILE does not tell: of (self), em0:network, a table or a host")
    parser.add_argument("--program", metavar="PATH", help="the program that checks what was made")


def rate(text):
    """A rate of the command line in bits per second, in the units of this language, of pf or of tc."""
    if text is None:
        return None
    match = re.fullmatch(r"(\d+(?:\.\d+)?)([KMG]?b?|[kmgt]?bit)", text)
    if match is None:
        raise Refused(f"--bandwidth {text}: no rate, as 10M, 10Mb or 10mbit")
    return int(Fraction(match[1]) * 1000 ** (1 + "kmgt".find(match[2][:1].lower() or "-")))


def kind(text, name):
    """Whether a text is pf's, pfSense's or tc's."""
    found = kind_of(text)
    if found is None:
        raise Refused(f"{name}: it has no line of pf.conf or tc that tells what it is: say it by --as pf or --as tc")
    if found == "altq":
        raise Refused(f"{name}: it is {NAMES[found]}, of which nothing is imported")
    return found


def pf_statements(text, kind, notes):
    """The statements of a pf.conf, or those that pfSense makes of a config.xml."""
    if kind != "pfsense":
        return list(statements(text, notes))
    text, places = pf_lines(text, notes)
    return [[word._replace(line=places[word.line]) for word in words] for words in statements(text, notes)]


def pf_parts(text, given, notes):
    """The rules of a pf.conf, and its interfaces without filters."""
    lines = pf_statements(text, given.kind, notes)
    interfaces = pf_queues.interfaces_of(lines, given, notes)
    rules = pf_rules.rules_of(lines, pf_rules.tables_of(lines, given.addresses), notes)
    pf_rules.settle_groups(rules, interfaces, notes)
    tell_statements(lines, [one.name for one in interfaces], notes)
    return rules, interfaces


def tc_parts(text, given, notes):
    """The devices of lines of tc, and their interfaces without filters."""
    devices = tc_classes.devices_of(commands(text, notes), given, notes)
    if not devices:
        raise Refused(f"{notes.name}: no qdisc, class or filter stands in it")
    return devices, [tc_classes.interface_of(device, given, notes) for device in devices]


def imported(text, given, notes):
    """The interfaces of a text."""
    given.kind = given.kind or kind(text, notes.name)
    if given.kind != "tc":
        rules, interfaces = pf_parts(text, given, notes)
        pf_filters.add_filters(rules, interfaces, notes)
        return interfaces
    devices, interfaces = tc_parts(text, given, notes)
    for device, interface in zip(devices, interfaces):
        tc_filters.add_filters(device, interface, notes)
    return interfaces


def addresses_of(words):
    """The addresses of `--address NAME=ADDRESS[,..]` by name."""
    found = {}
    for word in words:
        name, _, texts = word.partition("=")
        entries = [entry_of(text) for text in texts.split(",")]
        if None in entries or not name:
            raise Refused(f"--address {word}: NAME=ADDRESS[,..] is wanted, as (self)=10.0.0.1 or <phones>=10.1.0.0/16")
        found[name] = entries
    return found


def conf_of(text, given):
    """The altq.conf of a text, with its interfaces and its notes."""
    notes = Notes(given.file)
    given.bandwidth, given.addresses = rate(given.bandwidth), addresses_of(given.address)
    interfaces = imported(text, given, notes)
    try_all(interfaces, notes)
    return text_of(interfaces, notes), interfaces, notes


def check(conf, interfaces, named):
    """Asks the program whether it accepts what was made; without a program nothing is asked."""
    try:
        play.program(named)
    except Missing:
        return
    with tempfile.NamedTemporaryFile("w", suffix=".conf") as file:
        file.write(conf)
        file.flush()
        for one in interfaces:
            play.check(file.name, one.name, named)


def read(name):
    """The text of a file; - is standard input."""
    if name == "-":
        return sys.stdin.read()
    with open(name, encoding="utf-8", errors="replace") as file:
        return file.read()


def run(args):
    conf, interfaces, notes = conf_of(read(args.file), args)
    check(conf, interfaces, args.program)
    if args.to is None:
        sys.stdout.write(conf)
    else:
        with new_file(args.to, "w", encoding="utf-8") as file:
            file.write(conf)
        names = ", ".join(one.name for one in interfaces)
        classes, filters = (sum(len(part) for part in parts) for parts in zip(*((one.classes, one.filters) for one in interfaces)))
        print("\n".join(notes.lines() + [f"{printable(args.to)}: {names}, {classes} classes, {filters} filters"]))
    told = notes.effects()
    if told is None:
        return 0
    sys.stdout.flush()
    print(f"altqwork: {told}", file=sys.stderr)
    return HAS_EFFECT

"""`import` on twenty configurations of pf and tc by hands that did not write it, from the manuals' grammar.

What each becomes, import_by_others/NAME.conf, was written before `import` was run on it. A first line there may give the
options of the call.
"""

import os
import re

import pytest

from altqplay.workbench import importing
from altqplay.workbench.faults import Missing
from altqplay.workbench.play import check, program
from test_import import PF, TC, made, number, options_of, winner

HERE = os.path.join(os.path.dirname(os.path.abspath(__file__)), "import_by_others")
SOURCES = sorted(name for name in os.listdir(HERE) if not name.endswith(".conf"))
CURVES = {"rt": ("rt",), "ls": ("ls",), "ul": ("ul",), "sc": ("rt", "ls")}
VALUED = ("priority", "exactbandwidth", "pbandwidth", "pshare", "qlimit")
PROTOCOLS = {"icmp": "1", "tcp": "6", "udp": "17"}
# The lines of each file that have something without an equivalent here, or that means something else.
TOLD = {"02-cbq-office.pf": {4, 17}, "03-drops.pf": {6}, "05-pfsense-hfsc.pf": {53}, "06-pfsense-cbq.pf": {10}, "07-nested.pf": {7},
        "12-left-out.pf": {1, 7, 8, 9, 10, 11, 12}, "14-shown.tc": {3}, "15-curves.tc": {2, 3, 4, 5}, "16-flower.tc": {12},
        "18-leaves.tc": {7, 8, 9}, "20-order.tc": {6, 7, 8}}


def read(name):
    with open(os.path.join(HERE, name), encoding="utf-8") as file:
        return file.read()


def expected(source):
    """The altq.conf that a file becomes, and the options of the call."""
    text = read(source.rsplit(".", 1)[0] + ".conf")
    first = re.match(r"# altqwork import (.*)", text)
    return text, dict(re.findall(r"--(\w+) (\S+)", first[1])) if first else {}


def class_options(words):
    """The options of a class: each curve, each value, and the words that stand alone."""
    found = {"qlimit": "50"}
    while words:
        width = 4 if words[0] in CURVES else 2 if words[0] in VALUED else 1
        for name in CURVES.get(words[0], (words[0],)):
            found[name] = words[1:width]
        words = words[width:]
    return {name: value if isinstance(value, str) else " ".join(value) for name, value in found.items()}


def filter_words(words):
    """A filter without its number, protocols and services as decimal numbers, addresses of IPv6 with a length; and the number."""
    plain = [PROTOCOLS.get(word, str(int(word, 16)) if word.startswith("0x") else word) for word in words[5:]]
    return words[:3] + [word + "/128" if ":" in word and "/" not in word else word for word in plain], int(words[4])


def by_interface(conf):
    """Of each interface its words, its classes with their parents and options, and its filters as they are asked in turn.

    Filters of one number and class that stand together may have any order.
    """
    found = {}
    for line in conf.split("\n"):
        words = [number(word) for word in line.split("#")[0].split()]
        if words[:1] == ["interface"]:
            found[words[1]] = (words, {}, [])
        elif words[:1] == ["class"]:
            found[words[2]][1][words[3]] = (words[1], words[4], class_options(words[5:]))
        elif words:
            found[words[1]][2].append(filter_words(words))
    return {name: (words, classes, in_turn(filters)) for name, (words, classes, filters) in found.items()}


def in_turn(filters):
    """The filters, the greatest number first, as groups of one number and class."""
    groups = []
    for words, rank in sorted(filters, key=lambda one: -one[1]):
        if not groups or groups[-1][0] != (rank, words[2]):
            groups.append(((rank, words[2]), []))
        groups[-1][1].append(words)
    return [sorted(group) for _, group in groups]


@pytest.mark.parametrize("source", SOURCES)
def test_case(source):
    conf, options = expected(source)
    got, notes = made(read(source), **options)
    assert by_interface(got) == by_interface(conf)
    assert {int(line) for line in re.findall(r"^# line (\d+) word", got, re.M)} == TOLD.get(source, set()), notes


@pytest.mark.parametrize("source", SOURCES)
def test_check_says_the_same(source, tmp_path):
    """The canonical text of both, classes in any order and filters but for their numbers."""
    try:
        program()
    except Missing:
        pytest.skip("there is no program")
    conf, options = expected(source)
    said = []
    for text in (conf, made(read(source), **options)[0]):
        (tmp_path / "altq.conf").write_text(text)
        lines = check(str(tmp_path / "altq.conf"), re.search(r"^interface (\S+)", text, re.M)[1])
        said.append(by_interface("\n".join(line for line in lines if line.split()[0] in ("interface", "class", "filter", "filter6"))))
    assert said[0] == said[1]


@pytest.mark.parametrize("tos, owners", [("", ["b", "a"]), ("tos lowdelay", ["b"]), ("tos 0x08", ["a"])])
def test_second_queue_takes_low_delay(tos, owners):
    """By pf.conf(5) packets of low delay go to the second of two queues, those of a rule that asks for them too."""
    conf, _ = made(PF + f"queue b bandwidth 1Mb\npass out on em0 inet proto tcp all {tos} no state queue (a, b)\n")
    assert [line.split()[2] for line in conf.split("\n") if line.startswith("filter")] == owners


CLASS = "tc class add dev eth0 parent 1: classid 1:1 hfsc sc rate 1mbit\n"


@pytest.mark.parametrize("asked, ports", [
    ("80 >< 84", [81, 82, 83]), ("{ 22, 80 >< 82, 443 }", [22, 81, 443]), ("http >< 83", [81, 82]), ("100 >< 165", list(range(101, 165))),
])
def test_ports_between_two(asked, ports):
    """By pf.conf(5) neither end belongs to a range with `><`."""
    conf, _ = made(PF + f"queue b bandwidth 1Mb\npass out on em0 inet proto tcp from any to any port {asked} no state queue b\n")
    assert [int(line.split()[6]) for line in conf.split("\n") if line.startswith("filter")] == ports


@pytest.mark.parametrize("asked", ["100 >< 166", "80 >< 81", "x >< 90", "80 <> 90", "{ 80 >< 81, 443 }"])
def test_ports_that_no_filters_say(asked):
    """More than 64 ports, none, one without a number, and those outside of two."""
    conf, notes = made(PF + f"queue b bandwidth 1Mb\npass out on em0 inet proto tcp from any to any port {asked} no state queue b\n")
    assert "\nfilter" not in conf and "# line 4 word" in conf, notes


def test_match_keeps_its_queue():
    """By pf.conf(5) what a `match` says holds until another rule says otherwise; the `pass` without a queue says nothing."""
    text = PF + "queue b bandwidth 1Mb\nmatch out on em0 inet proto udp from any to any port 53 queue b\npass out on em0 inet all\n"
    _, (interface,), _ = importing.conf_of(text, options_of("text"))
    assert winner(interface, (1, 2, 3, 53, 17, 0)) == "b" and "# line" not in made(text)[0]


@pytest.mark.parametrize("selector, line", [
    ("match u32 0 0", "0 0 0 0 0"), ("match u8 0x10 0xff match ip dport 22 0xffff", None), ("match u16 0x00b8 0x00fc", "0 0 0 0 0 tos 184 tosmask 252"),
    ("match ip dport 22 0xffff match u32 0 0", "0 22 0 0 0"), ("match u32 0x00100000 0x00ff0000 match ip protocol 6 0xff", "0 0 0 0 6 tos 16 tosmask 255"),
])
def test_u32_without_a_place(selector, line):
    """By tc-u32(8) `at` may be left out, for the first byte of the header: version and length, and then the type of service."""
    conf, _ = made(TC + CLASS + f"tc filter add dev eth0 parent 1: protocol ip prio 1 u32 {selector} flowid 1:1")
    assert f"filter eth0 1:1 ruleno 1 {line}\n" in conf if line else "\nfilter" not in conf and "# line 3 word" in conf


SHOWN = "filter parent 1: protocol ip pref 1 u32 chain 0 \nfilter parent 1: protocol ip pref 1 u32 chain 0 fh 800: ht divisor 1 \n"


@pytest.mark.parametrize("said", ["flowid", "*flowid"])
def test_class_of_a_shown_filter(said):
    """`tc filter show` writes a star before `flowid`, or none, by its version."""
    shown = SHOWN + f"filter parent 1: protocol ip pref 1 u32 chain 0 fh 800::800 order 2048 key ht 800 bkt 0 {said} 1:1 not_in_hw \n"
    conf, _ = made("qdisc hfsc 1: root refcnt 2 default 0x1\nclass hfsc 1: root\nclass hfsc 1:1 parent 1: sc m1 0bit d 0us m2 1Mbit\n"
                   + shown + "  match 00000016/0000ffff at 20\n", interface="eth0")
    assert "filter eth0 1:1 ruleno 1 0 22 0 0 0\n" in conf and "# line 4" not in conf


@pytest.mark.parametrize("shown, line", [
    ("filter parent 1: protocol ip pref 1 u32 chain 0 fh 800::800 order 2048 key ht 800 bkt 0 not_in_hw \n  match 00000016/0000ffff at 20\n", 6),
    ("filter parent 1: protocol ip pref 2 flower chain 0 \nfilter parent 1: protocol ip pref 2 flower chain 0 handle 0x1 \n  dst_port 22\n", 7),
])
def test_shown_filter_without_a_class_is_told(shown, line):
    conf, _ = made("qdisc hfsc 1: root refcnt 2 default 0x1\nclass hfsc 1: root\nclass hfsc 1:1 parent 1: sc m1 0bit d 0us m2 1Mbit\n"
                   + SHOWN + shown, interface="eth0")
    assert "\nfilter" not in conf and re.findall(r"^# line (\d+) word", conf, re.M) == [str(line)]
